//! The event program: lines in, answers out. Refusals are a layer of their
//! own, written from document 01; effects are the replica's.

use crate::bodega::{BodegaReplica, ReqBatch, Status, key_bytes, key_string};
use crate::item::{Item, write_u64};
use crate::server::{ApiRequest, Command};
use crate::utils::{Bitmap, RespondersConf};

pub const MAX_LINE: usize = 1024;
pub const MAX_KEY: usize = 48;
pub const MAX_SLOT: u64 = (1 << 48) - 1;
pub const MAX_SLOTS: usize = 32;
pub const MAX_BATCH: usize = 8;
pub const MAX_HELD: usize = 16;
pub const MAX_WRITTEN: usize = 256;
pub const MAX_RANGES: usize = 64;

/// Line kinds; the last place counts lines of no known name.
pub const KINDS: [&str; 18] = [
    "node", "lead", "range", "whole", "drop", "reset", "show", "heard", "guard", "prepared",
    "record", "reply", "notice", "commit", "bars", "read", "release", "(other)",
];

/// One request of a *record* line.
#[derive(Clone, Copy, Default)]
struct Request<'a> {
    client: u64,
    request: u64,
    key: &'a [u8],
    value: Option<u64>,
}

enum Line<'a> {
    Node([u64; 3]),
    Lead(u64),
    Range(&'a [u8], &'a [u8], u64),
    Whole(u64),
    Drop(u64),
    Reset,
    Show,
    Heard {
        peer: u64,
        ballot: u64,
        with: bool,
        bars: [u64; 3],
    },
    Guard([u64; 3]),
    Prepared(u64),
    Record {
        slot: u64,
        ballot: u64,
        requests: usize,
        long_key: bool,
    },
    Reply([u64; 3]),
    Notice([u64; 3]),
    Commit([u64; 3]),
    Bars([u64; 4]),
    Read {
        client: u64,
        request: u64,
        leases: u64,
        key: &'a [u8],
    },
    Release(u64),
}

/// Fields of a line, parted by commas.
struct Fields<'a> {
    rest: Option<&'a [u8]>,
}

impl<'a> Fields<'a> {
    #[inline]
    fn next(&mut self) -> Option<&'a [u8]> {
        let rest = self.rest?;
        if let Some(comma) = rest.iter().position(|&b| b == b',') {
            self.rest = Some(&rest[comma + 1..]);
            Some(&rest[..comma])
        } else {
            self.rest = None;
            Some(rest)
        }
    }

    #[inline]
    fn number(&mut self) -> Option<u64> {
        number(self.next()?)
    }

    fn numbers<const N: usize>(&mut self) -> Option<[u64; N]> {
        let mut numbers = [0; N];
        for n in &mut numbers {
            *n = self.number()?;
        }
        Some(numbers)
    }

    /// `whole` if no field is left.
    fn end<T>(&self, whole: T) -> Option<T> {
        self.rest.is_none().then_some(whole)
    }
}

/// Digits within 64 bits.
#[inline]
#[must_use]
pub fn number(field: &[u8]) -> Option<u64> {
    if field.is_empty() {
        return None;
    }
    let mut n: u64 = 0;
    for &b in field {
        let digit = b.wrapping_sub(b'0');
        if digit > 9 {
            return None;
        }
        n = n.checked_mul(10)?.checked_add(u64::from(digit))?;
    }
    Some(n)
}

fn kind_of(name: &[u8]) -> usize {
    KINDS[..KINDS.len() - 1]
        .iter()
        .position(|k| k.as_bytes() == name)
        .unwrap_or(KINDS.len() - 1)
}

/// Reads a line's fields; the requests of a *record* go to `batch`, as many as
/// it takes.
fn parse<'a>(
    kind: usize,
    mut fields: Fields<'a>,
    batch: &mut [Request<'a>; MAX_BATCH],
) -> Option<Line<'a>> {
    let f = &mut fields;
    let line = match KINDS[kind] {
        "node" => Line::Node(f.numbers()?),
        "lead" => Line::Lead(f.number()?),
        "range" => Line::Range(f.next()?, f.next()?, f.number()?),
        "whole" => Line::Whole(f.number()?),
        "drop" => Line::Drop(f.number()?),
        "reset" => Line::Reset,
        "show" => Line::Show,
        "heard" => Line::Heard {
            peer: f.number()?,
            ballot: f.number()?,
            with: match f.number()? {
                0 => false,
                1 => true,
                _ => return None,
            },
            bars: f.numbers()?,
        },
        "guard" => Line::Guard(f.numbers()?),
        "prepared" => Line::Prepared(f.number()?),
        "record" => {
            let (slot, ballot) = (f.number()?, f.number()?);
            let mut requests = 0;
            let mut long_key = false;
            while f.rest.is_some() {
                let request = Request {
                    client: f.number()?,
                    request: f.number()?,
                    key: f.next()?,
                    value: match f.next()? {
                        b"" => None,
                        value => Some(number(value)?),
                    },
                };
                long_key |= request.key.len() > MAX_KEY;
                if requests < MAX_BATCH {
                    batch[requests] = request;
                }
                requests += 1;
            }
            Line::Record {
                slot,
                ballot,
                requests,
                long_key,
            }
        }
        "reply" => Line::Reply(f.numbers()?),
        "notice" => Line::Notice(f.numbers()?),
        "commit" => Line::Commit(f.numbers()?),
        "bars" => Line::Bars(f.numbers()?),
        "read" => Line::Read {
            client: f.number()?,
            request: f.number()?,
            leases: f.number()?,
            key: f.next()?,
        },
        "release" => Line::Release(f.number()?),
        _ => return None,
    };
    fields.end(line)
}

/// A node and its draft.
#[derive(Clone)]
pub(crate) struct Host {
    pub(crate) node: BodegaReplica,
    pub(crate) draft: RespondersConf<()>,
    /// The population that the draft's edits are held to: the node's, but for
    /// rosters that a call is given and no line makes.
    pub(crate) draft_population: u8,
}

/// The event program's state between lines.
#[derive(Clone, Default)]
pub struct Replay {
    host: Option<Box<Host>>,
    items: Vec<Item>,
    lines: u64,
}

/// Refusal number, lowest that applies.
type Verdict = Result<(), u8>;

fn refuse_if(applies: bool, ground: u8) -> Verdict {
    if applies { Err(ground) } else { Ok(()) }
}

impl Replay {
    #[must_use]
    pub fn new() -> Self {
        Self::default()
    }

    pub(crate) fn host(&self) -> Option<&Host> {
        self.host.as_deref()
    }

    pub(crate) fn host_mut(&mut self) -> Option<&mut Host> {
        self.host.as_deref_mut()
    }

    /// Takes a line as a call that is lent places for so many items: 20 where
    /// it has more, and then nothing changes.
    pub(crate) fn call(&mut self, line: &[u8], places: usize) -> u8 {
        let before = self.clone();
        let (_, verdict) = self.apply(line);
        let refusal = verdict.err().unwrap_or(0);
        if refusal == 0 && self.items.len() > places {
            *self = before;
            self.items.clear();
            return 20;
        }
        refusal
    }

    /// How many lines were taken or refused.
    pub(crate) fn lines(&self) -> u64 {
        self.lines
    }

    /// The items of the last line, if it was taken.
    #[must_use]
    pub fn items(&self) -> &[Item] {
        &self.items
    }

    /// Takes the next line (without its newline) and appends its answer.
    /// Returns the line's kind and its refusal, 0 if it was taken.
    pub fn line(&mut self, line: &[u8], out: &mut Vec<u8>) -> (usize, u8) {
        let (kind, verdict) = self.apply(line);
        self.lines += 1;
        write_u64(out, self.lines);
        match verdict {
            Ok(()) => {
                out.extend_from_slice(b",taken,");
                write_u64(out, self.items.len() as u64);
                out.push(b'\n');
                for item in &self.items {
                    item.write(out);
                }
                (kind, 0)
            }
            Err(ground) => {
                out.extend_from_slice(b",refused,");
                write_u64(out, u64::from(ground));
                out.push(b'\n');
                (kind, ground)
            }
        }
    }

    /// Appends what stands behind the answers: `state` with the reading bar,
    /// the ballots and the bars, and `pairs` with each replica's guard pair.
    /// Nothing before an accepted node line.
    pub fn write_state(&self, out: &mut Vec<u8>) {
        let Some(host) = &self.host else { return };
        let node = &host.node;
        let bars = [
            node.peer_accept_max,
            node.start_slot,
            node.accept_bar,
            node.commit_bar,
            node.exec_bar,
            node.snap_bar,
            node.end(),
        ]
        .map(|bar| bar as u64);
        write_numbers(
            out,
            b"state",
            [
                bars[0],
                node.bal_max_seen,
                node.bal_prep_sent,
                node.bal_prepared,
            ]
            .into_iter()
            .chain(bars[1..].iter().copied()),
        );
        write_numbers(
            out,
            b"pairs",
            (0..node.population).flat_map(|replica| {
                let (number, bar) = node.peer_accept_bar[&replica];
                [number, bar as u64]
            }),
        );
    }

    /// Appends the rest of the node: peers' exec bars, roster, slots, held
    /// reads and written keys. Bytes of keys are written as they are.
    pub fn write_node(&self, out: &mut Vec<u8>) {
        let Some(host) = &self.host else { return };
        self.write_slots(out);
        let mut written: Vec<_> = host.node.highest_slot.iter().collect();
        written.sort_unstable();
        for (key, slot) in written {
            write_written(out, *slot as u64, key);
        }
    }

    /// Of `write_node` all but the written keys.
    pub(crate) fn write_slots(&self, out: &mut Vec<u8>) {
        let Some(host) = &self.host else { return };
        let node = &host.node;
        write_numbers(
            out,
            b"execs",
            (0..node.population)
                .filter_map(|replica| node.peer_exec_bar.get(&replica))
                .map(|&bar| bar as u64),
        );
        out.extend_from_slice(b"roster,");
        match node.bodega_conf.leader {
            Some(leader) => write_u64(out, u64::from(leader)),
            None => out.push(b'-'),
        }
        out.push(b'\n');
        for item in spans(&node.bodega_conf) {
            item.write(out);
        }
        for (at, inst) in node.insts.iter().enumerate() {
            let optional = |number: Option<u64>, out: &mut Vec<u8>| match number {
                Some(number) => {
                    out.push(b',');
                    write_u64(out, number);
                }
                None => out.extend_from_slice(b",-"),
            };
            write_numbers(
                out,
                b"slot",
                [
                    (node.start_slot + at) as u64,
                    inst.status as u64,
                    inst.bal,
                    inst.reqs.len() as u64,
                ],
            );
            out.pop();
            let acks = inst.leader_bk.as_ref().map(|bk| mask_of(&bk.accept_acks));
            let book = inst.replica_bk.as_ref();
            optional(acks, out);
            optional(book.map(|book| book.accept_notices_bal), out);
            optional(book.map(|book| mask_of(&book.accept_notices)), out);
            out.push(b'\n');
            for (client, req) in &inst.reqs {
                write_request(out, b"request", *client, req);
            }
            for (client, req) in book.iter().flat_map(|book| &book.holding_reads) {
                write_request(out, b"held", *client, req);
            }
        }
    }

    fn apply(&mut self, line: &[u8]) -> (usize, Verdict) {
        self.items.clear();
        let mut fields = Fields { rest: Some(line) };
        let kind = kind_of(fields.next().unwrap_or_default());
        if line.len() > MAX_LINE {
            return (kind, Err(1));
        }
        let mut batch = [Request::default(); MAX_BATCH];
        let Some(line) = parse(kind, fields, &mut batch) else {
            return (kind, Err(1));
        };
        let verdict = match (line, &mut self.host) {
            (Line::Node([id, population, quorum]), None) => {
                if (1..=64).contains(&population)
                    && (1..=population).contains(&quorum)
                    && id < population
                {
                    self.host = Some(Box::new(Host {
                        node: BodegaReplica::fresh(id as u8, population as u8, quorum as u8),
                        draft: RespondersConf::empty(population as u8),
                        draft_population: population as u8,
                    }));
                    Ok(())
                } else {
                    Err(2)
                }
            }
            (Line::Node(_), Some(_)) | (_, None) => Err(2),
            (line, Some(host)) => {
                let verdict = host.apply(line, &batch, &mut self.items);
                host.node.sent.drain_into(&mut self.items);
                verdict
            }
        };
        (kind, verdict)
    }
}

/// 3: a replica number.
fn replica(number: u64, population: u8) -> Result<u8, u8> {
    if number < u64::from(population) {
        Ok(number as u8)
    } else {
        Err(3)
    }
}

/// 4: a mask.
fn mask(mask: u64, population: u8) -> Result<Bitmap, u8> {
    refuse_if(population < 64 && mask >> population != 0, 4)?;
    let mut bitmap = Bitmap::new(population, false);
    for replica in (0..population).filter(|r| mask >> r & 1 == 1) {
        bitmap.set(replica, true).expect("below the population");
    }
    Ok(bitmap)
}

impl Host {
    fn replica(&self, number: u64) -> Result<u8, u8> {
        replica(number, self.node.population)
    }

    /// The draft as a roster of the node's population: 3 and 4 where its
    /// leader or a mask is outside.
    fn roster(&self) -> Result<RespondersConf<()>, u8> {
        let population = self.node.population;
        if self.draft_population == population {
            return Ok(self.draft.clone());
        }
        let mut conf = RespondersConf::empty(population);
        if let Some(leader) = self.draft.leader {
            conf.set_leader(replica(u64::from(leader), population)?);
        }
        for item in spans(&self.draft) {
            match item {
                Item::Span {
                    start,
                    end,
                    mask: m,
                } => conf
                    .set_responders(
                        Some(&(start.to_string(), end.to_string())),
                        mask(m, population)?,
                        None,
                    )
                    .expect("a range of a roster"),
                Item::Rest { mask } => assert!(mask == 0, "no edit sets the default"),
                _ => unreachable!("a roster has spans and a rest"),
            }
        }
        Ok(conf)
    }

    #[allow(clippy::too_many_lines)]
    fn apply(&mut self, line: Line, batch: &[Request], items: &mut Vec<Item>) -> Verdict {
        match line {
            Line::Node(_) => unreachable!("a node line needs no host"),

            Line::Lead(leader) => {
                let leader = replica(leader, self.draft_population)?;
                self.draft.set_leader(leader);
            }
            Line::Range(start, end, bits) => {
                let mask = mask(bits, self.draft_population)?;
                refuse_if(start.len() > MAX_KEY || end.len() > MAX_KEY, 5)?;
                let range = (key_string(start), key_string(end));
                let reads = |key| self.draft.get_responders_by_key(key).is_some();
                refuse_if(!reads(&range.0) || !reads(&range.1), 6)?;
                // both bounds read, so the original errs only at a range that
                // starts above its end, and then leaves the roster alone; an
                // insert leaves at most two ranges more
                if self.draft.responders.iter().count() + 2 > MAX_RANGES {
                    let mut edited = self.draft.clone();
                    edited
                        .set_responders(Some(&range), mask, None)
                        .map_err(|_| 7)?;
                    refuse_if(edited.responders.iter().count() > MAX_RANGES, 17)?;
                    self.draft = edited;
                } else {
                    self.draft
                        .set_responders(Some(&range), mask, None)
                        .map_err(|_| 7)?;
                }
            }
            Line::Whole(bits) => {
                let mask = mask(bits, self.draft_population)?;
                self.draft.set_responders(None, mask, None).expect("whole");
            }
            Line::Drop(id) => {
                let id = replica(id, self.draft_population)?;
                self.draft = std::mem::take(&mut self.draft)
                    .into_filtered(id)
                    .expect("drop");
            }
            Line::Reset => self.draft.reset_full(),
            Line::Show => items.extend(spans(&self.draft)),

            Line::Heard {
                peer,
                ballot,
                with,
                bars,
            } => {
                let peer = self.replica(peer)?;
                let conf = if with { Some(self.roster()?) } else { None };
                refuse_if(bars.iter().any(|&bar| bar > MAX_SLOT), 8)?;
                let node = &self.node;
                refuse_if(ballot > node.bal_max_seen && !with, 12)?;
                // would the original install the roster, and step up?
                let installs = ballot > node.bal_max_seen
                    || (ballot == node.bal_max_seen
                        && ballot & 0xff == u64::from(peer) + 1
                        && conf.as_ref().is_some_and(|c| *c != node.bodega_conf));
                if installs
                    && conf.as_ref().is_some_and(|c| c.is_leader(node.id))
                    && node.insts.iter().all(|i| i.status >= Status::Committed)
                {
                    refuse_if(
                        node.insts.len() == MAX_SLOTS || node.end() as u64 > MAX_SLOT,
                        15,
                    )?;
                }
                self.node
                    .heard(peer, ballot, conf, bars.map(|bar| bar as usize));
            }
            Line::Guard([peer, number, bar]) => {
                let peer = self.replica(peer)?;
                refuse_if(bar > MAX_SLOT, 8)?;
                refuse_if(peer == self.node.id, 10)?;
                self.node.guard(peer, number, bar as usize);
            }
            Line::Prepared(ballot) => {
                refuse_if(
                    !self.node.is_leader() || ballot == 0 || ballot != self.node.bal_prep_sent,
                    13,
                )?;
                self.node.prepared(ballot);
            }
            Line::Record {
                slot,
                ballot,
                requests,
                long_key,
            } => {
                refuse_if(long_key, 5)?;
                refuse_if(slot > MAX_SLOT, 8)?;
                refuse_if(requests > MAX_BATCH, 9)?;
                self.record(slot as usize, ballot, &batch[..requests])?;
            }
            Line::Reply([peer, slot, ballot]) => {
                let peer = self.replica(peer)?;
                refuse_if(slot > MAX_SLOT, 8)?;
                let slot = slot as usize;
                let node = &self.node;
                refuse_if(
                    slot >= node.start_slot && ballot == node.bal_prepared && slot >= node.end(),
                    16,
                )?;
                self.node.reply(peer, slot, ballot);
            }
            Line::Notice([peer, slot, ballot]) => {
                let peer = self.replica(peer)?;
                refuse_if(slot > MAX_SLOT, 8)?;
                let slot = slot as usize;
                let node = &self.node;
                let applied =
                    slot >= node.start_slot && ballot == node.bal_max_seen && !node.is_leader();
                refuse_if(applied && slot >= node.start_slot + MAX_SLOTS, 15)?;
                self.node.notice(peer, slot, ballot);
            }
            Line::Commit([peer, ballot, bar]) => {
                let peer = self.replica(peer)?;
                refuse_if(bar > MAX_SLOT, 8)?;
                self.node.commit(peer, ballot, bar as usize);
            }
            Line::Bars(bars) => {
                refuse_if(bars.iter().any(|&bar| bar > MAX_SLOT), 8)?;
                let [start, accept, commit, exec] = bars.map(|bar| bar as usize);
                let node = &self.node;
                refuse_if(
                    start < node.start_slot || commit < node.commit_bar || exec < node.exec_bar,
                    11,
                )?;
                refuse_if(start > exec || exec > commit || commit > node.end(), 11)?;
                let below = |bar: usize| &node.insts[..bar - node.start_slot];
                refuse_if(
                    below(commit).iter().any(|i| i.status < Status::Committed)
                        || below(start).iter().any(|i| {
                            i.replica_bk
                                .as_ref()
                                .is_some_and(|book| !book.holding_reads.is_empty())
                        }),
                    11,
                )?;
                self.node.bars(start, accept, commit, exec);
            }
            Line::Read {
                client,
                request,
                leases,
                key,
            } => {
                refuse_if(key.len() > MAX_KEY, 5)?;
                let held = self.node.read(client, request, leases, key, MAX_HELD);
                refuse_if(!held, 19)?;
            }
            Line::Release(slot) => {
                refuse_if(slot > MAX_SLOT, 8)?;
                refuse_if(self.node.held(slot as usize).is_none(), 16)?;
                self.node.release(slot as usize);
            }
        }
        Ok(())
    }

    fn record(&mut self, slot: usize, ballot: u64, batch: &[Request]) -> Verdict {
        let node = &self.node;
        let current = if node.is_leader() {
            node.bal_prepared
        } else {
            node.bal_max_seen
        };
        refuse_if(ballot != current || current == 0, 13)?;
        refuse_if(
            slot < node.start_slot
                || node
                    .held(slot)
                    .is_some_and(|i| i.status >= Status::Committed),
            14,
        )?;
        refuse_if(slot >= node.start_slot + MAX_SLOTS, 15)?;

        let reqs: ReqBatch = batch
            .iter()
            .map(|r| {
                let key = key_string(r.key);
                let cmd = match r.value {
                    Some(value) => Command::Put {
                        key,
                        value: value.to_string(),
                    },
                    None => Command::Get { key },
                };
                (r.client, ApiRequest::Req { id: r.request, cmd })
            })
            .collect();
        if node.highest_slot.len() + reqs.len() > MAX_WRITTEN {
            let mut new: Vec<&String> = reqs
                .iter()
                .filter_map(|(_, req)| req.write_key())
                .filter(|key| !node.highest_slot.contains_key(*key))
                .collect();
            new.sort_unstable();
            new.dedup();
            refuse_if(node.highest_slot.len() + new.len() > MAX_WRITTEN, 18)?;
        }
        self.node.record(slot, ballot, reqs);
        Ok(())
    }
}

/// A roster's spans, ascending, and the rest.
pub(crate) fn spans(conf: &RespondersConf<()>) -> Vec<Item> {
    let mut items: Vec<Item> = conf
        .responders
        .iter()
        .map(|(&start, &end, (responders, _))| Item::Span {
            start,
            end,
            mask: mask_of(responders),
        })
        .collect();
    // the default is what every key has once no range is stored
    let mut bare = conf.clone();
    bare.reset_full();
    let (default, _) = bare
        .get_responders_by_key(&"0".to_string())
        .expect("0 reads");
    items.push(Item::Rest {
        mask: mask_of(default),
    });
    items
}

fn write_numbers(out: &mut Vec<u8>, name: &[u8], numbers: impl IntoIterator<Item = u64>) {
    out.extend_from_slice(name);
    for number in numbers {
        out.push(b',');
        write_u64(out, number);
    }
    out.push(b'\n');
}

fn write_request(out: &mut Vec<u8>, name: &[u8], client: u64, req: &ApiRequest) {
    let ApiRequest::Req { id, cmd } = req else {
        unreachable!("no line makes a configuration change");
    };
    let (key, value) = match cmd {
        Command::Get { key } => (key, ""),
        Command::Put { key, value } => (key, value.as_str()),
    };
    write_numbers(out, name, [client, *id]);
    out.pop();
    out.push(b',');
    out.extend_from_slice(&key_bytes(key));
    out.push(b',');
    out.extend_from_slice(value.as_bytes());
    out.push(b'\n');
}

/// The line of a written key.
pub(crate) fn write_written(out: &mut Vec<u8>, slot: u64, key: &str) {
    out.extend_from_slice(b"written,");
    write_u64(out, slot);
    out.push(b',');
    out.extend_from_slice(&key_bytes(key));
    out.push(b'\n');
}

pub(crate) fn mask_of(bitmap: &Bitmap) -> u64 {
    bitmap
        .iter()
        .filter(|(_, flag)| *flag)
        .fold(0, |mask, (replica, _)| mask | 1 << replica)
}

#[cfg(test)]
mod tests {
    use super::*;

    /// No script gets there line by line: start rises by 32 at most at a time.
    #[test]
    fn step_up_at_the_last_slot_and_above() {
        let mut replay = Replay::new();
        let feed = |replay: &mut Replay, line: &str| {
            let mut out = Vec::new();
            replay.line(line.as_bytes(), &mut out);
            String::from_utf8(out).unwrap()
        };
        feed(&mut replay, "node,0,1,1");
        feed(&mut replay, "lead,0");
        let node = &mut replay.host.as_mut().unwrap().node;
        let last = MAX_SLOT as usize;
        (node.start_slot, node.commit_bar, node.exec_bar) = (last, last, last);
        assert_eq!(
            feed(&mut replay, "heard,0,257,1,0,0,0"),
            format!("3,taken,3\nlead,1\nprelog,{last}\nprepare,{last},257\n")
        );
        feed(&mut replay, "prepared,257");
        feed(&mut replay, &format!("record,{last},257"));
        assert_eq!(
            feed(&mut replay, &format!("reply,0,{last},257")),
            format!("6,taken,1\ncommit,{last}\n")
        );
        assert_eq!(feed(&mut replay, "heard,0,513,1,0,0,0"), "7,refused,15\n");
        let bars = format!("bars,{last},{last},{},{last}", last + 1);
        assert_eq!(feed(&mut replay, &bars), "8,refused,8\n");
    }
}
