//! Recorded calls for the program `crates/test_calls`: the ten calls of
//! document 01 and edits of a draft, the oracle's answer to each, and a sum
//! over the whole node and one over the draft after it.

use std::collections::BTreeMap;
use std::ops::Range;

use crate::bodega::{BodegaReplica, Instance, ReqBatch, key_bytes};
use crate::generate::Generator;
use crate::hand::{self, Hand};
use crate::item::{Item, write_u64};
use crate::replay::{KINDS, MAX_SLOT, Replay, mask_of, number, spans};
use crate::rng::Rng;
use crate::script::Script;
use crate::server::{ApiRequest, Command};
use crate::utils::RespondersConf;

/// The calls of a node, besides a fresh one.
pub const CALLS: [&str; 10] = [
    "heard", "guard", "prepared", "record", "reply", "notice", "commit", "bars", "read", "release",
];

/// Edits of the draft that a heartbeat brings.
const EDITS: [&str; 5] = ["lead", "range", "whole", "drop", "reset"];

/// The words of a node's buffer and of a draft's ranges, and the places that
/// are enough for any call.
const WORDS: usize = 10305;
const ROWS: usize = 320;
const PLACES: usize = 546;

/// Scripts by seed, and the lines of each before those at the edges: of the
/// first 600 seeds some that reach much.
const SEEDS: [u64; 22] = [
    9, 14, 65, 85, 94, 182, 185, 204, 213, 235, 251, 257, 268, 282, 284, 326, 354, 363, 465, 466,
    498, 555,
];
const LINES: u64 = 220;

/// A prime below 2^32.
const PRIME: u64 = 4_294_967_291;

/// The sum over a text, to tell two apart.
#[must_use]
pub fn sum(text: &[u8]) -> u64 {
    text.iter()
        .fold(0, |sum, &b| (sum * 257 + u64::from(b) + 1) % PRIME)
}

fn text(numbers: &[u64]) -> Vec<u8> {
    let mut text = Vec::new();
    for &n in numbers {
        text.push(b',');
        write_u64(&mut text, n);
    }
    text
}

/// What is easy to get wrong, each with scripts of `hand.txt` and `calls.txt`
/// that show it.
pub const TRAPS: [(&str, &[&str]); 20] = [
    (
        "resends come first, whatever the reply's own slot is: downwards, past slots that are not \
         Accepting, to the first acked one, never to itself",
        &[
            "reply-resends-downwards",
            "reply-resends-end-at-the-first-acked",
            "reply-resends-skip-what-is-not-accepting",
            "reply-resends-although-the-ack-is-not-new",
            "reply-from-itself-resends-nothing",
        ],
    ),
    (
        "a heartbeat adopts and steps up before a low EXEC ends it; a lower ballot does nothing",
        &[
            "heard-of-a-lower-ballot-does-nothing",
            "heard-low-exec-ends-after-the-adoption",
        ],
    ),
    (
        "the walk stops at a Committed slot of an older ballot, moves no bar and releases nothing; \
         anyone's heartbeat starts it",
        &[
            "heard-walk-stops-at-a-committed-slot-of-a-lower-ballot",
            "heard-walk-commits-and-does-not-move-the-commit-bar",
            "heard-walk-does-not-release-held-reads",
            "heard-walk-stops-below-accepting",
        ],
    ),
    (
        "a step-up sends lead, all prelogs, the reads of the slots from the first open one to the \
         last, then prepare; a null slot is appended only if none is open",
        &[
            "step-up-order",
            "step-up-appends-only-if-no-slot-is-open",
            "step-up-on-a-fresh-node-appends-a-null-slot",
            "step-up-leaves-reads-of-committed-slots-held",
            "step-up-sends-reads-away-even-with-a-quorum-of-notices",
        ],
    ),
    (
        "the proposer is the ballot's low byte less one",
        &[
            "heard-proposer-is-the-low-byte-less-one",
            "heard-ballot-without-proposer",
        ],
    ),
    (
        "the own pair is the accept bar at each adoption, also a larger one, and nothing else moves it",
        &[
            "heard-other-roster-from-the-proposer-takes-the-accept-bar",
            "guard-own-pair-takes-the-accept-bar-at-adoption",
        ],
    ),
    (
        "a guard above the ballot waits for it; one that alters a pair recomputes under the present \
         ballot, whatever its number",
        &[
            "guard-above-the-ballot-is-kept-for-it",
            "guard-of-an-old-number-recomputes-under-a-raised-ballot",
        ],
    ),
    (
        "a read is held at an Accepting slot with a book, even with the quorum of notices; at a \
         Committed one without the Put it is sent away",
        &[
            "notice-read-holds-even-with-quorum-of-notices",
            "read-committed-without-the-put",
        ],
    ),
    (
        "every notice at the quorum or above releases",
        &["notice-every-one-at-quorum-releases"],
    ),
    (
        "the highest slot and a Put go by bytes, a roster by number; the highest slot is a maximum \
         and outlives its batch",
        &[
            "read-spellings-share-a-roster-and-are-two-keys",
            "record-highest-slot-is-a-maximum",
            "record-without-the-key-leaves-the-highest-slot",
        ],
    ),
    (
        "key lengths come before the slot, the slot before the number of requests",
        &[
            "record-169-groups-are-read-before-9",
            "record-batch-of-8-is-taken-9-refused",
        ],
    ),
    (
        "written keys: distinct new Put keys count once, Gets and known keys not",
        &["record-256-written-keys-and-the-next"],
    ),
    (
        "13 before 14 before 15 before 18",
        &[
            "record-refusal-order-5-8-9-13-14-15-18",
            "record-13-14-15-come-before-18",
        ],
    ),
    (
        "bars: accept is free, the others may stay and not fall, the end is that of the slots held \
         before, and reads of slots that stay do not matter",
        &[
            "bars-fall-and-order",
            "bars-accept-is-free",
            "bars-a-slot-to-be-dropped-holds-reads",
        ],
    ),
    (
        "a release at a slot without a book or without reads is taken",
        &["release-without-a-book-or-reads"],
    ),
    (
        "a commit asks the roster at the time of the reply, the own number too; Gets and keys that \
         do not read ask nothing",
        &[
            "reply-asks-the-roster-of-now",
            "reply-own-number-counts-and-is-asked-for",
            "reply-gets-and-unread-keys-ask-nothing",
        ],
    ),
    (
        "a range of mask 0 is stored; a drop can make ranges join",
        &[
            "roster-mask-zero-is-stored-and-shown",
            "roster-drop-makes-neighbours-equal",
            "heard-roster-with-a-stored-zero-is-another-roster",
        ],
    ),
    (
        "a drop, a reset and a raised ballot clear the leader; a raised ballot leaves the draft",
        &[
            "roster-drop-clears-the-leader",
            "roster-reset-drops-leader-and-ranges",
            "roster-a-raised-ballot-does-not-touch-the-draft",
        ],
    ),
    (
        "2^128 - 1 has no successor",
        &["roster-top-of-the-key-space-joins"],
    ),
    (
        "64 replicas: no mask is refused",
        &["roster-population-64-takes-every-mask"],
    ),
];

/// The hand-written scripts, and those of lines that only calls have.
///
/// # Panics
/// Where the text is not in the format.
#[must_use]
pub fn scripts() -> Vec<Hand> {
    let mut scripts = hand::read(include_str!("../scripts/hand.txt"));
    scripts.extend(extra_scripts());
    scripts
}

/// The scripts of `calls.txt`.
#[must_use]
pub fn extra_scripts() -> Vec<Hand> {
    hand::read(include_str!("../scripts/calls.txt"))
}

/// The lines that document 01 has not: `draft,POPULATION` begins a draft whose
/// edits are held to another population than the node's, `jump,SLOT` puts the
/// bars of a node that holds no slots where no list of lines gets it soon.
fn extra(replay: &mut Replay, line: &[u8]) -> bool {
    let Some(host) = replay.host_mut() else {
        return false;
    };
    let value = |name: &[u8]| line.strip_prefix(name).and_then(number);
    if let Some(population) = value(b"draft,") {
        assert!((1..=64).contains(&population));
        host.draft_population = population as u8;
        host.draft = RespondersConf::empty(population as u8);
    } else if let Some(slot) = value(b"jump,") {
        let node = &mut host.node;
        assert!(node.insts.is_empty() && slot <= MAX_SLOT);
        (node.start_slot, node.commit_bar, node.exec_bar) =
            (slot as usize, slot as usize, slot as usize);
    } else {
        return false;
    }
    true
}

/// The answer to a script in the form of the event program's; the lines that
/// it has not are taken.
#[must_use]
pub fn answer(script: &Script) -> Vec<u8> {
    let mut replay = Replay::new();
    let mut out = Vec::new();
    for line in &script.lines {
        if extra(&mut replay, line) {
            replay.line(b"reset,", &mut Vec::new());
            out.extend_from_slice(format!("{},taken,0\n", replay.lines()).as_bytes());
        } else {
            replay.line(line, &mut out);
        }
    }
    out
}

/// A key in seven words: its length, and eight bytes to a word.
fn key_words(key: &str) -> [u64; 7] {
    let key = key_bytes(key);
    let mut words = [0; 7];
    words[0] = key.len() as u64;
    for (i, &b) in key.iter().enumerate() {
        words[1 + i / 8] |= u64::from(b) << (8 * (i % 8));
    }
    words
}

/// How many requests, and each in words; those of a batch with kind and value.
fn requests(reqs: &[(u64, ApiRequest)], batch: bool) -> Vec<u64> {
    let mut words = vec![reqs.len() as u64];
    for (client, req) in reqs {
        let ApiRequest::Req { id, cmd } = req else {
            unreachable!("no line makes a configuration change");
        };
        words.extend([*client, *id]);
        let key = match cmd {
            Command::Get { key } => {
                if batch {
                    words.extend([0, 0]);
                }
                key
            }
            Command::Put { key, value } => {
                words.extend([1, value.parse().expect("a value is a number")]);
                key
            }
        };
        words.extend(key_words(key));
    }
    words
}

/// A roster's leader (0: none), number of ranges and default.
fn short_of_roster(conf: &RespondersConf<()>) -> [u64; 3] {
    let items = spans(conf);
    let Some(Item::Rest { mask }) = items.last() else {
        unreachable!("the rest comes last");
    };
    let leader = conf.leader.map_or(0, |leader| u64::from(leader) + 1);
    [leader, items.len() as u64 - 1, *mask]
}

/// A roster's ranges in words.
fn rows_of(conf: &RespondersConf<()>) -> Vec<[u64; 5]> {
    let half = |n: u128, shift: u32| (n >> shift) as u64;
    spans(conf)
        .into_iter()
        .filter_map(|item| match item {
            Item::Span { start, end, mask } => Some([
                half(start, 64),
                half(start, 0),
                half(end, 64),
                half(end, 0),
                mask,
            ]),
            _ => None,
        })
        .collect()
}

/// A roster in numbers.
fn roster(conf: &RespondersConf<()>) -> Vec<u64> {
    [&short_of_roster(conf)[..], &rows_of(conf).concat()].concat()
}

/// A slot's cell, batch and held reads in words.
fn slot(inst: &Instance) -> [Vec<u64>; 3] {
    let (acks, book) = (inst.leader_bk.as_ref(), inst.replica_bk.as_ref());
    [
        vec![
            inst.bal,
            inst.status as u64,
            u64::from(acks.is_some()),
            acks.map_or(0, |bk| mask_of(&bk.accept_acks)),
            u64::from(book.is_some()),
            book.map_or(0, |bk| bk.accept_notices_bal),
            book.map_or(0, |bk| mask_of(&bk.accept_notices)),
        ],
        requests(&inst.reqs, true),
        requests(book.map_or(&[][..], |bk| &bk.holding_reads), false),
    ]
}

/// The written keys in words, in the order first written.
fn written_words(node: &BodegaReplica, written: &[String]) -> Vec<Vec<u64>> {
    written
        .iter()
        .map(|key| {
            let mut entry = vec![node.highest_slot[key] as u64];
            entry.extend(key_words(key));
            entry
        })
        .collect()
}

/// A node's roster (but for the ranges), ballots, bars, reading bar, slots.
fn short(node: &BodegaReplica) -> Vec<u64> {
    let mut short = short_of_roster(&node.bodega_conf).to_vec();
    short.extend([node.bal_max_seen, node.bal_prep_sent, node.bal_prepared]);
    short.extend(
        [
            node.start_slot,
            node.accept_bar,
            node.commit_bar,
            node.exec_bar,
            node.snap_bar,
            node.peer_accept_max,
            node.insts.len(),
        ]
        .map(|bar| bar as u64),
    );
    short
}

/// A node in numbers, in the order of the sum.
fn numbers(node: &BodegaReplica, written: &[String]) -> Vec<u64> {
    let mut numbers: Vec<u64> = [node.id, node.population, node.quorum_cnt]
        .map(u64::from)
        .to_vec();
    numbers.extend(short(node));
    let pairs = (0..node.population).map(|replica| node.peer_accept_bar[&replica]);
    numbers.extend(pairs.clone().map(|(number, _)| number));
    numbers.extend(pairs.map(|(_, bar)| bar as u64));
    let execs = (0..node.population).filter_map(|replica| node.peer_exec_bar.get(&replica));
    numbers.extend(execs.map(|&bar| bar as u64));
    numbers.extend(rows_of(&node.bodega_conf).concat());
    for inst in &node.insts {
        numbers.extend(slot(inst).concat());
    }
    numbers.push(written.len() as u64);
    numbers.extend(written_words(node, written).concat());
    numbers
}

/// What a line is to the program.
#[derive(Clone, Copy, PartialEq)]
enum Sort {
    /// A fresh node.
    Node,
    /// An edit of the draft.
    Edit,
    /// A call of the node, or the draft shown: it has places for items.
    Call,
}

/// The list of calls and the answers to it.
pub struct Recording {
    replay: Replay,
    /// The written keys, in the order first written.
    written: Vec<String>,
    rng: Rng,
    lines: u64,
    pub input: Vec<u8>,
    pub output: Vec<u8>,
    /// How often each line kind had each refusal, 0 if taken.
    pub reached: BTreeMap<(&'static str, u8), u64>,
    /// How often each kind of item was sent.
    pub items: [u64; Item::KINDS.len()],
    /// The most slots, written keys and items that a call met, and the highest
    /// start.
    pub most: [usize; 4],
    /// The names of the scripts.
    pub names: Vec<String>,
}

impl Recording {
    fn new() -> Self {
        Recording {
            replay: Replay::new(),
            written: Vec::new(),
            rng: Rng::new(1),
            lines: 0,
            input: Vec::new(),
            output: Vec::new(),
            reached: BTreeMap::new(),
            items: [0; Item::KINDS.len()],
            most: [0; 4],
            names: Vec::new(),
        }
    }

    /// A script begins: there is no node until the next node line.
    fn begin(&mut self, name: String) {
        self.replay = Replay::new();
        self.written.clear();
        self.put(format!("# {name}").as_bytes());
        self.names.push(name);
    }

    fn numbers(&self) -> Vec<u64> {
        self.replay
            .host()
            .map_or_else(Vec::new, |host| numbers(&host.node, &self.written))
    }

    fn put(&mut self, line: &[u8]) {
        self.lines += 1;
        self.input.extend_from_slice(line);
        self.input.push(b'\n');
    }

    /// A line of document 01 has its places in front.
    fn put_call(&mut self, line: &[u8], places: usize) {
        self.put(&[format!("{places},").as_bytes(), line].concat());
    }

    /// The answer of document 01, then the sum over the node and over the
    /// draft.
    fn answer(&mut self, kind: usize, refusal: u8) {
        let host = self.replay.host();
        let items = if refusal == 0 {
            self.replay.items()
        } else {
            &[]
        };
        let head = match refusal {
            0 => format!("{},taken,{}\n", self.lines, items.len()),
            _ => format!("{},refused,{refusal}\n", self.lines),
        };
        self.output.extend_from_slice(head.as_bytes());
        for item in items {
            item.write(&mut self.output);
            self.items[item.kind()] += 1;
        }
        let draft = host.map_or_else(Vec::new, |host| roster(&host.draft));
        let [node, draft] = [self.numbers(), draft].map(|numbers| sum(&text(&numbers)));
        let sums = format!("sum,{node},{draft}\n");
        self.output.extend_from_slice(sums.as_bytes());
        *self.reached.entry((KINDS[kind], refusal)).or_default() += 1;
        if let Some(host) = host {
            let met = [
                host.node.insts.len(),
                self.written.len(),
                items.len(),
                host.node.start_slot,
            ];
            self.most = std::array::from_fn(|i| self.most[i].max(met[i]));
        }
    }

    /// The node's buffer or the draft's words are lent short: no call is taken.
    fn lend_short(&mut self, line: &[u8]) {
        let Some((kind, sort)) = Self::sort(line).filter(|_| self.replay.host().is_some()) else {
            return;
        };
        let roster = line.starts_with(b"heard") && line.split(|&b| b == b',').nth(3) == Some(b"1");
        let draft = sort == Sort::Edit || KINDS[kind] == "show" || (roster && self.rng.chance(50));
        let (words, rows) = if draft {
            (WORDS, self.rng.pick(&[0, 1, ROWS - 1]))
        } else {
            let words = self.rng.pick(&[0, 1, 191, 511, 8256, WORDS - 1]);
            (words, ROWS)
        };
        self.put(format!("lend,{words},{rows}").as_bytes());
        let places = if sort == Sort::Call { PLACES } else { 0 };
        self.put_call(line, places);
        self.answer(kind, 2);
        self.put(format!("lend,{WORDS},{ROWS}").as_bytes());
    }

    /// Of a line that the program can make a call of: a good line with a name
    /// that it has, whose replica numbers are bytes.
    fn sort(line: &[u8]) -> Option<(usize, Sort)> {
        let fields: Vec<&[u8]> = line.split(|&b| b == b',').collect();
        let kind = KINDS.iter().position(|k| k.as_bytes() == fields[0])?;
        let sort = match KINDS[kind] {
            "node" => Sort::Node,
            "show" => Sort::Call,
            name if EDITS.contains(&name) => Sort::Edit,
            name if CALLS.contains(&name) => Sort::Call,
            _ => return None,
        };
        let bytes = match KINDS[kind] {
            "node" => 3,
            "lead" | "drop" | "heard" | "guard" | "reply" | "notice" | "commit" => 1,
            _ => 0,
        };
        let small = |field: &&[u8]| number(field).is_some_and(|n| n < 256);
        (alone(line) != 1 && fields[1..=bytes].iter().all(small)).then_some((kind, sort))
    }

    /// Runs an event, and puts it down if the program has a call for it.
    fn event(&mut self, line: &[u8]) {
        let before = self.replay.clone();
        if extra(&mut self.replay, line) {
            self.put(line);
            return;
        }
        let refusal = self.replay.call(line, PLACES);
        self.note_written();
        let Some((kind, sort)) = Self::sort(line).filter(|_| self.replay.host().is_some()) else {
            return;
        };
        // the program makes a fresh node wherever it can
        if sort == Sort::Node && before.host().is_some() && alone(line) == 0 {
            return;
        }
        if sort == Sort::Call {
            let items = if refusal == 0 {
                self.replay.items().len()
            } else {
                0
            };
            let often = self
                .reached
                .get(&(KINDS[kind], 20))
                .is_some_and(|&n| n > 12);
            if items > 0 && self.rng.one_in(if often { 9 } else { 2 }) {
                let few = self.rng.pick(&[0, items / 2, items - 1]);
                let after = std::mem::replace(&mut self.replay, before);
                assert!(self.replay.call(line, few) == 20, "too few places");
                self.put_call(line, few);
                self.answer(kind, 20);
                self.replay = after;
            }
            let more = self.rng.pick(&[0, 0, 1, 3, PLACES - items]);
            self.put_call(line, items + more);
        } else {
            self.put_call(line, 0);
        }
        self.answer(kind, refusal);
    }

    fn note_written(&mut self) {
        let Some(host) = self.replay.host() else {
            return;
        };
        let node = &host.node;
        if node.highest_slot.len() == self.written.len() {
            return;
        }
        let batches: Vec<&ReqBatch> = node.insts.iter().map(|inst| &inst.reqs).collect();
        for (_, req) in batches.into_iter().flatten() {
            if let Some(key) = req.write_key()
                && !self.written.contains(key)
            {
                self.written.push(key.clone());
            }
        }
    }
}

/// The refusal of a line that comes first, 0 for a good node line.
fn alone(line: &[u8]) -> u8 {
    Replay::new().line(line, &mut Vec::new()).1
}

/// A line at the edge of what is taken, or just past it, for each number.
#[allow(clippy::too_many_lines)]
fn edge(n: u64, node: &BodegaReplica, rng: &mut Rng) -> Option<String> {
    let (id, population) = (u64::from(node.id), u64::from(node.population));
    let quorum = u64::from(node.quorum_cnt);
    let other = if id == 0 { population - 1 } else { 0 };
    let (seen, sent, prepared) = (node.bal_max_seen, node.bal_prep_sent, node.bal_prepared);
    let current = if node.is_leader() { prepared } else { seen };
    let [start, commit, exec, end] =
        [node.start_slot, node.commit_bar, node.exec_bar, node.end()].map(|bar| bar as u64);
    let above = MAX_SLOT + 1;
    let key = |bytes: usize| "k".repeat(bytes - 1) + "7";
    let requests = |count: u64, bytes: usize| -> String {
        (0..count)
            .map(|i| format!(",1,{i},{},{i}", key(bytes)))
            .collect()
    };
    Some(match n {
        0 => format!("guard,{population},0,0"),
        1 => format!("guard,255,{seen},{above}"),
        2 => format!("guard,{id},{seen},{above}"),
        3 => format!("guard,{id},{seen},0"),
        4 => format!("guard,{other},{seen},{MAX_SLOT}"),
        5 => format!("guard,{other},{seen},{}", MAX_SLOT - 1),
        6 => format!("guard,{other},{seen},{MAX_SLOT}"),
        7 => format!("guard,{other},{},0", u64::MAX),
        8 => "prepared,0".to_string(),
        9 => format!("prepared,{sent}"),
        10 => format!("prepared,{}", sent.wrapping_add(1)),
        11 => format!("bars,{start},{above},{commit},{exec}"),
        12 => format!("bars,{start},{MAX_SLOT},{commit},{exec}"),
        13 => format!("bars,{start},0,{},{exec}", end + 1),
        14 => format!("bars,{start},0,{commit},{}", commit + 1),
        15 => format!("bars,{},0,{commit},{exec}", exec + 1),
        16 => format!("bars,{start},0,{end},{exec}"),
        17 => format!("bars,{start},0,{commit},{commit}"),
        18 => format!("bars,{exec},0,{commit},{exec}"),
        19 => format!("record,{end},{current}{}", requests(9, 2)),
        20 => format!("record,{end},{current}{}", requests(1, 49)),
        21 => format!("record,{above},{current}{}", requests(9, 49)),
        22 => format!("record,{above},{current}{}", requests(9, 2)),
        23 => format!("record,{end},{}", current.wrapping_add(1)),
        24 => format!("record,{},{current}", start.wrapping_sub(1).min(MAX_SLOT)),
        25 => format!("record,{},{current}", start + 32),
        26 => format!(
            "record,{},{current}{}",
            start + rng.below(31),
            requests(1, 48)
        ),
        27 => format!("record,{},{current}{}", start + 31, requests(8, 3)),
        28 => format!("reply,{population},{above},{prepared}"),
        29 => format!("reply,{other},{above},{prepared}"),
        30 => format!("reply,{other},{},{prepared}", start + 32),
        31 => format!("reply,{other},{MAX_SLOT},{}", prepared.wrapping_add(1)),
        32 => format!("reply,{other},{},{prepared}", start.saturating_sub(1)),
        33 => format!("reply,{other},{},{prepared}", start + 31),
        34 => format!("reply,{id},{},{prepared}", start + 31),
        35 => format!("commit,{population},{seen},{above}"),
        36 => format!("commit,{other},{seen},{above}"),
        37 => format!("commit,{other},{seen},{MAX_SLOT}"),
        38 => format!("commit,{other},{},{MAX_SLOT}", seen.wrapping_add(1)),
        39 => format!("read,1,1,{quorum},{}", key(49)),
        40 => format!("read,1,1,{},{}", u64::MAX, key(48)),
        41 => format!("read,{},{},{quorum},k7", u64::MAX, u64::MAX),
        42 => format!("read,1,1,{quorum},"),
        43 => format!("release,{above}"),
        44 => format!("release,{}", start + 32),
        45 => format!("release,{}", start.wrapping_sub(1).min(MAX_SLOT)),
        46 => format!("release,{}", start + 31),
        47 => format!("notice,{population},{above},{seen}"),
        48 => format!("notice,{other},{above},{seen}"),
        49 => format!("notice,{other},{},{seen}", start + 32),
        50 => format!("notice,{other},{},{seen}", start + 31),
        51 => format!("notice,{id},{},{seen}", start + 31),
        52 => format!("heard,{population},{seen},1,{above},0,0"),
        53 => format!("heard,{other},{seen},0,{above},0,0"),
        54 => format!("heard,{other},{seen},0,0,{above},0"),
        55 => format!("heard,{other},{seen},0,0,0,{above}"),
        56 => format!("heard,{other},{},0,{above},0,0", seen.wrapping_add(1)),
        57 => format!("heard,{other},{},0,0,0,0", seen.wrapping_add(1)),
        58 => format!("heard,{other},{seen},0,{MAX_SLOT},{MAX_SLOT},{MAX_SLOT}"),
        59 => format!("notice,{other},{MAX_SLOT},{}", seen.wrapping_add(256)),
        60 => format!("lead,{id}"),
        61 => format!("heard,{other},{},1,0,0,0", seen.wrapping_add(512)),
        _ => return None,
    })
}

/// A node line that is not in range.
fn odd_node(rng: &mut Rng) -> String {
    let [id, population, quorum] = rng.pick(&[
        [0, 0, 0],
        [0, 0, 1],
        [0, 1, 0],
        [1, 1, 1],
        [0, 1, 2],
        [64, 64, 1],
        [0, 65, 33],
        [0, 64, 65],
        [0, 64, 0],
        [255, 255, 255],
    ]);
    format!("node,{id},{population},{quorum}")
}

/// A script by seed.
fn seeded(recording: &mut Recording, seed: u64) {
    let mut generator = Generator::new(seed);
    if seed % 5 != 0 {
        generator = generator.small();
    }
    let mut rng = Rng::new(seed);
    recording.begin(format!("seed-{seed}"));
    for _ in 0..LINES {
        let line = generator.next_line(&recording.replay);
        if rng.one_in(25) {
            recording.lend_short(&line);
        }
        if rng.one_in(100) {
            recording.event(odd_node(&mut rng).as_bytes());
        }
        recording.event(&line);
    }
    if seed % 2 == 1 {
        return;
    }
    let mut edges = 0;
    while let Some(host) = recording.replay.host()
        && let Some(line) = edge(edges, &host.node, &mut rng)
    {
        recording.event(line.as_bytes());
        edges += 1;
    }
    for line in ["lead,0", "range,1,1,0", "whole,0", "drop,0", "reset"] {
        recording.lend_short(line.as_bytes());
    }
}

/// The recorded list: the hand-written scripts that have a call, then scripts
/// by seed.
#[must_use]
pub fn make() -> Recording {
    let mut recording = Recording::new();
    for hand in scripts() {
        let called = |line: &Vec<u8>| !line.starts_with(b"node") && Recording::sort(line).is_some();
        if !hand.script.lines.iter().any(called) {
            continue;
        }
        recording.begin(hand.name);
        for line in &hand.script.lines {
            recording.event(line);
        }
    }
    for seed in SEEDS {
        seeded(&mut recording, seed);
    }
    recording
}

/// A list of other seeds' scripts, to try the program on.
#[must_use]
pub fn of_seeds(seeds: Range<u64>) -> Recording {
    let mut recording = Recording::new();
    for seed in seeds {
        seeded(&mut recording, seed);
    }
    recording
}
