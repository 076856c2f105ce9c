//! The original replica's events alone, to be measured: no lines, no refusals,
//! no printing. What is sent stands in a list until it is taken or forgotten.

use crate::bodega::{BodegaReplica, ReqBatch, Status, key_string};
use crate::item::Item;
use crate::server::{ApiRequest, Command};
use crate::utils::{Bitmap, RespondersConf};

/// Requests: client, request, key and the value of a Put.
#[derive(Clone)]
pub struct Batch(ReqBatch);

impl Batch {
    #[must_use]
    pub fn of(requests: &[(u64, u64, &[u8], Option<u64>)]) -> Self {
        let request = |&(client, id, key, value): &(u64, u64, &[u8], Option<u64>)| {
            let key = key_string(key);
            let cmd = match value {
                Some(value) => Command::Put {
                    key,
                    value: value.to_string(),
                },
                None => Command::Get { key },
            };
            (client, ApiRequest::Req { id, cmd })
        };
        Batch(requests.iter().map(request).collect())
    }
}

/// A leader, and ranges of keys with their responders.
#[derive(Clone)]
pub struct Roster(RespondersConf<()>);

impl Roster {
    #[must_use]
    pub fn of(population: u8, leader: u8, ranges: &[(u128, u128, u64)]) -> Self {
        let mut conf = RespondersConf::empty(population);
        conf.set_leader(leader);
        for &(from, to, mask) in ranges {
            let mut responders = Bitmap::new(population, false);
            for replica in (0..population).filter(|&replica| mask >> replica & 1 == 1) {
                responders.set(replica, true).expect("below the population");
            }
            let range = (format!("k{from}"), format!("k{to}"));
            conf.set_responders(Some(&range), responders, None)
                .expect("a range");
        }
        Roster(conf)
    }
}

pub struct Bare(BodegaReplica);

impl Bare {
    #[must_use]
    pub fn fresh(id: u8, population: u8, quorum: u8) -> Self {
        Bare(BodegaReplica::fresh(id, population, quorum))
    }

    #[inline]
    pub fn guard(&mut self, peer: u8, number: u64, bar: u64) {
        self.0.guard(peer, number, bar as usize);
    }

    #[inline]
    pub fn prepared(&mut self, ballot: u64) {
        self.0.prepared(ballot);
    }

    #[inline]
    pub fn record(&mut self, slot: u64, ballot: u64, batch: Batch) {
        self.0.record(slot as usize, ballot, batch.0);
    }

    #[inline]
    pub fn bars(&mut self, start: u64, accept: u64, commit: u64, exec: u64) {
        let [start, accept, commit, exec] = [start, accept, commit, exec].map(|bar| bar as usize);
        self.0.bars(start, accept, commit, exec);
    }

    #[inline]
    pub fn reply(&mut self, peer: u8, slot: u64, ballot: u64) {
        self.0.reply(peer, slot as usize, ballot);
    }

    #[inline]
    pub fn notice(&mut self, peer: u8, slot: u64, ballot: u64) {
        self.0.notice(peer, slot as usize, ballot);
    }

    #[inline]
    pub fn commit(&mut self, peer: u8, ballot: u64, bar: u64) {
        self.0.commit(peer, ballot, bar as usize);
    }

    /// One read, a batch of one Get; one that is held sends nothing.
    #[inline]
    pub fn read(&mut self, leases: u64, get: Batch) {
        self.0.read_batch(leases, get.0);
    }

    #[inline]
    pub fn release(&mut self, slot: u64) {
        self.0.release(slot as usize);
    }

    #[inline]
    pub fn heard(&mut self, peer: u8, ballot: u64, roster: Option<Roster>, bars: [u64; 3]) {
        let bars = bars.map(|bar| bar as usize);
        self.0.heard(peer, ballot, roster.map(|r| r.0), bars);
    }

    /// Room for so many items, before they are sent.
    pub fn make_room(&mut self, items: usize) {
        self.0.sent.reserve(items);
    }

    /// What was sent since the last time.
    #[must_use]
    pub fn items(&mut self) -> Vec<Item> {
        let mut items = Vec::new();
        self.0.sent.drain_into(&mut items);
        items
    }

    #[inline]
    pub fn forget_items(&mut self) {
        self.0.sent.clear();
    }

    /// Sets a replica's guard pair.
    pub fn set_pair(&mut self, peer: u8, number: u64, bar: u64) {
        self.0.peer_accept_bar.insert(peer, (number, bar as usize));
    }

    #[inline]
    pub fn set_commit_bar(&mut self, bar: u64) {
        self.0.commit_bar = bar as usize;
    }

    /// Every held slot is Accepting again.
    #[inline]
    pub fn reopen(&mut self) {
        for inst in &mut self.0.insts {
            inst.status = Status::Accepting;
        }
    }

    #[must_use]
    pub fn reading_bar(&self) -> u64 {
        self.0.peer_accept_max as u64
    }

    /// Ballot, ballot sent, ballot prepared; start, accept, commit, exec and
    /// snap bar.
    #[must_use]
    pub fn numbers(&self) -> [u64; 8] {
        let r = &self.0;
        let [start, accept, commit, exec, snap] = [
            r.start_slot,
            r.accept_bar,
            r.commit_bar,
            r.exec_bar,
            r.snap_bar,
        ]
        .map(|bar| bar as u64);
        let [seen, sent, prepared] = [r.bal_max_seen, r.bal_prep_sent, r.bal_prepared];
        [seen, sent, prepared, start, accept, commit, exec, snap]
    }

    /// Of each held slot its status, ballot, requests and held reads.
    #[must_use]
    pub fn slots(&self) -> Vec<[u64; 4]> {
        let holding = |inst: &crate::bodega::Instance| {
            inst.replica_bk
                .as_ref()
                .map_or(0, |book| book.holding_reads.len())
        };
        self.0
            .insts
            .iter()
            .map(|i| {
                [
                    i.status as u64,
                    i.bal,
                    i.reqs.len() as u64,
                    holding(i) as u64,
                ]
            })
            .collect()
    }

    /// How many keys are written.
    #[must_use]
    pub fn written(&self) -> usize {
        self.0.highest_slot.len()
    }
}
