//! The events of document 01 on a replica. What the original has a body for
//! is called there; `prepared`, `record` and `bars` follow document 01.

use super::*;
use crate::item::Item;
use crate::server::LeaseAction;
use crate::time::block_on;

/// A scripted key as the original's `String`. Bytes that are no UTF-8 cannot
/// exist there: they get a spelling of their own that starts with a comma,
/// which no scripted key has and which does not read.
pub(crate) fn key_string(key: &[u8]) -> String {
    match std::str::from_utf8(key) {
        Ok(key) => key.to_string(),
        Err(_) => std::iter::once(',')
            .chain(key.iter().map(|&b| char::from(b)))
            .collect(),
    }
}

/// The scripted bytes of a `key_string`.
pub(crate) fn key_bytes(key: &str) -> Vec<u8> {
    match key.strip_prefix(',') {
        Some(bytes) => bytes.chars().map(|c| c as u8).collect(),
        None => key.as_bytes().to_vec(),
    }
}

impl BodegaReplica {
    /// A fresh node, as the original's `new_and_setup` leaves it.
    pub(crate) fn fresh(id: ReplicaId, population: u8, quorum_cnt: u8) -> Self {
        let sent = Recorder::default();
        BodegaReplica {
            id,
            population,
            quorum_cnt,
            config: ReplicaConfigBodega {
                logger_sync: false,
                hb_hear_timeout_min: 1200,
                hb_hear_timeout_max: 2000,
                hb_send_interval_ms: 20,
                disable_hb_timer: true,
                disallow_step_up: false,
                record_node_cnts: false,
                sim_read_lease: false,
            },
            control_hub: ControlHub { sent: sent.clone() },
            external_api: ExternalApi { sent: sent.clone() },
            state_machine: StateMachine,
            storage_hub: StorageHub { sent: sent.clone() },
            transport_hub: TransportHub { sent: sent.clone() },
            heartbeater: Heartbeater,
            volunteer_timer: Timer,
            lease_manager: LeaseManager {
                population,
                leases: 1,
            },
            bodega_conf: RespondersConf::empty(population),
            insts: vec![],
            start_slot: 0,
            bal_prep_sent: 0,
            bal_prepared: 0,
            bal_max_seen: 0,
            accept_bar: 0,
            peer_accept_bar: (0..population).map(|s| (s, (0, usize::MAX))).collect(),
            peer_accept_max: usize::MAX,
            commit_bar: 0,
            accept_retry: (Instant::now(), 0),
            exec_bar: 0,
            peer_exec_bar: (0..population)
                .filter(|&s| s != id)
                .map(|s| (s, 0))
                .collect(),
            snap_bar: 0,
            highest_slot: HashMap::new(),
            node_cnts_stats: HashMap::new(),
            sent,
        }
    }

    /// End of the held slots.
    pub(crate) fn end(&self) -> usize {
        self.start_slot + self.insts.len()
    }

    /// The held slot of that number.
    pub(crate) fn held(&self, slot: usize) -> Option<&Instance> {
        slot.checked_sub(self.start_slot)
            .and_then(|i| self.insts.get(i))
    }

    pub(crate) fn heard(
        &mut self,
        peer: ReplicaId,
        ballot: Ballot,
        conf: Option<RespondersConf<()>>,
        bars: [usize; 3],
    ) {
        let [commit_bar, exec_bar, snap_bar] = bars;
        block_on(self.heard_heartbeat(peer, ballot, conf, commit_bar, exec_bar, snap_bar))
            .expect("heard");
    }

    pub(crate) fn guard(&mut self, peer: ReplicaId, number: Ballot, accept_bar: usize) {
        block_on(
            self.handle_lease_action(number, LeaseAction::GuardAcceptBar { peer, accept_bar }),
        )
        .expect("guard");
    }

    pub(crate) fn reply(&mut self, peer: ReplicaId, slot: usize, ballot: Ballot) {
        self.handle_msg_accept_reply(peer, slot, ballot)
            .expect("reply");
    }

    pub(crate) fn notice(&mut self, peer: ReplicaId, slot: usize, ballot: Ballot) {
        self.handle_msg_accept_notice(peer, slot, ballot)
            .expect("notice");
    }

    pub(crate) fn commit(&mut self, peer: ReplicaId, ballot: Ballot, bar: usize) {
        self.heard_commit_notice(peer, ballot, bar).expect("commit");
    }

    pub(crate) fn release(&mut self, slot: usize) {
        self.release_held_read_reqs(slot).expect("release");
    }

    /// Reads as they come to the original.
    pub(crate) fn read_batch(&mut self, leases: u64, reqs: ReqBatch) {
        // the original counts leases in a u8; a quorum is at most 64
        self.lease_manager.leases = u8::try_from(leases).unwrap_or(u8::MAX);
        block_on(self.handle_req_batch(reqs)).expect("read");
    }

    /// A read as a batch of one Get. A read that would be held by a slot that
    /// holds `limit` reads already is taken back: false.
    pub(crate) fn read(
        &mut self,
        client: ClientId,
        request: RequestId,
        leases: u64,
        key: &[u8],
        limit: usize,
    ) -> bool {
        let key = key_string(key);
        let held_by = self.highest_slot.get(&key).copied();
        let (before, end) = (self.sent.len(), self.insts.len());
        let get = ApiRequest::Req {
            id: request,
            cmd: Command::Get { key },
        };
        self.read_batch(leases, vec![(client, get)]);
        self.insts.truncate(end);
        if self.sent.len() > before {
            return true;
        }

        let slot = held_by.expect("a read is held by the slot of its key");
        let book = self.insts[slot - self.start_slot]
            .replica_bk
            .as_mut()
            .expect("a read is held in a notice book");
        if book.holding_reads.len() > limit {
            book.holding_reads.pop();
            return false;
        }
        self.sent.push(Item::Hold {
            client,
            request,
            slot: slot as u64,
        });
        true
    }

    pub(crate) fn prepared(&mut self, ballot: Ballot) {
        self.bal_prepared = ballot;
    }

    pub(crate) fn record(&mut self, slot: usize, ballot: Ballot, reqs: ReqBatch) {
        while self.end() <= slot {
            self.insts.push(self.null_instance());
        }
        Self::refresh_highest_slot(slot, &reqs, &mut self.highest_slot);
        let leader = self.is_leader();
        let inst = &mut self.insts[slot - self.start_slot];
        inst.bal = ballot;
        inst.status = Status::Accepting;
        inst.reqs = reqs;
        inst.leader_bk = leader.then(|| LeaderBookkeeping {
            trigger_slot: 0,
            endprep_slot: 0,
            prepare_acks: Bitmap::new(self.population, false),
            prepare_max_bal: 0,
            accept_acks: Bitmap::new(self.population, false),
        });
        if !leader && inst.replica_bk.is_none() {
            inst.replica_bk = Some(ReplicaBookkeeping {
                source: self.id,
                trigger_slot: 0,
                endprep_slot: 0,
                accept_notices_bal: 0,
                accept_notices: Bitmap::new(self.population, false),
                holding_reads: vec![],
            });
        }
    }

    pub(crate) fn bars(&mut self, start: usize, accept: usize, commit: usize, exec: usize) {
        for inst in &mut self.insts[..exec - self.start_slot] {
            inst.status = Status::Executed;
        }
        self.insts.drain(..start - self.start_slot);
        self.start_slot = start;
        self.accept_bar = accept;
        self.commit_bar = commit;
        self.exec_bar = exec;
    }
}
