//! Of the original's bodega/mod.rs the types and common helpers that the
//! original files need, rewritten by hand; those files are its children, as
//! in the original.

mod events;
#[cfg(test)]
mod invariants;
#[cfg(test)]
mod tests;

include!(concat!(env!("OUT_DIR"), "/bodega.rs"));

use std::collections::HashMap;

use crate::client::ClientId;
use crate::item::Recorder;
use crate::manager::CtrlMsg;
use crate::server::{
    ApiReply, ApiRequest, Command, CommandId, CommandResult, ControlHub, ExternalApi, Heartbeater,
    LeaseManager, ReplicaId, RequestId, StateMachine, StorageHub, TransportHub,
};
use crate::time::{self, Duration, Instant};
use crate::utils::{Bitmap, RespondersConf, SummersetError, Timer};

pub(crate) use events::{key_bytes, key_string};

/// Of the original's parameters those that its files read.
#[derive(Clone)]
pub(crate) struct ReplicaConfigBodega {
    logger_sync: bool,
    hb_hear_timeout_min: u64,
    hb_hear_timeout_max: u64,
    hb_send_interval_ms: u64,
    disable_hb_timer: bool,
    disallow_step_up: bool,
    record_node_cnts: bool,
    sim_read_lease: bool,
}

/// Ballot number type. Use 0 as a null ballot number.
pub(crate) type Ballot = u64;

#[derive(Debug, PartialEq, Eq, PartialOrd, Ord, Clone, Copy)]
pub(crate) enum Status {
    Null = 0,
    Preparing = 1,
    Accepting = 2,
    Committed = 3,
    Executed = 4,
}

pub(crate) type ReqBatch = Vec<(ClientId, ApiRequest)>;

#[derive(Debug, Clone)]
#[allow(dead_code)]
pub(crate) struct LeaderBookkeeping {
    pub(crate) trigger_slot: usize,
    pub(crate) endprep_slot: usize,
    pub(crate) prepare_acks: Bitmap,
    pub(crate) prepare_max_bal: Ballot,
    pub(crate) accept_acks: Bitmap,
}

#[derive(Debug, Clone)]
#[allow(dead_code)]
pub(crate) struct ReplicaBookkeeping {
    pub(crate) source: ReplicaId,
    pub(crate) trigger_slot: usize,
    pub(crate) endprep_slot: usize,
    pub(crate) accept_notices_bal: Ballot,
    pub(crate) accept_notices: Bitmap,
    pub(crate) holding_reads: ReqBatch,
}

#[derive(Debug, Clone)]
#[allow(dead_code)]
pub(crate) struct Instance {
    pub(crate) bal: Ballot,
    pub(crate) status: Status,
    pub(crate) reqs: ReqBatch,
    pub(crate) voted: (Ballot, ReqBatch),
    pub(crate) leader_bk: Option<LeaderBookkeeping>,
    pub(crate) replica_bk: Option<ReplicaBookkeeping>,
    pub(crate) external: bool,
    pub(crate) wal_offset: Option<usize>,
    pub(crate) prep_inflight: u32,
}

#[allow(dead_code)]
pub(crate) enum WalEntry {
    PrepareBal {
        slot: usize,
        ballot: Ballot,
    },
    AcceptData {
        slot: usize,
        ballot: Ballot,
        reqs: ReqBatch,
    },
    CommitSlot {
        slot: usize,
    },
}

#[derive(Debug, PartialEq, Eq, Clone, Copy)]
#[allow(dead_code)]
pub(crate) enum LogCtx {
    PrepareBal { slot: usize, ballot: Ballot },
    AcceptData { slot: usize, ballot: Ballot },
    CommitSlot { slot: usize },
}

#[allow(dead_code)]
pub(crate) enum PeerMsg {
    Prepare {
        trigger_slot: usize,
        ballot: Ballot,
    },
    PrepareReply {
        slot: usize,
        trigger_slot: usize,
        endprep_slot: usize,
        ballot: Ballot,
        voted: Option<(Ballot, ReqBatch)>,
    },
    Accept {
        slot: usize,
        ballot: Ballot,
        reqs: ReqBatch,
    },
    AcceptReply {
        slot: usize,
        ballot: Ballot,
    },
    Heartbeat {
        ballot: Ballot,
        conf: RespondersConf<()>,
        commit_bar: usize,
        exec_bar: usize,
        snap_bar: usize,
    },
    CommitNotice {
        ballot: Ballot,
        commit_bar: usize,
    },
    AcceptNotice {
        slot: usize,
        ballot: Ballot,
    },
}

#[derive(Clone)]
pub(crate) struct BodegaReplica {
    pub(crate) id: ReplicaId,
    pub(crate) population: u8,
    pub(crate) quorum_cnt: u8,
    config: ReplicaConfigBodega,
    control_hub: ControlHub,
    external_api: ExternalApi,
    state_machine: StateMachine,
    storage_hub: StorageHub,
    transport_hub: TransportHub,
    heartbeater: Heartbeater,
    volunteer_timer: Timer,
    lease_manager: LeaseManager,
    pub(crate) bodega_conf: RespondersConf<()>,
    pub(crate) insts: Vec<Instance>,
    pub(crate) start_slot: usize,
    pub(crate) bal_prep_sent: Ballot,
    pub(crate) bal_prepared: Ballot,
    pub(crate) bal_max_seen: Ballot,
    pub(crate) accept_bar: usize,
    pub(crate) peer_accept_bar: HashMap<ReplicaId, (Ballot, usize)>,
    pub(crate) peer_accept_max: usize,
    pub(crate) commit_bar: usize,
    accept_retry: (Instant, usize),
    pub(crate) exec_bar: usize,
    pub(crate) peer_exec_bar: HashMap<ReplicaId, usize>,
    pub(crate) snap_bar: usize,
    pub(crate) highest_slot: HashMap<String, usize>,
    node_cnts_stats: HashMap<ReplicaId, u64>,
    /// What the hubs have recorded.
    pub(crate) sent: Recorder,
}

impl BodegaReplica {
    #[inline]
    pub(crate) fn is_leader(&self) -> bool {
        self.bodega_conf.is_leader(self.id)
    }

    #[inline]
    #[allow(clippy::unused_self)]
    fn null_instance(&self) -> Instance {
        Instance {
            bal: 0,
            status: Status::Null,
            reqs: ReqBatch::new(),
            voted: (0, ReqBatch::new()),
            leader_bk: None,
            replica_bk: None,
            external: false,
            wal_offset: None,
            prep_inflight: 0,
        }
    }

    /// The original takes the first null slot for a read that goes through
    /// ordinary consensus. Document 01 leaves that slot to the host, so a
    /// scratch slot is lent at the end; `read` takes it back.
    fn first_null_slot(&mut self) -> usize {
        self.insts.push(self.null_instance());
        self.start_slot + self.insts.len() - 1
    }

    #[inline]
    fn make_unique_ballot(&self, base: u64) -> Ballot {
        (base << 8) | u64::from(self.id + 1)
    }

    #[inline]
    fn make_greater_ballot(&self, bal: Ballot) -> Ballot {
        self.make_unique_ballot((bal >> 8) + 1)
    }

    #[inline]
    fn make_ro_command_id(client: ClientId, req_id: RequestId) -> CommandId {
        (client << 32) | (1 << 31) | (req_id & ((1 << 31) - 1))
    }

    /// The state machine is asked for one Get at a time and never has older
    /// results to hand on.
    #[allow(clippy::unused_async, clippy::unused_self)]
    async fn handle_cmd_result(
        &mut self,
        _: CommandId,
        _: CommandResult,
    ) -> Result<(), SummersetError> {
        panic!("no command was left with the state machine")
    }
}
