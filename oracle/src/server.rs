//! Stand-ins for the original's `server`: its plain types as there, and hubs
//! that record what a replica sends, in order, and do nothing else.

use crate::bodega::{LogCtx, PeerMsg, WalEntry};
use crate::client::ClientId;
use crate::item::{Item, Recorder};
use crate::manager::CtrlMsg;
use crate::utils::{Bitmap, SummersetError};

pub(crate) type ReplicaId = u8;
pub(crate) type RequestId = u64;
pub(crate) type CommandId = u64;
pub(crate) type LeaseGid = u16;
pub(crate) type LeaseNum = u64;

#[derive(Debug, PartialEq, Eq, Clone)]
pub(crate) enum Command {
    Get { key: String },
    Put { key: String, value: String },
}

#[derive(Debug, PartialEq, Eq, Clone)]
#[allow(dead_code)]
pub(crate) enum CommandResult {
    Get { value: Option<String> },
    Put { old_value: Option<String> },
}

#[derive(Debug, PartialEq, Eq, Clone)]
#[allow(dead_code)]
pub(crate) enum ApiRequest {
    Req { id: RequestId, cmd: Command },
    Conf { id: RequestId, delta: ConfChange },
}

impl ApiRequest {
    #[inline]
    pub(crate) fn write_key(&self) -> Option<&String> {
        match self {
            ApiRequest::Req {
                cmd: Command::Put { key, .. },
                ..
            } => Some(key),
            _ => None,
        }
    }

    #[inline]
    pub(crate) fn conf_change(&self) -> bool {
        matches!(self, ApiRequest::Conf { .. })
    }
}

#[derive(Debug, PartialEq, Eq, Default, Clone)]
pub(crate) struct ConfChange {
    pub(crate) reset: bool,
    pub(crate) leader: Option<ReplicaId>,
    pub(crate) range: Option<(String, String)>,
    pub(crate) responders: Option<Bitmap>,
}

#[derive(Debug, PartialEq, Eq, Clone)]
#[allow(dead_code)]
pub(crate) enum ApiReply {
    Reply {
        id: RequestId,
        result: Option<CommandResult>,
        redirect: Option<ReplicaId>,
        rq_retry: Option<Command>,
    },
    Conf {
        id: RequestId,
        success: bool,
    },
}

impl ApiReply {
    #[inline]
    pub(crate) fn normal(id: RequestId, result: Option<CommandResult>) -> Self {
        ApiReply::Reply {
            id,
            result,
            redirect: None,
            rq_retry: None,
        }
    }

    #[inline]
    pub(crate) fn redirect(id: RequestId, redirect: Option<ReplicaId>) -> Self {
        ApiReply::Reply {
            id,
            result: None,
            redirect,
            rq_retry: None,
        }
    }

    #[inline]
    pub(crate) fn rq_retry(id: RequestId, read_cmd: Command, redirect: Option<ReplicaId>) -> Self {
        ApiReply::Reply {
            id,
            result: None,
            redirect,
            rq_retry: Some(read_cmd),
        }
    }
}

/// What the state machine answers to every Get; no value of a line is spelt
/// so. It marks the reply as one for the item `store`.
const FROM_STORE: &str = "store";

#[derive(Clone)]
pub(crate) struct ExternalApi {
    pub(crate) sent: Recorder,
}

impl ExternalApi {
    #[allow(clippy::unnecessary_wraps, clippy::needless_pass_by_value)]
    pub(crate) fn send_reply(
        &mut self,
        reply: ApiReply,
        client: ClientId,
    ) -> Result<(), SummersetError> {
        self.sent.push(match reply {
            ApiReply::Reply {
                id: request,
                result: Some(CommandResult::Get { value: Some(value) }),
                ..
            } => {
                if value == FROM_STORE {
                    Item::Store { client, request }
                } else {
                    let value = value.parse().expect("a value is a number");
                    Item::Value {
                        client,
                        request,
                        value,
                    }
                }
            }
            ApiReply::Reply {
                id: request,
                result: Some(CommandResult::Get { value: None }),
                ..
            } => Item::Absent { client, request },
            ApiReply::Reply {
                id: request,
                result: None,
                redirect: leader,
                rq_retry: Some(_),
            } => Item::Retry {
                client,
                request,
                leader,
            },
            other => panic!("no item for {other:?}"),
        });
        Ok(())
    }
}

#[derive(Clone)]
pub(crate) struct StateMachine;

type CommandResults = (Vec<(CommandId, CommandResult)>, CommandResult);

impl StateMachine {
    #[allow(clippy::unused_async, clippy::unused_self)]
    pub(crate) async fn do_sync_cmd(
        &mut self,
        _: CommandId,
        cmd: Command,
        _: Option<(ClientId, RequestId)>,
    ) -> Result<CommandResults, SummersetError> {
        let Command::Get { .. } = cmd else {
            panic!("only Gets are answered from the state machine");
        };
        let value = Some(FROM_STORE.to_string());
        Ok((Vec::new(), CommandResult::Get { value }))
    }
}

#[derive(Clone)]
pub(crate) struct ControlHub {
    pub(crate) sent: Recorder,
}

impl ControlHub {
    #[allow(clippy::unnecessary_wraps, clippy::needless_pass_by_value)]
    pub(crate) fn send_ctrl(&mut self, msg: CtrlMsg) -> Result<(), SummersetError> {
        match msg {
            CtrlMsg::LeaderStatus { step_up } => self.sent.push(Item::Lead { step_up }),
            _ => panic!("no item for a control message"),
        }
        Ok(())
    }
}

#[allow(dead_code)]
pub(crate) enum LogAction<Ent> {
    Append { entry: Ent, sync: bool },
}

#[derive(Clone)]
pub(crate) struct StorageHub {
    pub(crate) sent: Recorder,
}

impl StorageHub {
    #[allow(clippy::unnecessary_wraps, clippy::needless_pass_by_value)]
    pub(crate) fn submit_action(
        &mut self,
        ctx: LogCtx,
        _: LogAction<WalEntry>,
    ) -> Result<(), SummersetError> {
        match ctx {
            LogCtx::PrepareBal { slot, .. } => self.sent.push(Item::Prelog { slot: slot as u64 }),
            LogCtx::CommitSlot { slot } => self.sent.push(Item::Commit { slot: slot as u64 }),
            // comes with the broadcast that makes it a `pass`
            LogCtx::AcceptData { .. } => {}
        }
        Ok(())
    }
}

#[derive(Clone)]
pub(crate) struct TransportHub {
    pub(crate) sent: Recorder,
}

impl TransportHub {
    #[allow(clippy::unnecessary_wraps, clippy::needless_pass_by_value)]
    pub(crate) fn send_msg(&mut self, msg: PeerMsg, peer: ReplicaId) -> Result<(), SummersetError> {
        match msg {
            PeerMsg::Accept { slot, .. } => self.sent.push(Item::Resend {
                slot: slot as u64,
                peer,
            }),
            _ => panic!("no item for a message to one peer"),
        }
        Ok(())
    }

    #[allow(clippy::unnecessary_wraps, clippy::needless_pass_by_value)]
    pub(crate) fn bcast_msg(
        &mut self,
        msg: PeerMsg,
        target: Option<Bitmap>,
    ) -> Result<(), SummersetError> {
        match (msg, target) {
            (
                PeerMsg::Prepare {
                    trigger_slot,
                    ballot,
                },
                None,
            ) => self.sent.push(Item::Prepare {
                slot: trigger_slot as u64,
                ballot,
            }),
            // a read that goes through ordinary consensus
            (PeerMsg::Accept { reqs, .. }, None) => {
                for (client, req) in reqs {
                    let ApiRequest::Req { id: request, .. } = req else {
                        panic!("no item for a configuration change");
                    };
                    self.sent.push(Item::Pass { client, request });
                }
            }
            _ => panic!("no item for a broadcast"),
        }
        Ok(())
    }

    pub(crate) fn send_lease_msg(
        &mut self,
        _: LeaseGid,
        _: LeaseNum,
        _: LeaseMsg,
        _: ReplicaId,
    ) -> Result<(), SummersetError> {
        panic!("no item for a lease message")
    }

    pub(crate) fn bcast_lease_msg(
        &mut self,
        _: LeaseGid,
        _: LeaseNum,
        _: LeaseMsg,
        _: Option<Bitmap>,
    ) -> Result<(), SummersetError> {
        panic!("no item for a lease message")
    }
}

/// Heartbeat counts and timers are left out by document 01.
#[derive(Clone)]
pub(crate) struct Heartbeater;

#[allow(clippy::unnecessary_wraps, clippy::unused_self)]
impl Heartbeater {
    pub(crate) fn kickoff_hear_timer(
        &mut self,
        _: Option<ReplicaId>,
    ) -> Result<(), SummersetError> {
        Ok(())
    }

    pub(crate) fn update_bcast_cnts(&mut self) -> Result<(), SummersetError> {
        Ok(())
    }

    pub(crate) fn update_heard_cnt(&mut self, _: ReplicaId) -> Result<(), SummersetError> {
        Ok(())
    }

    pub(crate) fn clear_reply_cnts(&mut self, _: Option<ReplicaId>) -> Result<(), SummersetError> {
        Ok(())
    }
}

#[derive(Debug, PartialEq, Eq, Clone)]
#[allow(dead_code)]
pub(crate) enum LeaseMsg {
    Promise,
}

#[derive(Debug, PartialEq, Eq, Clone)]
#[allow(dead_code)]
pub(crate) enum LeaseAction {
    SendLeaseMsg { peer: ReplicaId, msg: LeaseMsg },
    BcastLeaseMsgs { peers: Bitmap, msg: LeaseMsg },
    NextRefresh { peer: ReplicaId },
    GrantRemoved { peer: ReplicaId, held: bool },
    LeaseCleared,
    GrantTimeout { peer: ReplicaId },
    LeaseTimeout { peer: ReplicaId },
    HigherNumber,
    GuardAcceptBar { peer: ReplicaId, accept_bar: usize },
}

#[derive(Debug, PartialEq, Eq, Clone)]
#[allow(dead_code)]
pub(crate) enum LeaseNotice {
    NewGrants {
        peers: Option<Bitmap>,
        accept_bar: Option<usize>,
    },
    DoRevoke {
        peers: Option<Bitmap>,
    },
}

/// The host's side of leases: nothing is granted, so nothing is waited for,
/// and the number held is what the line says.
#[derive(Clone)]
pub(crate) struct LeaseManager {
    pub(crate) population: u8,
    pub(crate) leases: u8,
}

#[allow(clippy::unnecessary_wraps, clippy::unused_self)]
impl LeaseManager {
    pub(crate) fn lease_cnt(&self) -> u8 {
        self.leases
    }

    pub(crate) fn grant_set(&self) -> Bitmap {
        Bitmap::new(self.population, false)
    }

    pub(crate) fn add_notice(&mut self, _: LeaseNum, _: LeaseNotice) -> Result<(), SummersetError> {
        Ok(())
    }

    #[allow(clippy::unused_async)]
    pub(crate) async fn get_action(&mut self) -> Result<(LeaseNum, LeaseAction), SummersetError> {
        panic!("there is no lease to wait for")
    }

    pub(crate) fn attempt_refresh(&mut self, _: Option<&Bitmap>) -> Result<Bitmap, SummersetError> {
        Ok(Bitmap::new(self.population, false))
    }
}
