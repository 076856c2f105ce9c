//! Of the original's `manager` only the messages that a replica sends it.

use crate::server::ReplicaId;
use crate::utils::{ConfNum, RespondersConf};

#[allow(dead_code)]
pub(crate) enum CtrlMsg {
    LeaderStatus {
        step_up: bool,
    },
    RespondersConf {
        conf_num: ConfNum,
        new_conf: RespondersConf<()>,
    },
    Leave {
        id: ReplicaId,
    },
}
