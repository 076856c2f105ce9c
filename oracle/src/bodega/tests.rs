//! What the original's own functions do beyond the event program's domain:
//! where `record` parts from the Accept handler, and which assertions the
//! refusals keep away.

use std::panic::{AssertUnwindSafe, catch_unwind};

use super::*;
use crate::time::block_on;

fn put(key: &str, value: &str) -> ReqBatch {
    let cmd = Command::Put {
        key: key.to_string(),
        value: value.to_string(),
    };
    vec![(7, ApiRequest::Req { id: 1, cmd })]
}

fn led_by(leader: ReplicaId) -> Option<RespondersConf<()>> {
    let mut conf = RespondersConf::empty(3);
    conf.set_leader(leader);
    Some(conf)
}

fn accept(node: &mut BodegaReplica, slot: usize, ballot: Ballot, reqs: ReqBatch) {
    let msg = PeerMsg::Accept { slot, ballot, reqs };
    block_on(node.handle_msg_recv(0, msg)).unwrap();
}

/// A former leader with an Accepting slot 0 of ballot 257.
fn former_leader() -> BodegaReplica {
    let mut node = BodegaReplica::fresh(0, 3, 2);
    node.heard(0, 257, led_by(0), [0; 3]);
    node.prepared(257);
    node.record(0, 257, put("k1", "5"));
    node.heard(1, 514, led_by(1), [0; 3]);
    node
}

#[test]
fn accept_and_record_agree_at_a_follower() {
    let (mut one, mut other) = (BodegaReplica::fresh(1, 3, 2), BodegaReplica::fresh(1, 3, 2));
    for node in [&mut one, &mut other] {
        node.heard(0, 257, led_by(0), [0; 3]);
        node.notice(0, 2, 257);
    }
    for (slot, value) in [(2, "5"), (4, "6"), (2, "7"), (0, "8")] {
        one.record(slot, 257, put("k1", value));
        accept(&mut other, slot, 257, put("k1", value));
    }
    assert_eq!(one.highest_slot, other.highest_slot);
    assert_eq!(one.insts.len(), other.insts.len());
    for (a, b) in one.insts.iter().zip(&other.insts) {
        assert_eq!((a.bal, a.status, &a.reqs), (b.bal, b.status, &b.reqs));
        assert!(a.leader_bk.is_none() && b.leader_bk.is_none());
        let book = |i: &Instance| {
            i.replica_bk
                .as_ref()
                .map(|bk| (bk.accept_notices_bal, bk.accept_notices.clone()))
        };
        assert_eq!(book(a), book(b));
    }
}

#[test]
fn accept_leaves_an_old_ack_book() {
    let mut node = former_leader();
    accept(&mut node, 0, 514, put("k1", "6"));
    assert!(node.insts[0].leader_bk.is_some());

    let mut node = former_leader();
    node.record(0, 514, put("k1", "6"));
    assert!(node.insts[0].leader_bk.is_none());
}

#[test]
fn accept_takes_a_committed_slot() {
    let mut node = BodegaReplica::fresh(1, 3, 2);
    node.heard(0, 257, led_by(0), [0; 3]);
    accept(&mut node, 0, 257, put("k1", "5"));
    node.commit(0, 257, 1);
    node.heard(0, 513, led_by(0), [0; 3]);
    accept(&mut node, 0, 513, put("k2", "6"));
    let inst = &node.insts[0];
    assert_eq!((inst.bal, inst.status), (513, Status::Committed));
    assert_eq!(inst.reqs, put("k1", "5"));
    assert_eq!(node.highest_slot.get("k2"), Some(&0));
}

#[test]
fn accept_takes_a_higher_ballot() {
    let mut node = BodegaReplica::fresh(1, 3, 2);
    node.heard(0, 257, led_by(0), [0; 3]);
    accept(&mut node, 0, 513, put("k1", "5"));
    assert_eq!(node.bal_max_seen, 513);
    assert_eq!(node.insts[0].bal, 513);
}

fn panics(call: impl FnOnce()) -> bool {
    catch_unwind(AssertUnwindSafe(call)).is_err()
}

#[test]
fn refusals_keep_assertions_away() {
    let fresh = || BodegaReplica::fresh(1, 3, 2);
    // 2: a bitmap of no bits, a quorum of none
    assert!(panics(|| drop(BodegaReplica::fresh(0, 0, 0))));
    assert!(panics(|| BodegaReplica::fresh(1, 3, 0).guard(0, 1, 0)));
    // 3: no such peer in the maps and bitmaps
    assert!(panics(|| fresh().guard(3, 1, 0)));
    assert!(panics(|| fresh().heard(3, 0, None, [0, 1, 0])));
    assert!(panics(|| fresh().notice(3, 0, 0)));
    // 11: the commit bar below start, or above the held slots
    assert!(panics(|| {
        let mut node = fresh();
        node.start_slot = 2;
        node.notice(0, 2, 0);
        node.commit(0, 0, 3);
    }));
    // 12: a higher ballot without roster
    assert!(panics(|| fresh().heard(0, 257, None, [0; 3])));
    // 16: a reply or release at a slot not held
    assert!(panics(|| fresh().reply(0, 0, 0)));
    assert!(panics(|| fresh().release(0)));
    // a leader's record at another ballot than bal_prepared (13)
    assert!(panics(|| {
        let mut node = BodegaReplica::fresh(0, 3, 2);
        node.heard(0, 257, led_by(0), [0; 3]);
        node.record(0, 256, Vec::new());
        node.prepared(257);
        node.reply(1, 0, 257);
    }));
}

#[test]
fn without_refusal_15_a_notice_takes_any_number_of_slots() {
    let mut node = BodegaReplica::fresh(1, 3, 2);
    node.notice(0, 5000, 0);
    assert_eq!(node.insts.len(), 5001);
}
