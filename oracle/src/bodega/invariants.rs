//! What holds of every node that lines reach, checked after each line of many
//! scripts. The answers do not lean on it.

use super::*;
use crate::generate::Generator;
use crate::replay::{MAX_HELD, MAX_RANGES, MAX_SLOTS, MAX_WRITTEN, Replay};

fn holds(node: &BodegaReplica) -> Result<(), &'static str> {
    let check = |holds: bool, what: &'static str| if holds { Ok(()) } else { Err(what) };
    let leader = node.is_leader();
    let ballot = node.bal_max_seen;
    check(
        node.start_slot <= node.exec_bar
            && node.exec_bar <= node.commit_bar
            && node.commit_bar <= node.end()
            && node.insts.len() <= MAX_SLOTS,
        "start <= exec <= commit <= end <= start + 32",
    )?;
    check(
        node.bal_prep_sent <= ballot
            && [0, node.bal_prep_sent].contains(&node.bal_prepared)
            && (!leader || (ballot > 0 && node.bal_prep_sent == ballot)),
        "prep_sent <= ballot, prepared is 0 or prep_sent, a leader's prep_sent is the ballot",
    )?;
    let mut open_below = false;
    for (at, inst) in node.insts.iter().enumerate() {
        let slot = node.start_slot + at;
        let book = inst.replica_bk.as_ref();
        let holding = book.map_or(0, |book| book.holding_reads.len());
        check(
            slot >= node.commit_bar || inst.status >= Status::Committed,
            "slots below commit are Committed or Executed",
        )?;
        check(
            (inst.status == Status::Executed) == (slot < node.exec_bar),
            "Executed exactly below exec",
        )?;
        check(
            inst.bal <= ballot && book.is_none_or(|book| book.accept_notices_bal <= ballot),
            "no slot's or book's ballot is above the node's",
        )?;
        let acks = inst.leader_bk.is_some();
        check(
            match inst.status {
                Status::Null => inst.bal == 0 && inst.reqs.is_empty() && !acks,
                Status::Preparing => inst.bal > 0 && acks,
                Status::Accepting => inst.bal > 0 && (acks || book.is_some()),
                Status::Committed | Status::Executed => inst.bal > 0,
            },
            "what a slot of each status has",
        )?;
        check(
            !leader
                || match inst.status {
                    Status::Accepting => acks && inst.bal == node.bal_prepared,
                    Status::Preparing => inst.bal == ballot,
                    _ => true,
                },
            "a leader's open slots",
        )?;
        check(
            holding == 0 || inst.status >= Status::Accepting,
            "reads are held by slots Accepting or later",
        )?;
        check(
            holding == 0 || !(leader && inst.status == Status::Accepting),
            "a leader's Accepting slot holds none",
        )?;
        check(
            holding == 0 || inst.status < Status::Committed || !open_below,
            "no slot is open below a Committed one that holds reads",
        )?;
        check(holding <= MAX_HELD, "16 reads a slot")?;
        open_below |= inst.status < Status::Committed;
    }
    for &slot in node.highest_slot.values() {
        check(
            slot < node.end()
                && node
                    .held(slot)
                    .is_none_or(|inst| inst.status != Status::Null),
            "a written key's highest slot is below end and not Null",
        )?;
    }
    check(node.highest_slot.len() <= MAX_WRITTEN, "256 written keys")?;
    let own_role = leader
        || node
            .bodega_conf
            .responders
            .iter()
            .any(|(_, _, (mask, _))| mask.get(node.id) == Ok(true));
    check(
        !own_role || node.peer_accept_bar[&node.id].0 == ballot,
        "a node with a role has an own pair of the ballot",
    )?;
    check(
        node.bodega_conf.responders.iter().count() <= MAX_RANGES,
        "64 ranges",
    )
}

#[test]
fn hold_after_every_line() {
    for seed in 0..400 {
        let mut generator = Generator::new(seed);
        let mut replay = Replay::new();
        let mut out = Vec::new();
        for at in 0..600 {
            let line = generator.next_line(&replay);
            out.clear();
            replay.line(&line, &mut out);
            if let Some(host) = replay.host()
                && let Err(what) = holds(&host.node)
            {
                panic!("seed {seed} line {at}: {what}");
            }
        }
    }
}
