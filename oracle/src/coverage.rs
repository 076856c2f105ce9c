//! What scripts reach: line kinds by outcome, item kinds, deep states.

use std::fmt::Write as _;

use crate::item::Item;
use crate::replay::{KINDS, MAX_HELD, MAX_RANGES, MAX_SLOTS, MAX_WRITTEN, Replay};

/// Refusals 1 to 19 can show in lines; place 0 is for lines taken.
const OUTCOMES: usize = 20;

pub const DEEP: [&str; 18] = [
    "32-slots-held",
    "16-reads-held-by-a-slot",
    "256-written-keys",
    "64-stored-ranges",
    "step-up-that-releases-reads",
    "step-up-while-leader-already",
    "adoption-at-the-present-ballot",
    "leader-adopts-another-leader",
    "notice-that-raises-the-ballot",
    "notice-before-its-record",
    "notice-that-releases-two-or-more",
    "notice-that-releases-value-and-retry",
    "reply-with-two-resends-or-more",
    "reply-with-resend-and-commit",
    "bars-that-drops-slots",
    "walk-over-two-slots-or-more",
    "reading-bar-rises-at-a-guard",
    "snap-bar-falls",
];

/// What of a node the deep states compare across a line.
#[derive(Clone, Copy, Default)]
pub struct Watch {
    ballot: u64,
    leader: bool,
    own_pair: (u64, usize),
    start: usize,
    end: usize,
    reading: usize,
    snap: usize,
}

impl Watch {
    /// Before a line.
    #[must_use]
    pub fn new(replay: &Replay) -> Self {
        replay.host().map_or_else(Watch::default, |host| {
            let node = &host.node;
            Watch {
                ballot: node.bal_max_seen,
                leader: node.is_leader(),
                own_pair: node.peer_accept_bar[&node.id],
                start: node.start_slot,
                end: node.end(),
                reading: node.peer_accept_max,
                snap: node.snap_bar,
            }
        })
    }

    /// The deep states met by that line, in the order of `DEEP`.
    #[must_use]
    pub fn met(&self, kind: usize, refusal: u8, replay: &Replay) -> [bool; DEEP.len()] {
        let mut met = [false; DEEP.len()];
        let (Some(host), 0) = (replay.host(), refusal) else {
            return met;
        };
        let (before, after) = (self, Watch::new(replay));
        let (node, name, items) = (&host.node, KINDS[kind], replay.items());
        let of = |name: &str| {
            items
                .iter()
                .filter(|i| Item::KINDS[i.kind()] == name)
                .count()
        };
        let stepped = matches!(items.first(), Some(Item::Lead { step_up: true }));
        let raised = after.ballot > before.ballot;
        match name {
            "range" => met[3] = host.draft.responders.iter().count() == MAX_RANGES,
            "heard" => {
                met[4] = stepped && of("retry") > 0;
                met[5] = stepped && before.leader;
                met[6] = !raised && (after.own_pair != before.own_pair || stepped);
                met[7] = before.leader && raised && !stepped;
                met[15] = of("commit") >= 2;
                met[17] = after.snap < before.snap;
            }
            "guard" => met[16] = after.reading > before.reading,
            "record" => {
                met[0] = node.insts.len() == MAX_SLOTS;
                met[2] = node.highest_slot.len() == MAX_WRITTEN;
            }
            "reply" => {
                met[12] = of("resend") >= 2;
                met[13] = of("resend") > 0 && of("commit") > 0;
            }
            "notice" => {
                met[8] = raised;
                met[9] = after.end > before.end;
                met[10] = items.len() >= 2;
                met[11] = of("value") > 0 && of("retry") > 0;
            }
            "commit" => met[15] = of("commit") >= 2,
            "bars" => met[14] = after.start > before.start,
            "read" => {
                met[1] = of("hold") > 0
                    && node.insts.iter().any(|i| {
                        i.replica_bk
                            .as_ref()
                            .is_some_and(|bk| bk.holding_reads.len() == MAX_HELD)
                    });
            }
            _ => {}
        }
        met
    }
}

/// A line's kind with its outcome: the refusal's number, or the kinds of its
/// items in the order of their first, with a `s` where there are several.
#[must_use]
pub fn outcome(kind: usize, refusal: u8, items: &[Item]) -> String {
    let mut text = KINDS[kind].trim_matches(['(', ')']).to_string();
    if refusal > 0 {
        write!(text, "-refused-{refusal}").unwrap();
        return text;
    }
    let mut seen = [0; Item::KINDS.len()];
    let mut order = Vec::new();
    for item in items {
        if seen[item.kind()] == 0 {
            order.push(item.kind());
        }
        seen[item.kind()] += 1;
    }
    if order.is_empty() {
        text.push_str("-taken");
    }
    for kind in order {
        let several = if seen[kind] > 1 { "s" } else { "" };
        write!(text, "-{}{several}", Item::KINDS[kind].replace(',', "")).unwrap();
    }
    text
}

#[derive(Default)]
pub struct Coverage {
    pub lines: u64,
    pub kinds: [[u64; OUTCOMES]; KINDS.len()],
    pub items: [u64; Item::KINDS.len()],
    pub deep: [u64; DEEP.len()],
}

impl Coverage {
    pub fn count(&mut self, kind: usize, refusal: u8, met: &[bool], replay: &Replay) {
        self.lines += 1;
        self.kinds[kind][refusal as usize] += 1;
        for item in replay.items() {
            self.items[item.kind()] += 1;
        }
        for (count, met) in self.deep.iter_mut().zip(met) {
            *count += u64::from(*met);
        }
    }

    /// Lines of any kind with that outcome.
    #[must_use]
    pub fn outcome(&self, refusal: usize) -> u64 {
        self.kinds.iter().map(|row| row[refusal]).sum()
    }

    /// The table: a line per kind with taken and each refusal, then items,
    /// then deep states.
    #[must_use]
    pub fn table(&self) -> String {
        let mut text = String::new();
        writeln!(text, "{} lines", self.lines).unwrap();
        write!(text, "{:>9} {:>8}", "line", "taken").unwrap();
        for ground in 1..OUTCOMES {
            write!(text, " {ground:>6}").unwrap();
        }
        text.push('\n');
        let row = |text: &mut String, name: &str, counts: [u64; OUTCOMES]| {
            write!(text, "{name:>9} {:>8}", counts[0]).unwrap();
            for count in &counts[1..] {
                if *count == 0 {
                    write!(text, " {:>6}", ".").unwrap();
                } else {
                    write!(text, " {count:>6}").unwrap();
                }
            }
            text.push('\n');
        };
        for (kind, counts) in KINDS.iter().zip(&self.kinds) {
            row(&mut text, kind, *counts);
        }
        row(
            &mut text,
            "all",
            std::array::from_fn(|refusal| self.outcome(refusal)),
        );
        for (kind, count) in Item::KINDS.iter().zip(&self.items) {
            writeln!(text, "{count:>10} {kind}").unwrap();
        }
        for (state, count) in DEEP.iter().zip(&self.deep) {
            writeln!(text, "{count:>10} {state}").unwrap();
        }
        text
    }
}
