// Times the proved calls against the original Rust's events in the same run.
mod ours;
#[allow(dead_code)]
mod timing;

use std::cell::RefCell;
use std::hint::black_box;

use bodega_oracle::bare::{Bare, Batch, Roster};
use ours::{Called, Conf, Ours, PLACES, Plain, Rows, WORDS, words};
use timing::{ROUNDS, Side, both, line, rounds};

const BALLOT: u64 = 257;
// the item that the Rust does not send: a held read is in a queue
const HOLD: u64 = 5;
// replicas 1 and 2 respond for every key
const WHOLE: [(u128, u128, u64); 1] = [(0, u128::MAX, 6)];

// ---- both sides, call by call

// A node and the original's replica, taken through the same calls, whose answers are compared.
struct Pair {
    ours: Ours,
    theirs: Bare,
}

impl Pair {
    fn fresh(id: u8, population: u8, quorum: u8) -> Self {
        let (ours, mut theirs) = (Ours::fresh(id, population, quorum), Bare::fresh(id, population, quorum));
        theirs.make_room(PLACES);
        Pair { ours, theirs }
    }

    // Our call is taken, and has the items that the Rust sent since the last one.
    fn same(&mut self, called: Called) {
        let items: Vec<_> = self.ours.items(called.count).into_iter().filter(|item| item[0] != HOLD).collect();
        let sent: Vec<_> = self.theirs.items().into_iter().map(words).collect();
        assert_eq!((called.number, items), (0, sent));
    }

    // The two states are alike, as far as numbers say.
    fn alike(&self) {
        let Pair { ours, theirs } = self;
        assert_eq!((ours.numbers(), ours.slots()), (theirs.numbers(), theirs.slots()));
        assert_eq!((ours.node.peer_accept_max, ours.written()), (theirs.reading_bar(), theirs.written()));
    }

    // A heartbeat of replica 0, with a roster whose leader is 0.
    fn adopt(&mut self, ranges: &[(u128, u128, u64)]) {
        let called = self.ours.heard(0, BALLOT, Some(&Conf::of(0, ranges)), [0; 3]);
        self.theirs.heard(0, BALLOT, Some(Roster::of(self.ours.node.population, 0, ranges)), [0; 3]);
        self.same(called);
    }

    fn guard(&mut self, peer: u8, bar: u64) {
        let called = self.ours.guard(peer, BALLOT, bar);
        self.theirs.guard(peer, BALLOT, bar);
        self.same(called);
    }

    fn prepared(&mut self) {
        let called = self.ours.prepared(BALLOT);
        self.theirs.prepared(BALLOT);
        self.same(called);
    }

    fn record(&mut self, slot: u64, keys: &[String]) {
        let called = self.ours.record(slot, BALLOT, &Rows::of(keys));
        self.theirs.record(slot, BALLOT, batch_of(keys));
        self.same(called);
    }

    fn reply(&mut self, peer: u8, slot: u64) {
        let called = self.ours.reply(peer, slot, BALLOT);
        self.theirs.reply(peer, slot, BALLOT);
        self.same(called);
    }

    fn notice(&mut self, peer: u8, slot: u64) {
        let called = self.ours.notice(peer, slot, BALLOT);
        self.theirs.notice(peer, slot, BALLOT);
        self.same(called);
    }

    fn commit(&mut self, bar: u64) {
        let called = self.ours.commit(0, BALLOT, bar);
        self.theirs.commit(0, BALLOT, bar);
        self.same(called);
    }

    fn read(&mut self, request: u64, key: &str) {
        let called = self.ours.read(7, request, 3, key.as_bytes());
        self.theirs.read(3, get_of(request, key));
        self.same(called);
    }
}

fn name(i: usize) -> String {
    format!("k{}", 1000 + i)
}

fn names(from: usize, count: usize) -> Vec<String> {
    (from..from + count).map(name).collect()
}

fn batch_of(keys: &[String]) -> Batch {
    let requests: Vec<_> = keys.iter().enumerate().map(|(i, k)| (7, i as u64, k.as_bytes(), Some(500))).collect();
    Batch::of(&requests)
}

fn get_of(request: u64, key: &str) -> Batch {
    Batch::of(&[(7, request, key.as_bytes(), None)])
}

// ---- what is measured

fn alone(name: &str, ours: f64) {
    println!("{name:<48} {ours:>9.1}");
}

// Rounds of n calls; before each, outside the time, the state is made, and of `given` what the Rust's calls take by value. Before all, one round whose
// answers are compared.
fn case<A>(
    name: &str,
    n: usize,
    make: impl Fn() -> Pair,
    given: impl Fn(usize) -> A,
    our_call: impl Fn(&mut Ours, usize) -> Called,
    their_call: impl Fn(&mut Bare, usize, A),
) {
    let t = timed(n, make, given, our_call, their_call);
    line(name, t, None);
}

fn timed<A>(
    n: usize,
    make: impl Fn() -> Pair,
    given: impl Fn(usize) -> A,
    our_call: impl Fn(&mut Ours, usize) -> Called,
    their_call: impl Fn(&mut Bare, usize, A),
) -> (f64, f64) {
    let mut pair = make();
    let made = pair.ours.clone();
    for i in 0..n {
        let called = our_call(&mut pair.ours, i);
        their_call(&mut pair.theirs, i, given(i));
        pair.same(called);
    }
    pair.alike();
    let (ours, theirs, arguments) = (RefCell::new(pair.ours), RefCell::new(pair.theirs), RefCell::new(Vec::new()));
    rounds(
        n,
        Side {
            ready: || ours.borrow_mut().set_to(&made),
            call: |i| { black_box(our_call(&mut ours.borrow_mut(), i)); },
        },
        Side {
            ready: || {
                *theirs.borrow_mut() = make().theirs;
                *arguments.borrow_mut() = (0..n).rev().map(&given).collect();
            },
            call: |i| {
                let argument = arguments.borrow_mut().pop().expect("one for each call");
                their_call(&mut theirs.borrow_mut(), i, argument);
            },
        },
    )
}

fn none(_: usize) {}

// ---- states

// Follows leader 0, and has heard guards at bar 0 from all that a quorum needs but one.
fn guarded(population: u8) -> Pair {
    let quorum = population / 2 + 1;
    let mut pair = Pair::fresh(1, population, quorum);
    pair.adopt(&[]);
    for peer in 2..quorum {
        pair.guard(peer, 0);
    }
    pair
}

// Replica 1 of five, a responder whose reading bar is 0; slots with so many Puts each, of different keys.
fn responder(slots: u64, puts: usize) -> Pair {
    let mut pair = Pair::fresh(1, 5, 3);
    pair.adopt(&WHOLE);
    pair.guard(0, 0);
    pair.guard(2, 0);
    for slot in 0..slots {
        pair.record(slot, &names(slot as usize * puts, puts));
    }
    pair
}

// 16 reads held by each of 32 slots, which have had notices of `peers`.
fn holding(peers: &[u8]) -> Pair {
    let mut pair = responder(32, 1);
    for slot in 0..32 {
        for &peer in peers {
            pair.notice(peer, slot);
        }
        for request in 0..16 {
            pair.read(request, &name(slot as usize));
        }
    }
    pair
}

// Leader 0 of five, prepared, with a Put in each of 32 slots, which 0 and 1 have acked.
fn acked() -> Pair {
    let mut pair = Pair::fresh(0, 5, 3);
    pair.adopt(&WHOLE);
    pair.prepared();
    for slot in 0..32 {
        pair.record(slot, &names(slot as usize, 1));
    }
    for slot in 0..32 {
        pair.reply(0, slot);
        pair.reply(1, slot);
    }
    pair
}

// ---- cases

fn fresh() {
    for population in [5, 64] {
        let quorum = population / 2 + 1;
        let mut ours = Ours::fresh(1, population, quorum);
        let t = both(
            || ours.again(),
            || { black_box(Bare::fresh(1, population, quorum)); },
        );
        line(&format!("fresh, population {population}"), t, None);
    }
}

fn guards() {
    for population in [5, 64] {
        let Pair { ours, theirs } = guarded(population);
        let (ours, theirs) = (RefCell::new(ours), RefCell::new(theirs));
        // the last of the quorum comes down from `top`, one by one, so that each guard moves the reading bar
        for (far, top) in [("near", 32), ("far", 1 << 40)] {
            let t = rounds(
                32,
                Side {
                    ready: || (ours.borrow_mut().mem[0], ours.borrow_mut().mem[64]) = (BALLOT, top),
                    call: |i| { black_box(ours.borrow_mut().guard(0, BALLOT, black_box(top - 1 - i as u64))); },
                },
                Side {
                    ready: || theirs.borrow_mut().set_pair(0, BALLOT, top),
                    call: |i| theirs.borrow_mut().guard(0, BALLOT, black_box(top - 1 - i as u64)),
                },
            );
            let last = top - 32;
            assert_eq!((ours.borrow().node.peer_accept_max, theirs.borrow().reading_bar()), (last, last));
            line(&format!("guard that moves the bar, population {population}, {far}"), t, None);
        }
        let (mut ours, mut theirs) = (ours.into_inner(), theirs.into_inner());
        let stands = ours.node;
        let t = both(
            || { black_box(ours.guard(0, BALLOT, black_box(1 << 41))); },
            || theirs.guard(0, BALLOT, black_box(1 << 41)),
        );
        assert_eq!((ours.node, stands.peer_accept_max), (stands, theirs.reading_bar()));
        line(&format!("guard that changes nothing, population {population}"), t, None);

        let (t, _) = both(|| { black_box(ours.guard(black_box(population), BALLOT, 0)); }, || ());
        alone(&format!("guard refused 3, population {population}"), t);
    }
}

fn prepared() {
    let Pair { mut ours, mut theirs } = acked();
    let t = both(
        || { black_box(ours.prepared(black_box(BALLOT))); },
        || theirs.prepared(black_box(BALLOT)),
    );
    line("prepared", t, None);
}

fn bars() {
    let Pair { mut ours, mut theirs } = guarded(5);
    let t = both(
        || { black_box(ours.bars(0, black_box(7), 0, 0)); },
        || theirs.bars(0, black_box(7), 0, 0),
    );
    line("bars, no slot held", t, None);

    let committed = || {
        let mut pair = guarded(5);
        for slot in 0..32 {
            pair.record(slot, &[]);
        }
        pair.commit(32);
        pair
    };
    case(
        "bars, one of 32 slots executed and dropped", 32, committed, none,
        |ours, i| {
            let next = i as u64 + 1;
            ours.bars(next, next, 32, next)
        },
        |theirs, i, ()| {
            let next = i as u64 + 1;
            theirs.bars(next, next, 32, next);
        },
    );
}

// Slots 0 to 31 one after the other, each with so many Puts; `known` keys are written before, and the batches' keys are among them, or the same few in
// every batch, after them in the table.
fn records() {
    for (puts, known, new) in [(1, 0, true), (1, 255, false), (8, 0, true), (8, 248, false), (8, 248, true)] {
        let make = || {
            let mut pair = guarded(5);
            for at in (0..known).step_by(8) {
                pair.record(0, &names(at, 8.min(known - at)));
            }
            pair
        };
        let keys = |i: usize| -> Vec<String> {
            (0..puts).map(|k| name(if new { 1000 + k } else { (i * puts + k) % known })).collect()
        };
        let rows: Vec<_> = (0..32).map(|i| Rows::of(&keys(i))).collect();
        let (put, key) = if puts == 1 { ("Put", "key") } else { ("Puts", "keys") };
        let which = if new { format!("the same {key}, {known} others before") } else { format!("among {known} keys") };
        case(
            &format!("record, {puts} {put}, {which}"), 32, make, |i| batch_of(&keys(i)),
            |ours, i| ours.record(i as u64, BALLOT, &rows[i]),
            |theirs, i, batch| theirs.record(i as u64, BALLOT, batch),
        );
    }
}

fn reads() {
    for (slots, puts, key, which) in [
        (1, 1, 0, "the only key"),
        (32, 8, 0, "the first of 256 keys"),
        (32, 8, 255, "the last of 256 keys"),
    ] {
        let make = || {
            let mut pair = responder(slots, puts);
            pair.commit(slots);
            pair
        };
        let key = name(key);
        case(
            &format!("read that serves a value, {which}"), 32, make, |i| get_of(i as u64, &key),
            |ours, i| ours.read(7, i as u64, 3, black_box(key.as_bytes())),
            |theirs, _, get| theirs.read(3, get),
        );
    }
    let keys = names(0, 32);
    case(
        "read that is held, 16 by each of 32 slots", 512, || responder(32, 1), |i| get_of(i as u64, &keys[i % 32]),
        |ours, i| ours.read(7, i as u64, 3, keys[i % 32].as_bytes()),
        |theirs, _, get| theirs.read(3, get),
    );
}

// The Rust's list of items is emptied before each call that has many, as our area is written from its first place on.
fn releases() {
    case(
        "notice that releases 16 reads", 32, || holding(&[0, 2]), none,
        |ours, i| ours.notice(3, i as u64, BALLOT),
        |theirs, i, ()| {
            theirs.forget_items();
            theirs.notice(3, i as u64, BALLOT);
        },
    );
    case(
        "notice that releases none", 32, || holding(&[0]), none,
        |ours, i| ours.notice(3, i as u64, BALLOT),
        |theirs, i, ()| theirs.notice(3, i as u64, BALLOT),
    );
    case(
        "release of 16 reads", 32, || holding(&[]), none,
        |ours, i| ours.release(i as u64),
        |theirs, i, ()| {
            theirs.forget_items();
            theirs.release(i as u64);
        },
    );
}

fn replies() {
    case(
        "reply that commits, at the commit bar", 32, acked, none,
        |ours, i| {
            ours.node.commit_bar = i as u64;
            ours.reply(2, i as u64, BALLOT)
        },
        |theirs, i, ()| {
            theirs.set_commit_bar(i as u64);
            theirs.reply(2, i as u64, BALLOT);
        },
    );
    case(
        "reply that commits, 0 to 31 above the bar", 32, acked, none,
        |ours, i| ours.reply(2, i as u64, BALLOT),
        |theirs, i, ()| theirs.reply(2, i as u64, BALLOT),
    );
    case(
        "reply that resends 31", 32, acked, none,
        |ours, _| ours.reply(3, 31, BALLOT),
        |theirs, _, ()| {
            theirs.forget_items();
            theirs.reply(3, 31, BALLOT);
        },
    );
}

// The slots are opened again before each call; the time of that alone is taken off.
fn commits() {
    let commit = timed(
        32, || responder(32, 1), none,
        |ours, _| {
            ours.reopen();
            ours.commit(0, BALLOT, 32)
        },
        |theirs, _, ()| {
            theirs.forget_items();
            theirs.reopen();
            theirs.commit(0, BALLOT, 32);
        },
    );
    let Pair { mut ours, mut theirs } = responder(32, 1);
    let reopen = both(
        || {
            ours.reopen();
            black_box(&mut ours);
        },
        || {
            theirs.reopen();
            black_box(&mut theirs);
        },
    );
    line("commit that marks 32 slots", (commit.0 - reopen.0, commit.1 - reopen.1), None);
    case(
        "commit that marks nothing", 32, || responder(32, 1), none,
        |ours, _| ours.commit(0, BALLOT, 0),
        |theirs, _, ()| theirs.commit(0, BALLOT, 0),
    );
}

// 64 ranges of ten keys with gaps of ten, responders 1 and 2
fn ranges_64() -> Vec<(u128, u128, u64)> {
    (0..64).map(|i| (20 * i, 20 * i + 9, 6)).collect()
}

fn heartbeats() {
    let (whole, many) = (WHOLE.to_vec(), ranges_64());
    for (which, ranges) in [("1 range", &whole), ("64 ranges", &many)] {
        let make = || {
            let mut pair = Pair::fresh(1, 5, 3);
            pair.adopt(ranges);
            pair
        };
        let (conf, roster) = (Conf::of(0, ranges), Roster::of(5, 0, ranges));
        case(
            &format!("heartbeat, ballot and roster the same, {which}"), 32, make, |_| Some(roster.clone()),
            |ours, _| ours.heard(0, BALLOT, Some(&conf), [0; 3]),
            |theirs, _, roster| theirs.heard(0, BALLOT, roster, [0; 3]),
        );
        // each of a higher ballot
        let ballot = |i: usize| BALLOT + 256 * (i as u64 + 1);
        case(
            &format!("heartbeat whose roster is adopted, {which}"), 32, make, |_| Some(roster.clone()),
            |ours, i| ours.heard(0, ballot(i), Some(&conf), [0; 3]),
            |theirs, i, roster| theirs.heard(0, ballot(i), roster, [0; 3]),
        );
    }
    case(
        "heartbeat, ballot the same, no roster", 32, || responder(32, 1), none,
        |ours, _| ours.heard(0, BALLOT, None, [0; 3]),
        |theirs, _, ()| theirs.heard(0, BALLOT, None, [0; 3]),
    );
    // rosters that no edits make: refused 2, and the node stays
    for ranges in [
        vec![(5, 3, 6)],
        vec![(0, 9, 6), (10, 19, 6)],
        vec![(10, 19, 6), (0, 9, 6)],
        vec![(0, 9, 6), (9, 19, 4)],
    ] {
        let mut ours = Ours::fresh(1, 5, 3);
        let before = ours.clone();
        assert_eq!(ours.heard(0, BALLOT, Some(&Conf::of(0, &ranges)), [0; 3]).number, 2);
        assert_eq!((ours.node, &ours.mem[..]), (before.node, &before.mem[..]));
    }
    // of the follower itself, who leads then
    let ballot = BALLOT + 257;
    let (conf, roster) = (Conf::of(1, &WHOLE), Roster::of(5, 1, &WHOLE));
    case(
        "heartbeat that steps up, 32 slots, 512 reads", 1, || holding(&[]), |_| Some(roster.clone()),
        |ours, _| ours.heard(1, ballot, Some(&conf), [0; 3]),
        |theirs, _, roster| theirs.heard(1, ballot, roster, [0; 3]),
    );
}

fn main() {
    println!("medians of {ROUNDS} rounds, ns a call; the other side is the original Rust's event function alone, with the oracle's stand-ins for");
    println!("bitmaps and range maps; ours has the refusals, and each call takes the node's short part by value and gives it back");
    println!(
        "node {} bytes and buffer {} bytes: {} together, goal below 131072",
        size_of::<Plain>(), WORDS * 8, size_of::<Plain>() + WORDS * 8
    );
    println!("{:<48} {:>9} {:>9} {:>7}", "", "ours", "other", "ratio");

    let mut ours = Ours::fresh(1, 5, 3);
    ours.lent = 0;
    let (t, _) = both(|| { assert_eq!(black_box(ours.guard(0, BALLOT, 0)).number, 2); }, || ());
    alone("no buffer lent: the node handed over and back", t);
    fresh();
    guards();
    prepared();
    bars();
    records();
    reads();
    releases();
    replies();
    commits();
    heartbeats();
}
