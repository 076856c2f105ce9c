// Our node through the exported calls: the short part, its lent buffer and an answer area.
use std::ops::{Deref, DerefMut};

use bodega_oracle::item::Item;

#[repr(C)]
#[derive(Clone, Copy, PartialEq, Debug)]
pub struct Plain {
    pub id: u8,
    pub population: u8,
    pub quorum: u8,
    pub leader: u8,
    pub has_leader: u64,
    pub ranges: usize,
    pub default: u64,
    pub bal_max_seen: u64,
    pub bal_prep_sent: u64,
    pub bal_prepared: u64,
    pub start_slot: u64,
    pub accept_bar: u64,
    pub commit_bar: u64,
    pub exec_bar: u64,
    pub snap_bar: u64,
    pub peer_accept_max: u64,
    pub slots: usize,
}

#[repr(C)]
#[derive(Clone, Copy)]
struct Roster {
    leader: u8,
    has_leader: u64,
    ranges: usize,
    default: u64,
}

#[repr(C)]
#[derive(Clone, Copy)]
pub struct Called {
    pub number: u64,
    pub count: usize,
    pub node: Plain,
}

unsafe extern "C" {
    fn bodega_fresh(mem: *mut u64, mem_len: usize, id: u8, population: u8, quorum: u8) -> Called;
    fn bodega_guard(
        node: Plain, mem: *mut u64, mem_len: usize, area: *const u64, area_len: usize,
        peer: u8, number: u64, bar: u64,
    ) -> Called;
    fn bodega_prepared(
        node: Plain, mem: *const u64, mem_len: usize, area: *const u64, area_len: usize,
        ballot: u64,
    ) -> Called;
    fn bodega_bars(
        node: Plain, mem: *mut u64, mem_len: usize, area: *const u64, area_len: usize,
        start: u64, accept: u64, commit: u64, exec: u64,
    ) -> Called;
    fn bodega_record(
        node: Plain, mem: *mut u64, mem_len: usize, area: *const u64, area_len: usize,
        slot: u64, ballot: u64, rows: *const u64, rows_len: usize, text: *const u8, text_len: usize,
    ) -> Called;
    fn bodega_heartbeat(
        node: Plain, mem: *mut u64, mem_len: usize, area: *mut u64, area_len: usize,
        peer: u8, ballot: u64, attached: bool, roster: Roster, rows: *const u64, rows_len: usize,
        commit: u64, exec: u64, snap: u64,
    ) -> Called;
    fn bodega_reply(
        node: Plain, mem: *mut u64, mem_len: usize, area: *mut u64, area_len: usize,
        peer: u8, slot: u64, ballot: u64,
    ) -> Called;
    fn bodega_notice(
        node: Plain, mem: *mut u64, mem_len: usize, area: *mut u64, area_len: usize,
        peer: u8, slot: u64, ballot: u64,
    ) -> Called;
    fn bodega_commit(
        node: Plain, mem: *mut u64, mem_len: usize, area: *mut u64, area_len: usize,
        peer: u8, ballot: u64, bar: u64,
    ) -> Called;
    fn bodega_read(
        node: Plain, mem: *mut u64, mem_len: usize, area: *mut u64, area_len: usize,
        client: u64, request: u64, leases: u64, key: *const u8, key_len: usize,
    ) -> Called;
    fn bodega_release(
        node: Plain, mem: *mut u64, mem_len: usize, area: *mut u64, area_len: usize,
        slot: u64,
    ) -> Called;
}

pub const WORDS: usize = 10305;
// the most items of a call
pub const PLACES: usize = 546;

// Requests as *record* takes them.
pub struct Rows {
    rows: Vec<u64>,
    text: Vec<u8>,
}

impl Rows {
    // Puts of the value 500, the requests of client 7.
    pub fn of(keys: &[String]) -> Self {
        let (mut rows, mut text) = (Vec::new(), Vec::new());
        for (i, key) in keys.iter().enumerate() {
            rows.extend([7, i as u64, 1, 500, text.len() as u64, key.len() as u64]);
            text.extend_from_slice(key.as_bytes());
        }
        Rows { rows, text }
    }
}

// A roster as *heartbeat* takes it: a leader, and ranges of keys with their responders.
#[derive(Clone)]
pub struct Conf {
    roster: Roster,
    rows: Vec<u64>,
}

impl Conf {
    pub fn of(leader: u8, ranges: &[(u128, u128, u64)]) -> Self {
        let mut rows = vec![0; 320];
        for (row, &(from, to, mask)) in rows.chunks_exact_mut(5).zip(ranges) {
            row.copy_from_slice(&[(from >> 64) as u64, from as u64, (to >> 64) as u64, to as u64, mask]);
        }
        Conf { roster: Roster { leader, has_leader: 1, ranges: ranges.len(), default: 0 }, rows }
    }
}

// Words from the start of a cache line on, so that no figure hangs on where they happen to lie.
#[repr(align(64))]
#[derive(Clone)]
pub struct Aligned<const N: usize>([u64; N]);

impl<const N: usize> Deref for Aligned<N> {
    type Target = [u64];

    fn deref(&self) -> &[u64] {
        &self.0
    }
}

impl<const N: usize> DerefMut for Aligned<N> {
    fn deref_mut(&mut self) -> &mut [u64] {
        &mut self.0
    }
}

#[derive(Clone)]
pub struct Ours {
    pub node: Plain,
    pub mem: Box<Aligned<WORDS>>,
    // how many words of it are lent
    pub lent: usize,
    area: Box<Aligned<{ 6 * PLACES }>>,
}

// `self.call(bodega_x, arguments)`: the exported call on node, buffer and area; its node is the next.
macro_rules! call {
    ($self:ident, $function:ident, $($argument:expr),*) => {{
        let called = unsafe {
            $function(
                $self.node, $self.mem.as_mut_ptr(), $self.lent, $self.area.as_mut_ptr(), $self.area.len(),
                $($argument),*
            )
        };
        $self.node = called.node;
        called
    }};
}

impl Ours {
    pub fn fresh(id: u8, population: u8, quorum: u8) -> Self {
        let mut mem = Box::new(Aligned([0; WORDS]));
        let called = unsafe { bodega_fresh(mem.as_mut_ptr(), mem.len(), id, population, quorum) };
        assert_eq!(called.number, 0);
        Ours { node: called.node, mem, lent: WORDS, area: Box::new(Aligned([0; 6 * PLACES])) }
    }

    pub fn again(&mut self) {
        let n = self.node;
        let called =
            unsafe { bodega_fresh(self.mem.as_mut_ptr(), self.mem.len(), n.id, n.population, n.quorum) };
        self.node = called.node;
    }

    // The state of another node, without making anything anew.
    pub fn set_to(&mut self, other: &Ours) {
        self.node = other.node;
        self.mem.copy_from_slice(&other.mem);
    }

    #[inline]
    pub fn guard(&mut self, peer: u8, number: u64, bar: u64) -> Called {
        call!(self, bodega_guard, peer, number, bar)
    }

    #[inline]
    pub fn prepared(&mut self, ballot: u64) -> Called {
        call!(self, bodega_prepared, ballot)
    }

    #[inline]
    pub fn bars(&mut self, start: u64, accept: u64, commit: u64, exec: u64) -> Called {
        call!(self, bodega_bars, start, accept, commit, exec)
    }

    #[inline]
    pub fn record(&mut self, slot: u64, ballot: u64, batch: &Rows) -> Called {
        let (rows, text) = (&batch.rows, &batch.text);
        call!(self, bodega_record, slot, ballot, rows.as_ptr(), rows.len(), text.as_ptr(), text.len())
    }

    #[inline]
    pub fn heard(&mut self, peer: u8, ballot: u64, conf: Option<&Conf>, [commit, exec, snap]: [u64; 3]) -> Called {
        match conf {
            Some(Conf { roster, rows }) => {
                call!(self, bodega_heartbeat, peer, ballot, true, *roster, rows.as_ptr(), rows.len(), commit, exec, snap)
            }
            None => {
                let (roster, rows) = (Roster { leader: 0, has_leader: 0, ranges: 0, default: 0 }, [0; 0]);
                call!(self, bodega_heartbeat, peer, ballot, false, roster, rows.as_ptr(), 0, commit, exec, snap)
            }
        }
    }

    #[inline]
    pub fn reply(&mut self, peer: u8, slot: u64, ballot: u64) -> Called {
        call!(self, bodega_reply, peer, slot, ballot)
    }

    #[inline]
    pub fn notice(&mut self, peer: u8, slot: u64, ballot: u64) -> Called {
        call!(self, bodega_notice, peer, slot, ballot)
    }

    #[inline]
    pub fn commit(&mut self, peer: u8, ballot: u64, bar: u64) -> Called {
        call!(self, bodega_commit, peer, ballot, bar)
    }

    #[inline]
    pub fn read(&mut self, client: u64, request: u64, leases: u64, key: &[u8]) -> Called {
        call!(self, bodega_read, client, request, leases, key.as_ptr(), key.len())
    }

    #[inline]
    pub fn release(&mut self, slot: u64) -> Called {
        call!(self, bodega_release, slot)
    }

    // Every held slot is Accepting again; the start is 0.
    #[inline]
    pub fn reopen(&mut self) {
        for cell in self.mem[512..].chunks_exact_mut(8).take(self.node.slots) {
            cell[1] = 2;
        }
    }

    // ---- to be compared with the Rust's

    // The first places of the area.
    pub fn items(&self, count: usize) -> Vec<[u64; 6]> {
        self.area.chunks_exact(6).take(count).map(|w| w.try_into().expect("six words")).collect()
    }

    pub fn numbers(&self) -> [u64; 8] {
        let n = &self.node;
        [
            n.bal_max_seen, n.bal_prep_sent, n.bal_prepared,
            n.start_slot, n.accept_bar, n.commit_bar, n.exec_bar, n.snap_bar,
        ]
    }

    // Of each held slot its status, ballot, requests and held reads.
    pub fn slots(&self) -> Vec<[u64; 4]> {
        let slot = |i: usize| {
            let c = (self.node.start_slot as usize + i) % 32;
            let cell = &self.mem[512 + 8 * c..][..7];
            let held = if cell[4] == 0 { 0 } else { self.mem[3616 + 145 * c] };
            [cell[1], cell[0], self.mem[768 + 89 * c], held]
        };
        (0..self.node.slots).map(slot).collect()
    }

    pub fn written(&self) -> usize {
        self.mem[8256] as usize
    }
}

// An item of the Rust's as six words.
pub fn words(item: Item) -> [u64; 6] {
    let six = |kind, [a, b, c, d]: [u64; 4]| [kind, a, b, c, d, 0];
    match item {
        Item::Value { client, request, value } => six(1, [client, request, value, 0]),
        Item::Absent { client, request } => six(2, [client, request, 0, 0]),
        Item::Store { client, request } => six(3, [client, request, 0, 0]),
        Item::Pass { client, request } => six(4, [client, request, 0, 0]),
        Item::Hold { client, request, slot } => six(5, [client, request, slot, 0]),
        Item::Retry { client, request, leader: None } => six(6, [client, request, 0, 0]),
        Item::Retry { client, request, leader: Some(leader) } => six(6, [client, request, 1, u64::from(leader)]),
        Item::Resend { slot, peer } => six(7, [slot, u64::from(peer), 0, 0]),
        Item::Commit { slot } => six(8, [slot, 0, 0, 0]),
        Item::Lead { step_up } => six(9, [u64::from(step_up), 0, 0, 0]),
        Item::Prelog { slot } => six(10, [slot, 0, 0, 0]),
        Item::Prepare { slot, ballot } => six(11, [slot, ballot, 0, 0]),
        Item::Span { .. } | Item::Rest { .. } => panic!("a roster's item"),
    }
}
