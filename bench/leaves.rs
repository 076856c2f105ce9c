// Times the proved functions against plain Rust in the same run: key reading, an insert into 64 ranges, lookup at 64 ranges.
mod timing;

use std::cell::RefCell;
use std::collections::BTreeMap;
use std::hint::black_box;
use timing::{both, line, rounds, Side, BATCH, ROUNDS};

#[repr(C)]
#[derive(Clone, Copy)]
struct Key {
    read: u64,
    hi: u64,
    lo: u64,
}

#[repr(C)]
#[derive(Clone, Copy)]
struct Count {
    number: u64,
    count: usize,
}

#[repr(C)]
#[derive(Clone, Copy)]
struct Mask {
    found: u64,
    mask: u64,
}

extern "C" {
    fn bodega_key(key: *const u8, len: usize) -> Key;
    fn bodega_range(
        rows: *mut u64, rows_len: usize, count: usize, population: u8,
        start: *const u8, start_len: usize, end: *const u8, end_len: usize, mask: u64,
    ) -> Count;
    fn bodega_lookup(rows: *const u64, rows_len: usize, count: usize, default: u64, key: *const u8, key_len: usize) -> Mask;
}

fn key(k: &[u8]) -> Option<u128> {
    let r = unsafe { bodega_key(k.as_ptr(), k.len()) };
    (r.read == 1).then_some((r.hi as u128) << 64 | r.lo as u128)
}

fn range(rows: &mut [u64], count: usize, population: u8, start: &[u8], end: &[u8], mask: u64) -> Count {
    unsafe { bodega_range(rows.as_mut_ptr(), rows.len(), count, population, start.as_ptr(), start.len(), end.as_ptr(), end.len(), mask) }
}

fn lookup(rows: &[u64], count: usize, default: u64, k: &[u8]) -> Mask {
    unsafe { bodega_lookup(rows.as_ptr(), rows.len(), count, default, k.as_ptr(), k.len()) }
}

fn plain_key(k: &str) -> Option<u128> {
    k.trim_start_matches(['k', 'K']).parse::<u128>().ok()
}

// Inclusive ranges by start, as the documentation of rangemap's RangeInclusiveMap has them: an insert overwrites what it
// overlaps, and touching ranges with equal values are one. Not that crate, which is not at hand.
#[derive(Clone, Default)]
struct RangeMap {
    by_start: BTreeMap<u128, (u128, u64)>,
}

impl RangeMap {
    fn get(&self, n: u128) -> Option<u64> {
        let (_, &(end, mask)) = self.by_start.range(..=n).next_back()?;
        (n <= end).then_some(mask)
    }

    fn insert(&mut self, mut a: u128, mut b: u128, mask: u64) {
        // the range that begins below a
        if let Some((&s, &(e, m))) = self.by_start.range(..a).next_back() {
            if e >= a {
                if m == mask {
                    a = s;
                    b = b.max(e);
                } else {
                    self.by_start.insert(s, (a - 1, m));
                    if e > b {
                        self.by_start.insert(b + 1, (e, m));
                    }
                }
            } else if e + 1 == a && m == mask {
                a = s;
            }
        }
        // those that begin in a to b, or right after b
        while let Some((&s, &(e, m))) = self.by_start.range(a..=b).next() {
            self.by_start.remove(&s);
            if e > b {
                if m == mask {
                    b = e;
                } else {
                    self.by_start.insert(b + 1, (e, m));
                }
            }
        }
        if b < u128::MAX {
            if let Some(&(e, m)) = self.by_start.get(&(b + 1)) {
                if m == mask {
                    self.by_start.remove(&(b + 1));
                    b = e;
                }
            }
        }
        self.by_start.insert(a, (b, mask));
    }
}

// 64 ranges of 10 keys with a gap of 10 after each, no two of the same mask side by side
fn table() -> (Vec<u64>, usize, RangeMap) {
    let mut rows = vec![0u64; 320];
    let mut count = 0;
    let mut map = RangeMap::default();
    for i in 0..64u64 {
        let (a, b, mask) = (1000 + i * 20, 1000 + i * 20 + 9, 1 + i % 7);
        let r = range(&mut rows, count, 64, format!("k{a}").as_bytes(), format!("k{b}").as_bytes(), mask);
        assert_eq!(r.number, 0);
        count = r.count;
        map.insert(a as u128, b as u128, mask);
    }
    assert_eq!((count, map.by_start.len()), (64, 64));
    (rows, count, map)
}

fn main() {
    println!("medians of {ROUNDS} rounds, ns a call; the other side of ranges is a BTreeMap written from rangemap's documentation,");
    println!("not the crate itself, and reads the key by trim_start_matches and parse, as key_to_inty does");
    println!("{:<48} {:>9} {:>9} {:>7}", "", "ours", "other", "ratio");

    for (name, k) in [
        ("key k1204", "k1204".to_string()),
        ("key of 48 bytes (9 k, 39 digits)", format!("{}{}", "k".repeat(9), u128::MAX)),
        ("key of 48 bytes (k, 47 digits, 46 of them 0)", format!("k{:047}", 7)),
        ("key of 48 bytes that does not read", format!("k{}x", "1".repeat(46))),
    ] {
        assert_eq!(key(k.as_bytes()), plain_key(&k), "{k}");
        let t = both(|| { black_box(key(black_box(k.as_bytes()))); }, || { black_box(plain_key(black_box(&k))); });
        line(name, t, None);
    }

    // Each insert is into a fresh copy of the 64 ranges, made outside the time.
    let (rows, count, map) = table();
    for (name, a, b, mask) in [
        ("insert into 64: the first range anew", 1000u64, 1009u64, 32u64),
        ("insert into 64: a middle range anew", 1640, 1649, 32),
        ("insert into 64: the last range anew", 2260, 2269, 32),
        ("insert into 64: over ranges 20 to 40", 1395, 1815, 32),
        ("insert into 64: over all", 0, 5000, 32),
        ("insert into 64: a 65th range (ours refuses)", 1650, 1655, 32),
    ] {
        let (s, e) = (format!("k{a}"), format!("k{b}"));
        // the same answer on both sides
        let mut m = map.clone();
        m.insert(a as u128, b as u128, mask);
        let mut work = rows.clone();
        let r = range(&mut work, count, 64, s.as_bytes(), e.as_bytes(), mask);
        if m.by_start.len() <= 64 {
            assert_eq!((r.number, r.count), (0, m.by_start.len()));
        } else {
            assert_eq!((r.number, r.count), (17, count));
        }
        let work = RefCell::new(vec![rows.clone(); BATCH]);
        let maps = RefCell::new(vec![map.clone(); BATCH]);
        let t = rounds(
            BATCH,
            Side {
                ready: || work.borrow_mut().iter_mut().for_each(|w| w.copy_from_slice(&rows)),
                call: |i| { black_box(range(&mut work.borrow_mut()[i], count, 64, black_box(s.as_bytes()), black_box(e.as_bytes()), mask)); },
            },
            Side {
                ready: || maps.borrow_mut().iter_mut().for_each(|m| *m = map.clone()),
                call: |i| {
                    let m = &mut maps.borrow_mut()[i];
                    m.insert(plain_key(black_box(&s)).unwrap(), plain_key(black_box(&e)).unwrap(), mask);
                    black_box(&m);
                },
            },
        );
        line(name, t, Some(1000.0));
    }

    for (name, n) in [
        ("lookup at 64: in the first range", 1004u64),
        ("lookup at 64: in a middle range", 1644),
        ("lookup at 64: in the last range", 2264),
        ("lookup at 64: in no range, below", 3),
        ("lookup at 64: in no range, between", 1650),
        ("lookup at 64: in no range, above", 9_999_999),
    ] {
        let k = format!("k{n}");
        let r = lookup(&rows, count, 77, k.as_bytes());
        assert_eq!((r.found, r.mask), (1, map.get(n as u128).unwrap_or(77)));
        let t = both(
            || { black_box(lookup(black_box(&rows), count, 77, black_box(k.as_bytes()))); },
            || { black_box(plain_key(black_box(&k)).map(|n| map.get(n).unwrap_or(77))); },
        );
        line(name, t, Some(100.0));
    }
}
