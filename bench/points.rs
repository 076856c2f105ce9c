// Compares the proved roster edits with a plain array that has an optional mask for each key of a small key space.
// Arguments: how many random lists of edits (default 50,000 for each small key space), and a seed. Exits with 1 where something differs.
use std::process::exit;

#[repr(C)]
#[derive(Clone, Copy, PartialEq, Debug)]
struct Count {
    number: u64,
    count: usize,
}

#[repr(C)]
#[derive(Clone, Copy, PartialEq, Debug)]
struct Mask {
    found: u64,
    mask: u64,
}

extern "C" {
    fn bodega_range(
        rows: *mut u64, rows_len: usize, count: usize, population: u8,
        start: *const u8, start_len: usize, end: *const u8, end_len: usize, mask: u64,
    ) -> Count;
    fn bodega_whole(rows: *mut u64, rows_len: usize, count: usize, population: u8, mask: u64) -> Count;
    fn bodega_drop(rows: *mut u64, rows_len: usize, count: usize, population: u8, id: u8) -> Count;
    fn bodega_lookup(rows: *const u64, rows_len: usize, count: usize, default: u64, key: *const u8, key_len: usize) -> Mask;
}

// 320 words for 64 rows, and 8 more that no call may touch.
const WORDS: usize = 328;
const BEYOND: u64 = 0x5555_aaaa_5555_aaaa;

#[derive(Clone)]
struct Table {
    rows: [u64; WORDS],
    count: usize,
}

#[derive(Clone, Debug)]
enum Edit {
    Range(Vec<u8>, Vec<u8>, u64),
    Whole(u64),
    Drop(u8),
}

impl Table {
    fn new() -> Table {
        Table { rows: [BEYOND; WORDS], count: 0 }
    }

    fn edit(&mut self, population: u8, e: &Edit) -> Count {
        let (p, n) = (self.rows.as_mut_ptr(), WORDS);
        let r = unsafe {
            match e {
                Edit::Range(a, b, mask) => bodega_range(p, n, self.count, population, a.as_ptr(), a.len(), b.as_ptr(), b.len(), *mask),
                Edit::Whole(mask) => bodega_whole(p, n, self.count, population, *mask),
                Edit::Drop(id) => bodega_drop(p, n, self.count, population, *id),
            }
        };
        self.count = r.count;
        r
    }

    fn lookup(&self, default: u64, key: &[u8]) -> Mask {
        unsafe { bodega_lookup(self.rows.as_ptr(), WORDS, self.count, default, key.as_ptr(), key.len()) }
    }

    fn row(&self, i: usize) -> (u128, u128, u64) {
        let w = &self.rows[i * 5..i * 5 + 5];
        ((w[0] as u128) << 64 | w[1] as u128, (w[2] as u128) << 64 | w[3] as u128, w[4])
    }
}

// A key space of consecutive keys. `whole` stores every key: those outside the space are two cells, below and above it.
#[derive(Clone, Copy)]
struct Space {
    first: u128,
    keys: usize,
}

#[derive(Clone, PartialEq, Debug)]
struct Model {
    below: Option<u64>,
    at: Vec<Option<u64>>,
    above: Option<u64>,
}

// Rust's own reading of a key, on which key_to_inty rests
fn read(key: &[u8]) -> Option<u128> {
    std::str::from_utf8(key).ok()?.trim_start_matches(['k', 'K']).parse().ok()
}

fn fits(mask: u64, population: u8) -> bool {
    population >= 64 || mask >> population == 0
}

impl Space {
    fn last(self) -> u128 {
        self.first + (self.keys as u128 - 1)
    }

    fn empty(self) -> Model {
        Model { below: None, at: vec![None; self.keys], above: None }
    }

    // document 01: the lowest refusal that applies, or 0 and the edit made
    fn edit(self, m: &mut Model, population: u8, e: &Edit) -> u64 {
        let mut next = m.clone();
        let number = self.edit_any(&mut next, population, e);
        if number == 0 {
            if self.ranges(&next).len() > 64 {
                return 17;
            }
            *m = next;
        }
        number
    }

    // the same without a limit on the ranges
    fn edit_any(self, m: &mut Model, population: u8, e: &Edit) -> u64 {
        match e {
            Edit::Range(a, b, mask) => {
                if !fits(*mask, population) {
                    return 4;
                }
                if a.len() > 48 || b.len() > 48 {
                    return 5;
                }
                let (Some(a), Some(b)) = (read(a), read(b)) else {
                    return 6;
                };
                if a > b {
                    return 7;
                }
                for i in 0..self.keys {
                    let n = self.first + i as u128;
                    if a <= n && n <= b {
                        m.at[i] = Some(*mask);
                    }
                }
                0
            }
            Edit::Whole(mask) => {
                if !fits(*mask, population) {
                    return 4;
                }
                for c in m.at.iter_mut() {
                    *c = Some(*mask);
                }
                if self.first > 0 {
                    m.below = Some(*mask);
                }
                if self.last() < u128::MAX {
                    m.above = Some(*mask);
                }
                0
            }
            Edit::Drop(id) => {
                if *id >= population {
                    return 3;
                }
                let clear = |c: &mut Option<u64>| {
                    if let Some(k) = c {
                        *k &= !(1 << id);
                    }
                };
                m.at.iter_mut().for_each(clear);
                clear(&mut m.below);
                clear(&mut m.above);
                0
            }
        }
    }

    // the ranges that the model stores, joined
    fn ranges(self, m: &Model) -> Vec<(u128, u128, u64)> {
        let mut cells: Vec<(u128, u128, Option<u64>)> = Vec::new();
        if self.first > 0 {
            cells.push((0, self.first - 1, m.below));
        }
        for i in 0..self.keys {
            let n = self.first + i as u128;
            cells.push((n, n, m.at[i]));
        }
        if self.last() < u128::MAX {
            cells.push((self.last() + 1, u128::MAX, m.above));
        }
        let mut out: Vec<(u128, u128, u64)> = Vec::new();
        for (a, b, mask) in cells {
            let Some(mask) = mask else { continue };
            match out.last_mut() {
                Some(l) if l.2 == mask && l.1 + 1 == a => l.1 = b,
                _ => out.push((a, b, mask)),
            }
        }
        out
    }

    // what differs between the table and the model, if anything does
    fn differs(self, t: &Table, m: &Model, names: &[Vec<u8>], default: u64) -> Option<String> {
        let rows: Vec<_> = (0..t.count).map(|i| t.row(i)).collect();
        for (i, r) in rows.iter().enumerate() {
            if r.0 > r.1 {
                return Some(format!("row {i} is empty: {rows:?}"));
            }
            if i > 0 {
                let l = rows[i - 1];
                if l.1 >= r.0 {
                    return Some(format!("row {i} does not ascend: {rows:?}"));
                }
                if l.2 == r.2 && l.1 + 1 == r.0 {
                    return Some(format!("row {i} is not joined: {rows:?}"));
                }
            }
        }
        for i in 0..self.keys {
            let n = self.first + i as u128;
            let stored = rows.iter().find(|r| r.0 <= n && n <= r.1).map(|r| r.2);
            if stored != m.at[i] {
                return Some(format!("key {n}: rows store {stored:?}, model {:?}", m.at[i]));
            }
            let l = t.lookup(default, &names[i]);
            if l != (Mask { found: 1, mask: m.at[i].unwrap_or(default) }) {
                return Some(format!("key {n}: lookup {l:?}, model {:?}, default {default}", m.at[i]));
            }
        }
        if rows != self.ranges(m) {
            return Some(format!("rows {rows:?}, model {:?}", self.ranges(m)));
        }
        if t.rows[320..].iter().any(|w| *w != BEYOND) {
            return Some("words past the 64 rows changed".into());
        }
        None
    }

    // One edit on both; what differs, if anything does. A refused edit leaves rows and count as they were.
    fn step(self, t: &mut Table, m: &mut Model, population: u8, e: &Edit, names: &[Vec<u8>], default: u64) -> Result<u64, String> {
        let before = t.clone();
        let r = t.edit(population, e);
        let due = self.edit(m, population, e);
        if r.number != due {
            return Err(format!("answered {}, due {due}", r.number));
        }
        if due != 0 && (t.count != before.count || t.rows != before.rows) {
            return Err(format!("refused {due}, and the table changed"));
        }
        match self.differs(t, m, names, default) {
            Some(d) => Err(d),
            None => Ok(due),
        }
    }
}

// xorshift64*
struct Random(u64);

impl Random {
    fn next(&mut self) -> u64 {
        self.0 ^= self.0 >> 12;
        self.0 ^= self.0 << 25;
        self.0 ^= self.0 >> 27;
        self.0.wrapping_mul(0x2545_f491_4f6c_dd1d)
    }

    fn below(&mut self, n: u64) -> u64 {
        (self.next() >> 32) % n
    }

    // a key's number as bytes: with k and K, a sign and zeros in front
    fn written(&mut self, n: u128) -> Vec<u8> {
        let mut s = String::new();
        for _ in 0..self.below(3) {
            s.push(if self.below(2) == 0 { 'k' } else { 'K' });
        }
        if self.below(4) == 0 {
            s.push('+');
        }
        for _ in 0..self.below(3) {
            s.push('0');
        }
        (s + &n.to_string()).into_bytes()
    }

    fn bound(&mut self, space: Space) -> Vec<u8> {
        let n = space.first + self.below(space.keys as u64) as u128;
        match self.below(40) {
            // does not read
            0 => [&b""[..], b"k", b"+", b"k-0", b"+k7", b"7k", b"340282366920938463463374607431768211456", b"k 1", b"k++1", b"\xff1"][self.below(10) as usize].to_vec(),
            // 48 bytes, and 49
            1 => format!("{:0>48}", n).into_bytes(),
            2 => format!("{:0>49}", n).into_bytes(),
            3 => [b"k".repeat(60), b"x".repeat(49), b"".to_vec()][self.below(3) as usize].clone(),
            _ => self.written(n),
        }
    }

    // mostly a few masks, so that ranges join; now and then any, also with a bit at the population or above it
    fn mask(&mut self, population: u8) -> u64 {
        let all = if population >= 64 { u64::MAX } else { (1 << population) - 1 };
        match self.below(16) {
            0 => self.next() & all,
            1 => all,
            2 if population < 64 => 1 << population,
            3 => self.next(),
            _ => self.below(4) & all,
        }
    }

    fn edit(&mut self, space: Space, population: u8) -> Edit {
        match self.below(10) {
            0 if space.keys <= 64 || self.below(40) == 0 => Edit::Whole(self.mask(population)),
            1 | 2 if space.keys <= 64 || self.below(40) == 0 => Edit::Drop(match self.below(8) {
                0 => population,
                1 => (self.next() >> 56) as u8,
                2 => population - 1,
                _ => self.below(3.min(population as u64)) as u8,
            }),
            _ if space.keys > 64 => {
                let i = self.below(space.keys as u64);
                let j = (i + self.below(4)).min(space.keys as u64 - 1);
                let (a, b) = (space.first + i as u128, space.first + j as u128);
                Edit::Range(self.written(a), self.written(b), self.mask(population))
            }
            _ => {
                let (a, b) = (self.bound(space), self.bound(space));
                // mostly in order
                match (read(&a), read(&b)) {
                    (Some(x), Some(y)) if x > y && self.below(8) > 0 => Edit::Range(b, a, self.mask(population)),
                    _ => Edit::Range(a, b, self.mask(population)),
                }
            }
        }
    }
}

fn wrong(what: &str, detail: &str, history: &[Edit]) -> ! {
    println!("DIFFERENT in {what}: {detail}");
    for e in history {
        println!("  {e:?}");
    }
    exit(1);
}

fn key_names(space: Space) -> Vec<Vec<u8>> {
    (0..space.keys).map(|i| format!("k{}", space.first + i as u128).into_bytes()).collect()
}

fn random_lists(what: &str, space: Space, lists: u64, longest: u64, reached: &[usize], rng: &mut Random) {
    let names = key_names(space);
    let mut edits = 0u64;
    let mut answers = [0u64; 21];
    for _ in 0..lists {
        let population = 1 + rng.below(64) as u8;
        let default = rng.next();
        let (mut t, mut m) = (Table::new(), space.empty());
        let mut history = Vec::new();
        for _ in 0..1 + rng.below(longest) {
            let e = rng.edit(space, population);
            history.push(e.clone());
            match space.step(&mut t, &mut m, population, &e, &names, default) {
                Ok(n) => answers[n as usize] += 1,
                Err(d) => wrong(what, &format!("population {population}: {d}"), &history),
            }
            edits += 1;
        }
    }
    let refused: Vec<String> = (1..21).filter(|n| answers[*n] > 0).map(|n| format!("{n}: {}", answers[n])).collect();
    println!("{what}: {lists} lists, {edits} edits, {} taken, refused {}", answers[0], refused.join(", "));
    for n in reached {
        if lists >= 1000 && answers[*n] == 0 {
            wrong(what, &format!("refusal {n} was never reached"), &[]);
        }
    }
}

// every list of up to `depth` range edits over the keys of the space with masks 0 to 3, those with start above end too
fn all_lists(what: &str, space: Space, depth: usize) {
    let names = key_names(space);
    let mut edits = Vec::new();
    for a in &names {
        for b in &names {
            for mask in 0..4 {
                edits.push(Edit::Range(a.clone(), b.clone(), mask));
            }
        }
    }
    fn go(space: Space, names: &[Vec<u8>], edits: &[Edit], t: &Table, m: &Model, depth: usize, history: &mut Vec<Edit>, counts: &mut [u64; 3], what: &str) {
        counts[0] += 1;
        if depth == 0 {
            return;
        }
        for e in edits {
            let (mut t, mut m) = (t.clone(), m.clone());
            history.push(e.clone());
            match space.step(&mut t, &mut m, 2, e, names, 9) {
                Ok(0) => counts[1] += 1,
                Ok(_) => counts[2] += 1,
                Err(d) => wrong(what, &d, history),
            }
            go(space, names, edits, &t, &m, depth - 1, history, counts, what);
            history.pop();
        }
    }
    let mut counts = [0u64; 3];
    go(space, &names, &edits, &Table::new(), &space.empty(), depth, &mut Vec::new(), &mut counts, what);
    println!("{what}: {} lists, last edit taken {}, refused {}", counts[0], counts[1], counts[2]);
}

fn number(n: u128) -> Vec<u8> {
    n.to_string().into_bytes()
}

// 64 ranges, and then edits that need 65 and edits that do not
fn full_tables(tables: u64, rng: &mut Random) {
    let (mut refused, mut taken) = (0u64, 0u64);
    for round in 0..tables {
        // ten keys apart, filled in any order; every second table ends at the highest key
        let first: u128 = if round % 2 == 0 { 10 } else { u128::MAX - 63 * 10 - 4 };
        let mut order: Vec<u128> = (0..64).collect();
        for i in (1..64).rev() {
            order.swap(i, rng.below(i as u64 + 1) as usize);
        }
        let mut t = Table::new();
        for i in &order {
            let a = first + i * 10;
            let r = t.edit(64, &Edit::Range(number(a), number(a + 4), 1 + (*i as u64) % 5));
            if r.number != 0 {
                wrong("full tables", &format!("filling refused {}", r.number), &[]);
            }
        }
        if t.count != 64 {
            wrong("full tables", &format!("{} rows", t.count), &[]);
        }
        for i in 0..64u128 {
            let (a, mask) = (first + i * 10, 1 + (i as u64) % 5);
            if t.row(i as usize) != (a, a + 4, mask) {
                wrong("full tables", &format!("row {i} is {:?}", t.row(i as usize)), &[]);
            }
        }
        // i is a range, its mask m, and j the next one
        let i = rng.below(63) as u128;
        let (a, m) = (first + i * 10, 1 + (i as u64) % 5);
        let refuse = [
            // in a gap; below the first; touching with another mask; inside a range: three parts; at an edge of one: two parts
            Edit::Range(number(a + 6), number(a + 8), m),
            Edit::Range(number(first - 3), number(first - 2), 1),
            Edit::Range(number(a + 5), number(a + 5), m + 8),
            Edit::Range(number(a + 1), number(a + 2), m + 8),
            Edit::Range(number(a), number(a), m + 8),
            Edit::Range(number(a + 4), number(a + 4), m + 8),
        ];
        for e in &refuse {
            let mut u = t.clone();
            let r = u.edit(64, e);
            if r.number != 17 || r.count != 64 || u.rows != t.rows {
                wrong("full tables", &format!("a 65th range: {r:?}"), &[e.clone()]);
            }
            refused += 1;
        }
        let take = [
            // the same again; joined before and after; over one range; over two; over the gap to the next; a replica out; all keys
            (Edit::Range(number(a), number(a + 4), m), 64),
            (Edit::Range(number(a + 5), number(a + 7), m), 64),
            (Edit::Range(number(a - 1), number(a - 1), m), 64),
            (Edit::Range(number(a), number(a + 4), m + 8), 64),
            (Edit::Range(number(a - 1), number(a + 5), m + 8), 64),
            (Edit::Range(number(a), number(a + 14), m + 8), 63),
            (Edit::Range(number(a + 5), number(a + 9), 1 + (i as u64 + 1) % 5), 64),
            (Edit::Range(number(a + 2), number(a + 12), m), 64),
            (Edit::Range(number(0), number(u128::MAX), m), 1),
            (Edit::Drop(63), 64),
            (Edit::Whole(m), 1),
        ];
        for (e, rows) in &take {
            let mut u = t.clone();
            let r = u.edit(64, e);
            if r.number != 0 || r.count != *rows {
                wrong("full tables", &format!("{r:?}, {rows} rows due"), &[e.clone()]);
            }
            // point by point around the range, against the table as it was
            for d in 0..20u128 {
                let Some(n) = (a - 3).checked_add(d) else { continue };
                let was = t.lookup(0, &number(n)).mask;
                let due = match e {
                    Edit::Range(x, y, mask) if read(x).unwrap() <= n && n <= read(y).unwrap() => *mask,
                    Edit::Whole(mask) => *mask,
                    _ => was,
                };
                if u.lookup(0, &number(n)).mask != due {
                    wrong("full tables", &format!("key {n}: {:?}, {due} due", u.lookup(0, &number(n))), &[e.clone()]);
                }
            }
            taken += 1;
        }
    }
    println!("full tables: {tables} of 64 ranges, {refused} edits refused with 17 and nothing changed, {taken} edits that join or cover taken");
}

// words too few, a count too large, a population out of range: 2, and nothing changes
fn not_ready() {
    let key = b"k1".to_vec();
    let mut tried = 0;
    for (words, count, population) in [(319, 0, 5), (0, 0, 5), (320, 65, 5), (320, usize::MAX, 5), (320, 0, 0), (320, 0, 65), (320, 64, 255)] {
        let before = [7u64; 320];
        let mut rows = before;
        let p = rows.as_mut_ptr();
        let answers = unsafe {
            [
                bodega_range(p, words, count, population, key.as_ptr(), key.len(), key.as_ptr(), key.len(), 1),
                bodega_whole(p, words, count, population, 1),
                bodega_drop(p, words, count, population, 0),
            ]
        };
        for r in answers {
            tried += 1;
            if r != (Count { number: 2, count }) || rows != before {
                wrong("not ready", &format!("{words} words, count {count}, population {population}: {r:?}"), &[]);
            }
        }
        let l = unsafe { bodega_lookup(rows.as_ptr(), words, count, 3, key.as_ptr(), key.len()) };
        let due = if words < 320 || count > 64 { Mask { found: 2, mask: 0 } } else { Mask { found: 1, mask: 3 } };
        tried += 1;
        if l != due {
            wrong("not ready", &format!("lookup, {words} words, count {count}: {l:?}"), &[]);
        }
    }
    // a key that does not read has no roster
    for k in [&b""[..], b"k", b"+k7", b"k-0", b"340282366920938463463374607431768211456"] {
        tried += 1;
        let l = Table::new().lookup(3, k);
        if l != (Mask { found: 0, mask: 0 }) {
            wrong("not ready", &format!("lookup of a key that does not read: {l:?}"), &[]);
        }
    }
    println!("not ready, or no roster: {tried} calls");
}

fn main() {
    let args: Vec<u64> = std::env::args().skip(1).map(|a| a.parse().expect("a number")).collect();
    let lists = args.first().copied().unwrap_or(50_000);
    let mut rng = Random(args.get(1).copied().unwrap_or(1).max(1).wrapping_mul(0x9e37_79b9_7f4a_7c15));
    let low = Space { first: 0, keys: 8 };
    let high = Space { first: u128::MAX - 7, keys: 8 };
    let middle = Space { first: (1 << 64) - 4, keys: 8 };
    not_ready();
    all_lists("all lists of up to 3 range edits, keys 0 to 3", Space { first: 0, keys: 4 }, 3);
    let grounds = [3, 4, 5, 6, 7];
    random_lists("keys 0 to 7", low, lists, 60, &grounds, &mut rng);
    random_lists("the eight highest keys", high, lists, 60, &grounds, &mut rng);
    random_lists("the eight keys around 2^64", middle, lists, 60, &grounds, &mut rng);
    // enough keys for more than 64 ranges
    random_lists("keys 0 to 199", Space { first: 0, keys: 200 }, lists / 50, 600, &[17], &mut rng);
    full_tables(lists / 20 + 1, &mut rng);
    println!("no difference");
}
