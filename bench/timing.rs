// Times two sides in turn and prints the medians.
use std::time::Instant;

// A round is far shorter than a scheduler's time slice, so that on a busy machine the median falls on rounds that were not
// interrupted: it is the time of the code and not the share of the processor.
pub const ROUNDS: usize = 1001;
pub const CALLS: usize = 1000;
pub const BATCH: usize = 16;

fn median(mut v: Vec<f64>) -> f64 {
    v.sort_by(|a, b| a.total_cmp(b));
    v[v.len() / 2]
}

// One side: what is made ready before a round, outside the time, and the n-th call of the round.
pub struct Side<R: FnMut(), C: FnMut(usize)> {
    pub ready: R,
    pub call: C,
}

// ns a call in one round of n calls
fn round(n: usize, side: &mut Side<impl FnMut(), impl FnMut(usize)>) -> f64 {
    (side.ready)();
    let t = Instant::now();
    for i in 0..n {
        (side.call)(i);
    }
    t.elapsed().as_nanos() as f64 / n as f64
}

// medians of each side's ns a call, rounds of the two in turn; the first round is left out
pub fn rounds(
    n: usize,
    mut ours: Side<impl FnMut(), impl FnMut(usize)>,
    mut theirs: Side<impl FnMut(), impl FnMut(usize)>,
) -> (f64, f64) {
    let (mut a, mut b) = (Vec::new(), Vec::new());
    for _ in 0..ROUNDS + 1 {
        a.push(round(n, &mut ours));
        b.push(round(n, &mut theirs));
    }
    (median(a.split_off(1)), median(b.split_off(1)))
}

// the same where nothing is made ready
pub fn both(mut ours: impl FnMut(), mut theirs: impl FnMut()) -> (f64, f64) {
    rounds(
        CALLS,
        Side { ready: || (), call: |_| ours() },
        Side { ready: || (), call: |_| theirs() },
    )
}

pub fn line(name: &str, (ours, theirs): (f64, f64), goal: Option<f64>) {
    let verdict = match goal {
        Some(g) if ours < g => format!("  goal {g} ns: met"),
        Some(g) => format!("  goal {g} ns: MISSED"),
        None => String::new(),
    };
    println!("{name:<48} {ours:>9.1} {theirs:>9.1} {:>7.2}{verdict}", ours / theirs);
}
