//! A smoke run of the generator: what it reaches, and that a seed stands for
//! one script.

use bodega_oracle::coverage::{Coverage, DEEP};
use bodega_oracle::generate;
use bodega_oracle::item::Item;
use bodega_oracle::replay::KINDS;
use bodega_oracle::script::answer;

#[test]
fn reaches_everything() {
    let mut coverage = Coverage::default();
    for seed in 0..300 {
        let (mut input, mut output) = (Vec::new(), Vec::new());
        generate::script(seed, 1000, &mut input, &mut output, Some(&mut coverage));
    }
    for refusal in 1..20 {
        assert!(
            coverage.outcome(refusal) >= 300,
            "refusal {refusal}: {}",
            coverage.outcome(refusal)
        );
    }
    for (kind, counts) in KINDS.iter().zip(coverage.kinds).take(KINDS.len() - 1) {
        assert!(counts[0] >= 300, "{kind}: {}", counts[0]);
    }
    for (kind, count) in Item::KINDS.iter().zip(coverage.items) {
        assert!(count >= 300, "{kind}: {count}");
    }
    for (state, count) in DEEP.iter().zip(coverage.deep) {
        assert!(count >= 5, "{state}: {count}");
    }
}

#[test]
fn a_seed_is_one_script() {
    for seed in 0..20 {
        let (mut a, mut b) = (Vec::new(), Vec::new());
        let (mut a_out, mut b_out) = (Vec::new(), Vec::new());
        generate::script(seed, 300, &mut a, &mut a_out, None);
        generate::script(
            seed,
            300,
            &mut b,
            &mut b_out,
            Some(&mut Coverage::default()),
        );
        assert!(a == b && a_out == b_out, "seed {seed}");
        // a fresh run over the text answers as the generator's own did
        assert!(answer(&a, false) == a_out, "seed {seed}");
    }
}
