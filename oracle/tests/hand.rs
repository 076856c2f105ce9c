//! The hand-written scripts against the oracle. What they expect comes from
//! document 01 and the original's text, not from a run.

use bodega_oracle::{hand, script};

#[test]
fn answers_are_as_argued() {
    let hands = hand::read(include_str!("../scripts/hand.txt"));
    let mut wrong = 0;
    for hand in &hands {
        let answer = script::answer(&hand.script.bytes(), false);
        if answer != hand.expected {
            wrong += 1;
            let (ours, theirs) = (
                String::from_utf8_lossy(&hand.expected).into_owned(),
                String::from_utf8_lossy(&answer).into_owned(),
            );
            let at = ours
                .lines()
                .zip(theirs.lines())
                .position(|(a, b)| a != b)
                .unwrap_or(0);
            println!(
                "{}: expected {:?}, oracle {:?}",
                hand.name,
                ours.lines()
                    .skip(at.saturating_sub(1))
                    .take(3)
                    .collect::<Vec<_>>(),
                theirs
                    .lines()
                    .skip(at.saturating_sub(1))
                    .take(3)
                    .collect::<Vec<_>>()
            );
        }
    }
    assert!(hands.len() > 100, "{} scripts", hands.len());
    assert_eq!(wrong, 0, "of {} scripts", hands.len());
}
