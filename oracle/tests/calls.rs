//! The recorded calls are what the oracle makes, and reach what they are meant to.

use std::path::Path;

use bodega_oracle::calls::{CALLS, Recording, TRAPS, answer, extra_scripts, make};
use bodega_oracle::item::Item;

/// The refusals that each line can have as a call.
const GROUNDS: [(&str, &[u8]); 17] = [
    ("node", &[2]),
    ("lead", &[2, 3]),
    ("range", &[2, 4, 5, 6, 7, 17]),
    ("whole", &[2, 4]),
    ("drop", &[2, 3]),
    ("reset", &[2]),
    ("show", &[2, 20]),
    ("heard", &[2, 3, 4, 8, 12, 15, 20]),
    ("guard", &[2, 3, 8, 10]),
    ("prepared", &[2, 13]),
    ("record", &[2, 5, 8, 9, 13, 14, 15, 18]),
    ("reply", &[2, 3, 8, 16, 20]),
    ("notice", &[2, 3, 8, 15, 20]),
    ("commit", &[2, 3, 8, 20]),
    ("bars", &[2, 8, 11]),
    ("read", &[2, 5, 19, 20]),
    ("release", &[2, 8, 16, 20]),
];

fn calls(recording: &Recording, name: &str) -> u64 {
    let of_name = recording.reached.iter().filter(|((of, _), _)| *of == name);
    of_name.map(|(_, count)| count).sum()
}

#[test]
fn files_are_the_oracles() {
    let folder = Path::new(env!("CARGO_MANIFEST_DIR")).join("../crates/test_calls");
    let recording = make();
    assert!(std::fs::read(folder.join("stdin")).unwrap() == recording.input);
    assert!(std::fs::read(folder.join("stdout")).unwrap() == recording.output);
}

#[test]
fn scripts_of_calls_are_answered_as_argued() {
    for script in extra_scripts() {
        let (expected, answered) = (script.expected, answer(&script.script));
        assert_eq!(
            String::from_utf8_lossy(&answered),
            String::from_utf8_lossy(&expected),
            "{}",
            script.name
        );
    }
}

#[test]
fn every_refusal_and_item_of_the_calls_is_reached() {
    let recording = make();
    for (name, grounds) in GROUNDS {
        for ground in [&[0], grounds].concat() {
            assert!(
                recording.reached.contains_key(&(name, ground)),
                "{name} {ground}"
            );
        }
    }
    for (name, ground) in recording.reached.keys() {
        let (_, grounds) = GROUNDS.iter().find(|(of, _)| of == name).unwrap();
        assert!(*ground == 0 || grounds.contains(ground), "{name} {ground}");
    }
    for (kind, count) in Item::KINDS.iter().zip(recording.items) {
        assert!(count > 0, "{kind}");
    }
}

#[test]
fn every_call_is_made_often_and_meets_every_limit() {
    let recording = make();
    for name in CALLS {
        assert!(calls(&recording, name) >= 150, "{name}");
    }
    let [slots, keys, items, start] = recording.most;
    assert_eq!((slots, keys, items), (32, 256, 546));
    assert!(start > 32, "{start}");
}

#[test]
fn every_trap_has_its_scripts() {
    let recording = make();
    for (trap, scripts) in TRAPS {
        assert!(!scripts.is_empty(), "{trap}");
        for script in scripts {
            assert!(
                recording.names.iter().any(|name| name == script),
                "{script}"
            );
        }
    }
}
