//! The recorded answers are the oracle's, and reach what they are meant to.

use std::path::Path;

use bodega_oracle::item::Item;
use bodega_oracle::replay::{KINDS, Replay};
use bodega_oracle::script::{Script, answer};
use bodega_oracle::{hand, recorded};

fn file() -> Vec<recorded::Recorded> {
    let path = Path::new(env!("CARGO_MANIFEST_DIR")).join("recorded/scripts.rec");
    recorded::read(&std::fs::read(path).unwrap()).expect("the format of recorded answers")
}

#[test]
fn answers_are_the_oracles() {
    for script in file() {
        assert!(
            answer(&script.input, false) == script.output,
            "{}",
            script.name
        );
    }
}

#[test]
fn hand_written_ones_stand_there_with_the_answers_argued() {
    let file = file();
    for hand in hand::read(include_str!("../scripts/hand.txt")) {
        let script = file.iter().find(|s| s.name == hand.name);
        let script = script.unwrap_or_else(|| panic!("{} is not recorded", hand.name));
        assert!(script.input == hand.script.bytes(), "{}", hand.name);
        assert!(script.output == hand.expected, "{}", hand.name);
    }
}

#[test]
fn every_line_kind_refusal_and_item_kind_is_reached() {
    let mut taken = [false; KINDS.len()];
    let mut refused = [false; 20];
    let mut sent = [false; Item::KINDS.len()];
    for script in file() {
        let mut replay = Replay::new();
        for line in &Script::of(&script.input).lines {
            let (kind, refusal) = replay.line(line, &mut Vec::new());
            taken[kind] |= refusal == 0;
            refused[refusal as usize] = true;
            for item in replay.items() {
                sent[item.kind()] = true;
            }
        }
    }
    assert!(taken[..KINDS.len() - 1].iter().all(|&t| t), "{taken:?}");
    assert!(refused.iter().all(|&r| r), "{refused:?}");
    assert!(sent.iter().all(|&s| s), "{sent:?}");
}

// test.sh holds the copy that crates/test_scripts reads to the file
#[test]
fn the_gate_expects_the_numbers_of_the_file() {
    let scripts = file();
    let lines: usize = scripts
        .iter()
        .map(|script| Script::of(&script.input).lines.len())
        .sum();
    let folder = Path::new(env!("CARGO_MANIFEST_DIR")).join("../crates/test_scripts");
    assert_eq!(
        std::fs::read_to_string(folder.join("stdout")).unwrap(),
        format!("{} scripts, {lines} lines, 0 differ\n", scripts.len())
    );
    // the program's buffer
    assert!(recorded::write(&scripts).len() < 262_144);
}

#[test]
fn file_format_is_read_back() {
    let scripts = file();
    assert!(scripts.len() >= 200, "{}", scripts.len());
    let bytes = recorded::write(&scripts);
    assert_eq!(recorded::read(&bytes).unwrap(), scripts);
    assert!(bytes.len() < 300_000, "{} bytes", bytes.len());
    assert!(recorded::read(&bytes[..bytes.len() - 1]).is_none());
    assert!(recorded::read(b"script,a,1\n").is_none());
    assert!(recorded::read(b"script,a,99999999999999999999,0\n").is_none());
    let mut names: Vec<&String> = scripts.iter().map(|s| &s.name).collect();
    names.sort();
    names.dedup();
    assert_eq!(names.len(), scripts.len());
}
