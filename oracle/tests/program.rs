//! The programs as they are run: `oracle` on standard input, and its
//! comparison with programs that are right and wrong.

use std::time::Duration;

use bodega_oracle::compare::{self, Program};
use bodega_oracle::script::Script;

const ORACLE: &str = env!("CARGO_BIN_EXE_oracle");

fn program(command: &[&str]) -> Program {
    Program {
        command: command.iter().map(ToString::to_string).collect(),
        timeout: Duration::from_secs(60),
    }
}

/// The oracle behind a filter that spoils its answers.
fn spoilt(filter: &str) -> Program {
    program(&["sh", "-c", &format!("\"$0\" | sed '{filter}'"), ORACLE])
}

#[test]
fn worked_example_byte_for_byte() {
    let input = "\
node,1,3,2
lead,0
range,k10,k19,6
heard,0,257,1,0,0,0
guard,0,257,0
record,0,257,7,1,k12,500
read,9,1,2,k12
read,9,2,2,K12
notice,0,0,257
notice,2,0,257
read,9,3,2,k30
range,k19,k10,6
";
    let output = "\
1,taken,0
2,taken,0
3,taken,0
4,taken,0
5,taken,0
6,taken,0
7,taken,1
hold,9,1,0
8,taken,1
absent,9,2
9,taken,0
10,taken,1
value,9,1,500
11,taken,1
retry,9,3,0
12,refused,7
";
    let answer = program(&[ORACLE]).answer(input.into()).unwrap();
    assert_eq!(String::from_utf8(answer).unwrap(), output);
    // the newline of the last line may be missing
    let answer = program(&[ORACLE]).answer(input.trim_end().into()).unwrap();
    assert_eq!(String::from_utf8(answer).unwrap(), output);
    assert!(program(&[ORACLE]).answer(Vec::new()).unwrap().is_empty());
}

#[test]
fn state_shows_reading_bar_ballots_bars_and_pairs() {
    let input = "node,1,3,2\nlead,0\nheard,0,257,1,0,0,0\nguard,0,257,4\nbars,0,9,0,0\n";
    let answer = program(&[ORACLE, "--state"]).answer(input.into()).unwrap();
    let beyond = u64::MAX;
    let expected = format!(
        "1,taken,0\nstate,{beyond},0,0,0,0,0,0,0,0,0\npairs,0,{beyond},0,{beyond},0,{beyond}\n\
         2,taken,0\nstate,{beyond},0,0,0,0,0,0,0,0,0\npairs,0,{beyond},0,{beyond},0,{beyond}\n\
         3,taken,0\nstate,{beyond},257,0,0,0,0,0,0,0,0\npairs,0,{beyond},257,0,0,{beyond}\n\
         4,taken,0\nstate,4,257,0,0,0,0,0,0,0,0\npairs,257,4,257,0,0,{beyond}\n\
         5,taken,0\nstate,4,257,0,0,0,9,0,0,0,0\npairs,257,4,257,0,0,{beyond}\n"
    );
    assert_eq!(String::from_utf8(answer).unwrap(), expected);
}

#[test]
fn a_right_program_shows_no_difference() {
    let done = compare::seeds(&program(&[ORACLE]), 0..12, 400, false).unwrap();
    assert!(done.difference.is_none());
    assert_eq!((done.scripts, done.lines), (12, 4800));
    let done = compare::seeds(&program(&[ORACLE, "--state"]), 0..4, 400, true).unwrap();
    assert!(done.difference.is_none());
}

#[test]
fn a_wrong_item_is_found_and_shrunk() {
    let wrong = spoilt("s/^absent/store/");
    let done = compare::seeds(&wrong, 0..200, 400, false).unwrap();
    let difference = done.difference.expect("a difference");
    // node, a roster, a heartbeat and the read at least
    assert!(
        difference.script.lines.len() <= 6,
        "{:?}",
        difference.script
    );
    assert!(difference.oracle.windows(6).any(|w| w == b"absent"));
    assert_ne!(difference.oracle, difference.program);
}

#[test]
fn a_wrong_refusal_is_found_and_shrunk() {
    let wrong = spoilt("s/refused,10$/refused,3/");
    let difference = compare::seeds(&wrong, 0..200, 400, false)
        .unwrap()
        .difference
        .expect("a difference");
    assert_eq!(difference.script, Script::of(b"node,0,1,1\nguard,0,0,0\n"));
}

#[test]
fn a_program_that_stops_or_fails_is_found() {
    let stops = program(&["sh", "-c", "\"$0\" | head -n 20", ORACLE]);
    assert!(
        compare::seeds(&stops, 0..3, 400, false)
            .unwrap()
            .difference
            .is_some()
    );
    let fails = program(&["sh", "-c", "\"$0\"; exit 3", ORACLE]);
    assert!(
        compare::script(&fails, b"node,0,1,1\n", false)
            .unwrap()
            .is_some()
    );
    let hangs = Program {
        timeout: Duration::from_millis(200),
        ..program(&["sleep", "5"])
    };
    assert_eq!(hangs.answer(Vec::new()).unwrap(), b"(no answer in time)\n");
}
