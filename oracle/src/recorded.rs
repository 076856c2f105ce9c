//! Recorded answers: small scripts, each with the oracle's answer, in one file.
//!
//! The file is a list of scripts; each is a line `script,NAME,INPUT,OUTPUT`
//! with two byte counts, then that many bytes of input and of output.

use std::collections::HashSet;

use crate::coverage::{DEEP, Watch, outcome};
use crate::generate;
use crate::hand;
use crate::replay::{Replay, number};
use crate::script::{Script, answer, shrink};

#[derive(PartialEq, Eq, Debug)]
pub struct Recorded {
    pub name: String,
    pub input: Vec<u8>,
    pub output: Vec<u8>,
}

/// Where scripts for outcomes and deep states are looked for.
const SEEDS: u64 = 4000;
const LINES: u64 = 700;

/// Scripts kept whole, as the generator made them.
const WHOLE_SEEDS: u64 = 24;
const WHOLE_LINES: u64 = 60;

#[must_use]
pub fn write(scripts: &[Recorded]) -> Vec<u8> {
    let mut bytes = Vec::new();
    for script in scripts {
        bytes.extend_from_slice(
            format!(
                "script,{},{},{}\n",
                script.name,
                script.input.len(),
                script.output.len()
            )
            .as_bytes(),
        );
        bytes.extend_from_slice(&script.input);
        bytes.extend_from_slice(&script.output);
    }
    bytes
}

/// None if the bytes are not in the format.
#[must_use]
pub fn read(mut bytes: &[u8]) -> Option<Vec<Recorded>> {
    let mut scripts = Vec::new();
    while !bytes.is_empty() {
        let end = bytes.iter().position(|&b| b == b'\n')?;
        let fields: Vec<&[u8]> = bytes[..end].split(|&b| b == b',').collect();
        let [b"script", name, input, output] = fields[..] else {
            return None;
        };
        let name = String::from_utf8(name.to_vec()).ok()?;
        let input = usize::try_from(number(input)?).ok()?;
        let output = usize::try_from(number(output)?).ok()?;
        bytes = &bytes[end + 1..];
        scripts.push(Recorded {
            name,
            input: bytes.get(..input)?.to_vec(),
            output: bytes.get(input..input.checked_add(output)?)?.to_vec(),
        });
        bytes = &bytes[input + output..];
    }
    Some(scripts)
}

fn record(name: String, script: &Script) -> Recorded {
    let input = script.bytes();
    let output = answer(&input, false);
    Recorded {
        name,
        input,
        output,
    }
}

/// All of them anew: those written by hand, then the smallest script found for
/// each outcome and each deep state, then some generated ones as they are.
#[must_use]
pub fn make() -> Vec<Recorded> {
    let mut scripts: Vec<Recorded> = hand::read(include_str!("../scripts/hand.txt"))
        .into_iter()
        .map(|hand| record(hand.name, &hand.script))
        .collect();
    let mut goals = goals();
    goals.sort_by(|a, b| a.0.cmp(&b.0));
    for (goal, script) in goals {
        let smallest = shrink(script, &mut |script| reaches(script, &goal));
        scripts.push(record(format!("reached-{goal}"), &smallest));
    }
    for seed in 0..WHOLE_SEEDS {
        let mut input = Vec::new();
        generate::script(seed, WHOLE_LINES, &mut input, &mut Vec::new(), None);
        scripts.push(record(format!("seed-{seed}"), &Script::of(&input)));
    }
    scripts
}

/// Each outcome and deep state that the seeds reach, with the first script
/// that does, cut after the line in question.
fn goals() -> Vec<(String, Script)> {
    let mut seen = HashSet::new();
    let mut goals = Vec::new();
    for seed in 0..SEEDS {
        let mut input = Vec::new();
        generate::script(seed, LINES, &mut input, &mut Vec::new(), None);
        let script = Script::of(&input);
        walk(&script, &mut |at, goal| {
            if seen.insert(goal.to_string()) {
                let cut = Script {
                    lines: script.lines[..=at].to_vec(),
                    newline: true,
                };
                goals.push((goal.to_string(), cut));
            }
            true
        });
    }
    goals
}

fn reaches(script: &Script, goal: &str) -> bool {
    let mut reached = false;
    walk(script, &mut |_, met| {
        reached |= met == goal;
        !reached
    });
    reached
}

/// Calls `met` with each line's place and each goal it meets, while it says so.
fn walk(script: &Script, met: &mut dyn FnMut(usize, &str) -> bool) {
    let mut replay = Replay::new();
    let mut out = Vec::new();
    for (at, line) in script.lines.iter().enumerate() {
        let watch = Watch::new(&replay);
        out.clear();
        let (kind, refusal) = replay.line(line, &mut out);
        if !met(at, &outcome(kind, refusal, replay.items())) {
            return;
        }
        let deep = watch.met(kind, refusal, &replay);
        for (state, _) in DEEP.iter().zip(deep).filter(|(_, met)| *met) {
            if !met(at, state) {
                return;
            }
        }
    }
}
