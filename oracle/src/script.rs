//! Scripts as lists of lines, the oracle's answer to them, and shrinking.

use crate::replay::{Replay, number};

/// Lines without their newlines; `newline` tells whether the last has one.
#[derive(Clone, PartialEq, Eq, Debug)]
pub struct Script {
    pub lines: Vec<Vec<u8>>,
    pub newline: bool,
}

impl Script {
    #[must_use]
    pub fn of(bytes: &[u8]) -> Self {
        let newline = bytes.is_empty() || bytes.ends_with(b"\n");
        let mut lines: Vec<Vec<u8>> = bytes.split(|&b| b == b'\n').map(<[u8]>::to_vec).collect();
        if newline {
            lines.pop();
        }
        Script { lines, newline }
    }

    #[must_use]
    pub fn bytes(&self) -> Vec<u8> {
        let mut bytes = self.lines.join(&b'\n');
        if self.newline && !self.lines.is_empty() {
            bytes.push(b'\n');
        }
        bytes
    }
}

/// What the oracle answers to a whole input.
#[must_use]
pub fn answer(input: &[u8], state: bool) -> Vec<u8> {
    let mut replay = Replay::new();
    let mut out = Vec::new();
    for line in &Script::of(input).lines {
        replay.line(line, &mut out);
        if state {
            replay.write_state(&mut out);
        }
    }
    out
}

/// Trials after which shrinking is content with what it has.
const TRIALS: u32 = 20_000;

/// Makes a script as small as it gets while `keeps` holds of it: fewer lines
/// first, then plainer fields. `keeps` must hold of the script given.
pub fn shrink(script: Script, keeps: &mut dyn FnMut(&Script) -> bool) -> Script {
    let mut script = script;
    let mut trials = 0;
    let keeps: &mut dyn FnMut(&Script) -> bool = &mut |smaller| {
        trials += 1;
        trials <= TRIALS && keeps(smaller)
    };
    if !script.newline {
        let whole = Script {
            newline: true,
            ..script.clone()
        };
        if keeps(&whole) {
            script = whole;
        }
    }
    loop {
        let before = script.clone();
        fewer_lines(&mut script, keeps);
        fewer_requests(&mut script, keeps);
        plainer_numbers(&mut script, keeps);
        plainer_keys(&mut script, keeps);
        plainer_fields(&mut script, keeps);
        if script == before {
            return script;
        }
    }
}

fn attempt(script: &mut Script, smaller: Script, keeps: &mut dyn FnMut(&Script) -> bool) -> bool {
    if smaller != *script && keeps(&smaller) {
        *script = smaller;
        true
    } else {
        false
    }
}

fn fewer_lines(script: &mut Script, keeps: &mut dyn FnMut(&Script) -> bool) {
    let mut chunk = script.lines.len().div_ceil(2).max(1);
    loop {
        let mut end = script.lines.len();
        let mut removed = false;
        while end > 0 {
            let start = end.saturating_sub(chunk);
            let mut smaller = script.clone();
            smaller.lines.drain(start..end);
            removed |= attempt(script, smaller, keeps);
            end = start;
        }
        if chunk == 1 {
            if !removed {
                return;
            }
        } else {
            chunk = chunk.div_ceil(2);
        }
    }
}

fn fewer_requests(script: &mut Script, keeps: &mut dyn FnMut(&Script) -> bool) {
    for at in 0..script.lines.len() {
        if !script.lines[at].starts_with(b"record,") {
            continue;
        }
        let mut group = (script.lines[at]
            .split(|&b| b == b',')
            .count()
            .saturating_sub(3))
            / 4;
        while group > 0 {
            group -= 1;
            let fields: Vec<&[u8]> = script.lines[at].split(|&b| b == b',').collect();
            let from = 3 + 4 * group;
            let mut smaller = script.clone();
            smaller.lines[at] = [&fields[..from], &fields[from + 4..]].concat().join(&b',');
            attempt(script, smaller, keeps);
        }
    }
}

/// Puts a smaller number in place of one number wherever a field is just it,
/// so that ballots and slots that must agree change together.
fn plainer_numbers(script: &mut Script, keeps: &mut dyn FnMut(&Script) -> bool) {
    let mut numbers: Vec<u64> = script
        .lines
        .iter()
        .flat_map(|line| line.split(|&b| b == b','))
        .filter_map(number)
        .filter(|&n| n > 1)
        .collect();
    numbers.sort_unstable();
    numbers.dedup();
    for old in numbers.into_iter().rev() {
        let low = old & 0xff;
        let mut plain = [0, 1, 2, 256 | low, 512 | low, 768 | low].into_iter();
        let found =
            plain.any(|new| new < old && attempt(script, with_number(script, old, new), keeps));
        if !found {
            // the smallest one by halving steps
            let mut now = old;
            for step in (0..64).rev().map(|bit| 1 << bit) {
                if step <= now && attempt(script, with_number(script, now, now - step), keeps) {
                    now -= step;
                }
            }
        }
    }
}

fn with_number(script: &Script, old: u64, new: u64) -> Script {
    let mut smaller = script.clone();
    for line in &mut smaller.lines {
        let fields: Vec<Vec<u8>> = line
            .split(|&b| b == b',')
            .map(|field| {
                if number(field) == Some(old) {
                    new.to_string().into_bytes()
                } else {
                    field.to_vec()
                }
            })
            .collect();
        *line = fields.join(&b',');
    }
    smaller
}

/// Puts a plain key in place of one key wherever it stands.
fn plainer_keys(script: &mut Script, keeps: &mut dyn FnMut(&Script) -> bool) {
    let mut keys: Vec<Vec<u8>> = script
        .lines
        .iter()
        .flat_map(|line| line.split(|&b| b == b',').skip(1))
        .filter(|field| !field.is_empty() && number(field).is_none())
        .map(<[u8]>::to_vec)
        .collect();
    keys.sort_unstable();
    keys.dedup();
    for old in keys.into_iter().rev() {
        for new in [b"k1".as_slice(), b"k2", b"k3", b"k4"] {
            if (new.len(), new) >= (old.len(), old.as_slice()) {
                continue;
            }
            let mut smaller = script.clone();
            for line in &mut smaller.lines {
                let fields: Vec<&[u8]> = line
                    .split(|&b| b == b',')
                    .map(|field| if field == old { new } else { field })
                    .collect();
                *line = fields.join(&b',');
            }
            if attempt(script, smaller, keeps) {
                break;
            }
        }
    }
}

fn plainer_fields(script: &mut Script, keeps: &mut dyn FnMut(&Script) -> bool) {
    for at in 0..script.lines.len() {
        let count = script.lines[at].split(|&b| b == b',').count();
        for place in 1..count {
            let fields: Vec<Vec<u8>> = script.lines[at]
                .split(|&b| b == b',')
                .map(<[u8]>::to_vec)
                .collect();
            let old = &fields[place];
            let mut candidates: Vec<Vec<u8>> = Vec::new();
            if let Some(n) = number(old) {
                let less = if n <= 64 { n.saturating_sub(1) } else { n / 2 };
                for new in [0, 1, 2, n / 2, less] {
                    let new = new.to_string().into_bytes();
                    if new.len() < old.len() || (new.len() == old.len() && new < *old) {
                        candidates.push(new);
                    }
                }
            } else if !old.is_empty() {
                for new in [b"k1".as_slice(), b"k2", b"k3"] {
                    if new.len() < old.len() || (new.len() == old.len() && new < old.as_slice()) {
                        candidates.push(new.to_vec());
                    }
                }
                candidates.push(old[1..].to_vec());
                candidates.push(old[..old.len() - 1].to_vec());
            }
            for new in candidates {
                let mut smaller = script.clone();
                let mut fields = fields.clone();
                fields[place] = new;
                smaller.lines[at] = fields.join(&b',');
                if attempt(script, smaller, keeps) {
                    break;
                }
            }
        }
    }
}
