//! The hand-written scripts: lines with the answers expected of them.
//!
//! `== NAME` begins a script and `#` a remark; blank lines are passed over.
//! Every other line is an event line, with its answer after ` => `: a number
//! for a refusal, items parted by spaces otherwise, nothing for no item. In a
//! line `\xNN` is a byte, `{TEXT*N}` is TEXT repeated, `{}` is nothing, and
//! `*A..B LINE` stands for one LINE for each number, which `$` names. `{eof}`
//! takes the newline off the last line.

use crate::script::Script;

pub struct Hand {
    pub name: String,
    pub script: Script,
    /// The whole output expected.
    pub expected: Vec<u8>,
}

/// Reads the scripts; panics where the text is not in the format.
#[must_use]
pub fn read(text: &str) -> Vec<Hand> {
    let mut hands: Vec<Hand> = Vec::new();
    for line in text.lines() {
        if line.is_empty() || line.starts_with('#') {
            continue;
        }
        if let Some(name) = line.strip_prefix("== ") {
            assert!(
                hands.iter().all(|hand| hand.name != name),
                "two scripts named {name}"
            );
            hands.push(Hand {
                name: name.to_string(),
                script: Script {
                    lines: Vec::new(),
                    newline: true,
                },
                expected: Vec::new(),
            });
            continue;
        }
        let hand = hands.last_mut().expect("a script's name comes first");
        if line == "{eof}" {
            hand.script.newline = false;
        } else if let Some(repeated) = line.strip_prefix('*') {
            let (range, line) = repeated.split_once(' ').expect("*A..B LINE");
            let (from, to) = range.split_once("..").expect("*A..B LINE");
            let bound = |n: &str| n.parse::<u64>().expect("*A..B LINE");
            for n in bound(from)..=bound(to) {
                hand.push(&line.replace('$', &n.to_string()));
            }
        } else {
            hand.push(line);
        }
    }
    hands
}

impl Hand {
    fn push(&mut self, line: &str) {
        let (line, answer) = line.split_once(" => ").unwrap_or((line, ""));
        self.script.lines.push(expand(line));
        let number = self.script.lines.len();
        let answer = if !answer.is_empty() && answer.bytes().all(|b| b.is_ascii_digit()) {
            format!("{number},refused,{answer}\n")
        } else {
            let items: Vec<&str> = answer.split_whitespace().collect();
            let mut text = format!("{number},taken,{}\n", items.len());
            for item in items {
                text.push_str(item);
                text.push('\n');
            }
            text
        };
        self.expected.extend_from_slice(answer.as_bytes());
    }
}

fn expand(line: &str) -> Vec<u8> {
    let mut bytes = Vec::new();
    let mut rest = line;
    while let Some(c) = rest.chars().next() {
        if let Some(hex) = rest.strip_prefix("\\x") {
            bytes.push(u8::from_str_radix(&hex[..2], 16).expect("\\xNN"));
            rest = &hex[2..];
        } else if let Some(inner) = rest.strip_prefix('{') {
            let (inner, after) = inner.split_once('}').expect("{TEXT*N}");
            if let Some((text, times)) = inner.rsplit_once('*') {
                let times = times.parse().expect("{TEXT*N}");
                bytes.extend_from_slice(text.repeat(times).as_bytes());
            } else {
                assert!(inner.is_empty(), "{{TEXT*N}}");
            }
            rest = after;
        } else {
            bytes.extend_from_slice(c.encode_utf8(&mut [0; 4]).as_bytes());
            rest = &rest[c.len_utf8()..];
        }
    }
    bytes
}
