//! Compares the oracle with any program that reads event lines.

use std::io::{self, Read, Write};
use std::ops::Range;
use std::process::{Child, Command, Stdio};
use std::sync::mpsc::{Receiver, channel};
use std::thread;
use std::time::Duration;

use crate::generate;
use crate::script::{Script, answer, shrink};

/// A program and its arguments.
pub struct Program {
    pub command: Vec<String>,
    pub timeout: Duration,
}

struct Running {
    child: Child,
    output: Receiver<Vec<u8>>,
}

impl Program {
    fn start(&self, input: Vec<u8>) -> io::Result<Running> {
        let mut child = Command::new(&self.command[0])
            .args(&self.command[1..])
            .stdin(Stdio::piped())
            .stdout(Stdio::piped())
            .stderr(Stdio::null())
            .spawn()?;
        let mut stdin = child.stdin.take().expect("piped");
        let mut stdout = child.stdout.take().expect("piped");
        // a program that stops reading early shows in its answer
        thread::spawn(move || drop(stdin.write_all(&input)));
        let (send, output) = channel();
        thread::spawn(move || {
            let mut bytes = Vec::new();
            let _ = stdout.read_to_end(&mut bytes);
            let _ = send.send(bytes);
        });
        Ok(Running { child, output })
    }

    /// What the program wrote; a bad end adds a line that no answer has.
    fn finish(&self, mut running: Running) -> io::Result<Vec<u8>> {
        let Ok(mut bytes) = running.output.recv_timeout(self.timeout) else {
            running.child.kill()?;
            running.child.wait()?;
            return Ok(b"(no answer in time)\n".to_vec());
        };
        let status = running.child.wait()?;
        if !status.success() {
            bytes.extend_from_slice(format!("({status})\n").as_bytes());
        }
        Ok(bytes)
    }

    pub fn answer(&self, input: Vec<u8>) -> io::Result<Vec<u8>> {
        self.finish(self.start(input)?)
    }
}

/// A script on which the two part, as small as it got.
pub struct Difference {
    pub seed: Option<u64>,
    pub script: Script,
    pub oracle: Vec<u8>,
    pub program: Vec<u8>,
}

pub struct Comparison {
    pub scripts: u64,
    pub lines: u64,
    pub difference: Option<Difference>,
}

/// Runs the scripts of the seeds until the first difference, which is shrunk.
pub fn seeds(
    program: &Program,
    seeds: Range<u64>,
    lines: u64,
    state: bool,
) -> io::Result<Comparison> {
    let mut done = Comparison {
        scripts: 0,
        lines: 0,
        difference: None,
    };
    // the program answers one script while the oracle makes the next
    let mut pending: Option<(u64, Vec<u8>, Vec<u8>, Running)> = None;
    for seed in seeds.map(Some).chain([None]) {
        let next = match seed {
            Some(seed) => {
                let (mut input, mut output) = (Vec::new(), Vec::new());
                generate::script(seed, lines, &mut input, &mut output, None);
                if state {
                    output = answer(&input, true);
                }
                Some((seed, input, output))
            }
            None => None,
        };
        if let Some((seed, input, output, running)) = pending.take() {
            done.scripts += 1;
            done.lines += lines;
            if program.finish(running)? != output {
                done.difference = Some(smallest(program, Some(seed), &input, state)?);
                return Ok(done);
            }
        }
        if let Some((seed, input, output)) = next {
            let running = program.start(input.clone())?;
            pending = Some((seed, input, output, running));
        }
    }
    Ok(done)
}

/// Runs one script; a difference is shrunk.
pub fn script(program: &Program, input: &[u8], state: bool) -> io::Result<Option<Difference>> {
    if program.answer(input.to_vec())? == answer(input, state) {
        return Ok(None);
    }
    smallest(program, None, input, state).map(Some)
}

fn smallest(
    program: &Program,
    seed: Option<u64>,
    input: &[u8],
    state: bool,
) -> io::Result<Difference> {
    let mut failed = None;
    let mut differs = |script: &Script| {
        let bytes = script.bytes();
        let oracle = answer(&bytes, state);
        match program.answer(bytes) {
            Ok(theirs) => theirs != oracle,
            Err(e) => {
                failed = Some(e);
                false
            }
        }
    };
    // what comes after the first difference is not needed
    let mut script = Script::of(input);
    let (mut low, mut high) = (0, script.lines.len());
    while low < high {
        let middle = usize::midpoint(low, high);
        let cut = Script {
            lines: script.lines[..middle].to_vec(),
            newline: true,
        };
        if differs(&cut) {
            high = middle;
        } else {
            low = middle + 1;
        }
    }
    let cut = Script {
        lines: script.lines[..high].to_vec(),
        newline: true,
    };
    if differs(&cut) {
        script = cut;
    }
    let script = shrink(script, &mut differs);
    if let Some(e) = failed {
        return Err(e);
    }
    let bytes = script.bytes();
    Ok(Difference {
        seed,
        oracle: answer(&bytes, state),
        program: program.answer(bytes)?,
        script,
    })
}
