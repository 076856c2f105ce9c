//! `oracle`: the event program, and commands around it.

use std::io::{self, BufRead, Write};
use std::ops::Range;
use std::path::Path;
use std::process::ExitCode;
use std::time::{Duration, Instant};

use bodega_oracle::calls::{self, Recording};
use bodega_oracle::compare::{self, Difference, Program};
use bodega_oracle::coverage::Coverage;
use bodega_oracle::generate;
use bodega_oracle::item::Item;
use bodega_oracle::mutants;
use bodega_oracle::recorded::{self, Recorded};
use bodega_oracle::replay::Replay;

const USAGE: &str = "\
usage: oracle                              event lines on standard input, answers out
       oracle --state                      after each answer also bars, ballots and pairs
       oracle --node                       after each answer also the whole node
       oracle generate SEED [LINES]        write the script of a seed
       oracle coverage [SEEDS [LINES]]     table over the scripts of seeds 0 to SEEDS - 1
       oracle record FILE                  make the recorded answers anew
       oracle extract FILE FOLDER          write them as NAME.in and NAME.out
       oracle recorded FILE PROGRAM [ARG ...]
                                           run PROGRAM on them, name those that differ
       oracle calls FOLDER [FROM [COUNT]]  write the recorded calls, or scripts of COUNT seeds,
                                           and the answers to them as stdin and stdout
       oracle mutants LIST FILE WORK [SEEDS]
                                           build each mutant of LIST in the folder WORK and
                                           tell whether the recorded answers in FILE show it
       oracle compare [--from SEED] [--seeds COUNT] [--lines LINES] [--state]
                      [--script FILE] PROGRAM [ARG ...]
                                           run PROGRAM on the scripts of many seeds (or on
                                           FILE) and shrink the first difference
";

fn main() -> ExitCode {
    let args: Vec<String> = std::env::args().skip(1).collect();
    let args: Vec<&str> = args.iter().map(String::as_str).collect();
    let done = match args.as_slice() {
        [] => replay(false, false),
        ["--state"] => replay(true, false),
        ["--node"] => replay(true, true),
        ["generate", rest @ ..] if !rest.is_empty() => generate_script(rest),
        ["coverage", rest @ ..] => coverage(rest),
        ["record", file] => std::fs::write(file, recorded::write(&recorded::make())),
        ["extract", file, folder] => extract(file, folder),
        ["recorded", file, program @ ..] if !program.is_empty() => run_recorded(file, program),
        ["mutants", list, file, work, rest @ ..] => run_mutants(list, file, work, rest),
        ["calls", folder] => calls(folder, &calls::make()),
        ["calls", folder, rest @ ..] => number(rest, 0, 0).and_then(|from| {
            let seeds = from..from + number(rest, 1, 20)?;
            calls(folder, &calls::of_seeds(seeds))
        }),
        ["compare", rest @ ..] => return compare_with(rest),
        _ => {
            eprint!("{USAGE}");
            return ExitCode::from(2);
        }
    };
    match done {
        Ok(()) => ExitCode::SUCCESS,
        Err(e) if e.kind() == io::ErrorKind::BrokenPipe => ExitCode::SUCCESS,
        Err(e) => {
            eprintln!("oracle: {e}");
            ExitCode::FAILURE
        }
    }
}

fn number(args: &[&str], at: usize, default: u64) -> io::Result<u64> {
    match args.get(at) {
        None => Ok(default),
        Some(text) => text
            .parse()
            .map_err(|_| io::Error::other(format!("not a number: {text}"))),
    }
}

fn replay(state: bool, node: bool) -> io::Result<()> {
    let mut input = io::BufReader::with_capacity(1 << 16, io::stdin().lock());
    let mut output = io::stdout().lock();
    let mut replay = Replay::new();
    let (mut line, mut out) = (Vec::new(), Vec::new());
    loop {
        line.clear();
        if input.read_until(b'\n', &mut line)? == 0 {
            break;
        }
        if line.last() == Some(&b'\n') {
            line.pop();
        }
        replay.line(&line, &mut out);
        if state {
            replay.write_state(&mut out);
        }
        if node {
            replay.write_node(&mut out);
        }
        if out.len() >= 1 << 16 {
            output.write_all(&out)?;
            out.clear();
        }
    }
    output.write_all(&out)
}

fn generate_script(args: &[&str]) -> io::Result<()> {
    let (seed, lines) = (number(args, 0, 0)?, number(args, 1, 1000)?);
    let mut input = Vec::new();
    generate::script(seed, lines, &mut input, &mut Vec::new(), None);
    io::stdout().lock().write_all(&input)
}

fn calls(folder: &str, recording: &Recording) -> io::Result<()> {
    for ((name, refusal), count) in &recording.reached {
        println!("{name} {refusal}: {count}");
    }
    for (kind, count) in Item::KINDS.iter().zip(recording.items) {
        println!("{kind}: {count}");
    }
    println!("{} calls", recording.reached.values().sum::<u64>());
    let folder = Path::new(folder);
    std::fs::write(folder.join("stdin"), &recording.input)?;
    std::fs::write(folder.join("stdout"), &recording.output)
}

fn coverage(args: &[&str]) -> io::Result<()> {
    let seeds: Range<u64> = 0..number(args, 0, 1000)?;
    let lines = number(args, 1, 1000)?;
    let mut coverage = Coverage::default();
    let (mut input, mut output) = (Vec::new(), Vec::new());
    for seed in seeds {
        input.clear();
        output.clear();
        generate::script(seed, lines, &mut input, &mut output, Some(&mut coverage));
    }
    print!("{}", coverage.table());
    Ok(())
}

fn read_recorded(file: &str) -> io::Result<Vec<Recorded>> {
    recorded::read(&std::fs::read(file)?)
        .ok_or_else(|| io::Error::other(format!("{file} has no recorded answers")))
}

fn extract(file: &str, folder: &str) -> io::Result<()> {
    std::fs::create_dir_all(folder)?;
    for script in read_recorded(file)? {
        let path = |kind| format!("{folder}/{}.{kind}", script.name);
        std::fs::write(path("in"), &script.input)?;
        std::fs::write(path("out"), &script.output)?;
    }
    Ok(())
}

fn run_recorded(file: &str, program: &[&str]) -> io::Result<()> {
    let program = Program {
        command: program.iter().map(ToString::to_string).collect(),
        timeout: Duration::from_secs(60),
    };
    let scripts = read_recorded(file)?;
    let mut wrong = 0;
    for script in &scripts {
        if program.answer(script.input.clone())? != script.output {
            println!("{}", script.name);
            wrong += 1;
        }
    }
    println!("{wrong} of {} scripts differ", scripts.len());
    if wrong > 0 {
        return Err(io::Error::other("the program differs"));
    }
    Ok(())
}

fn run_mutants(list: &str, file: &str, work: &str, rest: &[&str]) -> io::Result<()> {
    mutants::run(
        &std::fs::read_to_string(list)?,
        Path::new(env!("CARGO_MANIFEST_DIR")),
        Path::new(env!("BODEGA_FOLDER")),
        Path::new(work),
        &read_recorded(file)?,
        number(rest, 0, 300)?,
    )
}

fn compare_with(args: &[&str]) -> ExitCode {
    match compare_args(args) {
        Ok(None) => ExitCode::SUCCESS,
        Ok(Some(difference)) => {
            if let Some(seed) = difference.seed {
                println!("differs at seed {seed}; smallest script:");
            } else {
                println!("differs; smallest script:");
            }
            let mut out = io::stdout().lock();
            let shown = out
                .write_all(&difference.script.bytes())
                .and_then(|()| out.write_all(b"oracle:\n"))
                .and_then(|()| out.write_all(&difference.oracle))
                .and_then(|()| out.write_all(b"program:\n"))
                .and_then(|()| out.write_all(&difference.program));
            drop(shown);
            ExitCode::FAILURE
        }
        Err(e) => {
            eprintln!("oracle: {e}");
            ExitCode::from(2)
        }
    }
}

fn compare_args(args: &[&str]) -> io::Result<Option<Difference>> {
    let (mut from, mut seeds, mut lines) = (0, 1000, 1000);
    let (mut state, mut file) = (false, None);
    let mut at = 0;
    while let Some(&option) = args.get(at) {
        let value = args.get(at + 1);
        let needed = || io::Error::other(format!("{option} needs a value"));
        at += 2;
        match option {
            "--from" => from = number(args, at - 1, from)?,
            "--seeds" => seeds = number(args, at - 1, seeds)?,
            "--lines" => lines = number(args, at - 1, lines)?,
            "--script" => file = Some(*value.ok_or_else(needed)?),
            "--state" => {
                state = true;
                at -= 1;
            }
            _ => {
                at -= 2;
                break;
            }
        }
    }
    let program = Program {
        command: args[at.min(args.len())..]
            .iter()
            .map(ToString::to_string)
            .collect(),
        timeout: Duration::from_secs(60),
    };
    if program.command.is_empty() {
        return Err(io::Error::other(format!("no program\n{USAGE}")));
    }
    if let Some(file) = file {
        let difference = compare::script(&program, &std::fs::read(file)?, state)?;
        if difference.is_none() {
            println!("no difference");
        }
        return Ok(difference);
    }
    let begun = Instant::now();
    let done = compare::seeds(&program, from..from.saturating_add(seeds), lines, state)?;
    println!(
        "{} scripts, {} lines in {:.1} s{}",
        done.scripts,
        done.lines,
        begun.elapsed().as_secs_f64(),
        if done.difference.is_none() {
            ": no difference"
        } else {
            ""
        }
    );
    Ok(done.difference)
}
