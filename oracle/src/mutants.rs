//! Spoilt builds: each mutant is one small edit to the original files or to
//! this package. A set of scripts is worth what it tells apart from them.
//!
//! `== NAME` begins a mutant; then comes the file's path (`src/...` for an
//! original one, `oracle/...` for one of this package), with `#N` if the N-th
//! place is meant, then `-TEXT` and `+TEXT` that takes its place. Texts may go
//! on over several lines; the last ends where its text does.

use std::fs;
use std::io;
use std::path::{Path, PathBuf};
use std::process::Command;
use std::time::Duration;

use crate::compare::{self, Program};
use crate::recorded::Recorded;

struct Mutant {
    name: String,
    file: String,
    place: usize,
    old: String,
    new: String,
}

fn read(text: &str) -> io::Result<Vec<Mutant>> {
    let mut mutants: Vec<Mutant> = Vec::new();
    for part in text.split("\n== ").skip(1) {
        let bad = || io::Error::other(format!("not a mutant: {part}"));
        let (head, edit) = part.split_once("\n-").ok_or_else(bad)?;
        let (name, file) = head.split_once('\n').ok_or_else(bad)?;
        let (old, new) = edit.split_once("\n+").ok_or_else(bad)?;
        let (file, place) = file.split_once('#').unwrap_or((file, "1"));
        mutants.push(Mutant {
            name: name.to_string(),
            file: file.to_string(),
            place: place.parse().map_err(|_| bad())?,
            old: old.to_string(),
            new: new.trim_end().to_string(),
        });
    }
    Ok(mutants)
}

impl Mutant {
    fn apply(&self, text: &str) -> io::Result<String> {
        let places: Vec<usize> = text.match_indices(&self.old).map(|(at, _)| at).collect();
        if self.old.is_empty() || places.len() < self.place {
            return Err(io::Error::other(format!(
                "{}: {} has {} places",
                self.name,
                self.file,
                places.len()
            )));
        }
        let at = places[self.place - 1];
        Ok([&text[..at], &self.new, &text[at + self.old.len()..]].concat())
    }
}

fn copy(from: &Path, to: &Path) -> io::Result<()> {
    fs::create_dir_all(to)?;
    for entry in fs::read_dir(from)? {
        let entry = entry?;
        let (from, to) = (entry.path(), to.join(entry.file_name()));
        if entry.file_name() == "target" {
            continue;
        }
        if from.is_dir() {
            copy(&from, &to)?;
        } else {
            // copies may have been made of files that must not be written
            let _ = fs::remove_file(&to);
            fs::write(&to, fs::read(&from)?)?;
        }
    }
    Ok(())
}

/// Builds each mutant of the list under `work` and tells which of the recorded
/// scripts part from it; where none does, whether the seeds' scripts do.
pub fn run(
    list: &str,
    package: &Path,
    original: &Path,
    work: &Path,
    recorded: &[Recorded],
    seeds: u64,
) -> io::Result<()> {
    let mutants = read(list)?;
    copy(package, &work.join("oracle"))?;
    copy(&original.join("src"), &work.join("src"))?;
    let work = work.canonicalize()?;
    for mutant in &mutants {
        mutant.apply(&fs::read_to_string(work.join(&mutant.file))?)?;
    }
    let (mut by_recorded, mut by_seeds, mut alive) = (0, 0, 0);
    for mutant in &mutants {
        let file: PathBuf = work.join(&mutant.file);
        let text = fs::read_to_string(&file)?;
        fs::write(&file, mutant.apply(&text)?)?;
        let built = build(&work);
        fs::write(&file, &text)?;
        if !built? {
            println!("{}: does not build", mutant.name);
            alive += 1;
            continue;
        }
        let program = Program {
            command: vec![work.join("target/debug/oracle").display().to_string()],
            timeout: Duration::from_secs(20),
        };
        let mut parting: Vec<&str> = Vec::new();
        for script in recorded {
            if program.answer(script.input.clone())? != script.output {
                parting.push(&script.name);
            }
        }
        if !parting.is_empty() {
            by_recorded += 1;
            println!(
                "{}: {} recorded scripts, first {}",
                mutant.name,
                parting.len(),
                parting[0]
            );
            continue;
        }
        if let Some(difference) = compare::seeds(&program, 0..seeds, 1000, false)?.difference {
            by_seeds += 1;
            println!(
                "{}: NO recorded script; seed {}:\n{}",
                mutant.name,
                difference.seed.unwrap_or_default(),
                String::from_utf8_lossy(&difference.script.bytes())
            );
            continue;
        }
        alive += 1;
        let mut program = program;
        program.command.push("--state".to_string());
        let state = compare::seeds(&program, 0..seeds.min(50), 1000, true)?;
        match state.difference {
            Some(difference) => println!(
                "{}: ALIVE in answers; --state shows it:\n{}",
                mutant.name,
                String::from_utf8_lossy(&difference.script.bytes())
            ),
            None => println!("{}: ALIVE", mutant.name),
        }
    }
    println!(
        "{} mutants: {by_recorded} told apart by recorded scripts, {by_seeds} by seeds only, \
         {alive} by no answer",
        mutants.len()
    );
    Ok(())
}

fn build(work: &Path) -> io::Result<bool> {
    let output = Command::new("cargo")
        .args(["build", "--offline", "-j1", "--bin", "oracle"])
        .current_dir(work.join("oracle"))
        .env("BODEGA_SRC", work)
        .env("CARGO_TARGET_DIR", work.join("target"))
        .output()?;
    if !output.status.success() {
        eprintln!("{}", String::from_utf8_lossy(&output.stderr));
    }
    Ok(output.status.success())
}
