//! Whether the test vectors alone find every planted mistake.
//!
//! `mistakes [FOLDER]` takes each mistake of `mistakes/`, puts it into a copy of
//! this implementation's sources below FOLDER (or `target/mistakes`), builds the
//! copy and runs tests/vectors/vectors.txt on it. The sources without a mistake
//! come first and must pass. Status 1 if a mistake is not found, does not build,
//! or does not stand in the sources. It needs rustc, and not the built library.

use std::fs;
use std::path::{Path, PathBuf};
use std::process::{Command, ExitCode};
use std::sync::Mutex;
use std::thread;

#[path = "../../mistakes/build.rs"]
mod build;
#[path = "../../mistakes/list.rs"]
mod list;

use build::here;
use list::{Edit, Mistake};

/// How many programs are built at the same time.
const BESIDE: usize = 2;

/// The checkers of one program.
const TOGETHER: usize = 16;

fn main() -> ExitCode {
    let folder = std::env::args().nth(1).map_or_else(|| here("target/mistakes"), PathBuf::from);
    match planted(&folder) {
        Ok(0) => ExitCode::SUCCESS,
        Ok(_) => ExitCode::FAILURE,
        Err(error) => {
            println!("{error}");
            ExitCode::FAILURE
        }
    }
}

/// Runs all; answers how many were not found.
fn planted(folder: &Path) -> Result<usize, String> {
    let mistakes = list::all(&here("mistakes"))?;
    if mistakes.is_empty() {
        return Err("no mistakes in the list".into());
    }
    let runner = build::runner(&folder.join("runner"))?;
    match run_with(&folder.join("no mistake"), &[&[]], &runner).swap_remove(0) {
        Ok(Run::Passed(said)) => println!("no mistake: {said}"),
        Ok(Run::Failed(vector)) => return Err(format!("no mistake: fails {vector}")),
        Err(error) => return Err(format!("no mistake: {error}")),
    }
    Ok(report(&mistakes, &run_all(folder, &mistakes, &runner)))
}

/// Prints a line for each mistake, and one for all.
fn report(mistakes: &[Mistake], runs: &[Result<Run, String>]) -> usize {
    let mut unfound = 0;
    for (Mistake { name, about, .. }, run) in mistakes.iter().zip(runs) {
        match run {
            Ok(Run::Failed(vector)) => {
                println!("{name}: found by {vector}");
                continue;
            }
            Ok(Run::Passed(_)) => println!("{name}: NOT FOUND ({about})"),
            Err(error) => println!("{name}: NOT RUN: {error}"),
        }
        unfound += 1;
    }
    match unfound {
        0 => println!("{} mistakes, all found by the vectors", mistakes.len()),
        _ => println!("{} mistakes, {unfound} not found by the vectors", mistakes.len()),
    }
    unfound
}

/// What became of a checker that was run.
enum Run {
    /// What it says of the vectors.
    Passed(String),
    /// The first vector that it fails.
    Failed(String),
}

/// Runs every mistake, a few programs at the same time; in the order of the list.
fn run_all(folder: &Path, mistakes: &[Mistake], runner: &Path) -> Vec<Result<Run, String>> {
    let next = Mutex::new(mistakes.chunks(TOGETHER).enumerate());
    let mut runs: Vec<(usize, Vec<Result<Run, String>>)> = thread::scope(|scope| {
        let work = || {
            let mut done = Vec::new();
            loop {
                let taken = next.lock().expect("no worker panics").next();
                let Some((index, part)) = taken else { return done };
                done.push((index, run_part(&folder.join(format!("part {index}")), part, runner)));
            }
        };
        let workers: Vec<_> = (0..BESIDE).map(|_| scope.spawn(work)).collect();
        workers.into_iter().flat_map(|worker| worker.join().expect("no worker panics")).collect()
    });
    runs.sort_by_key(|&(index, _)| index);
    runs.into_iter().flat_map(|(_, runs)| runs).collect()
}

/// Runs the mistakes of one program, or each by itself if one does not build.
fn run_part(folder: &Path, part: &[Mistake], runner: &Path) -> Vec<Result<Run, String>> {
    let edits: Vec<&[Edit]> = part.iter().map(|mistake| &mistake.edits[..]).collect();
    let runs = run_with(folder, &edits, runner);
    let alone = part.len() > 1 && runs.iter().any(Result::is_err);
    // What is left is there to be looked at.
    if alone || runs.iter().all(|run| matches!(run, Ok(Run::Failed(_)))) {
        let _ = fs::remove_dir_all(folder);
    }
    if !alone {
        return runs;
    }
    let each = part.iter().flat_map(|mistake| {
        let folder = folder.with_file_name(&mistake.name);
        run_part(&folder, std::slice::from_ref(mistake), runner)
    });
    each.collect()
}

/// Builds the sources with each list of edits, and runs the vectors on them.
fn run_with(folder: &Path, mistakes: &[&[Edit]], runner: &Path) -> Vec<Result<Run, String>> {
    match build::checkers(folder, mistakes, runner) {
        Ok(checkers) => (0..mistakes.len()).map(|number| run(&checkers, number)).collect(),
        Err(error) => mistakes.iter().map(|_| Err(error.clone())).collect(),
    }
}

fn run(checkers: &Path, number: usize) -> Result<Run, String> {
    let vectors = here("../tests/vectors/vectors.txt");
    let output = Command::new(checkers).arg(vectors).arg(number.to_string()).output();
    let output = output.map_err(|error| error.to_string())?;
    let said = String::from_utf8_lossy(&output.stdout).trim().to_string();
    match output.status.code() {
        Some(0) => Ok(Run::Passed(said)),
        Some(1) if !said.is_empty() => Ok(Run::Failed(said)),
        _ => Err(format!("{}: {}", output.status, String::from_utf8_lossy(&output.stderr))),
    }
}
