//! Runs the two built programs, which read full books, and compares what they print.
//!
//! `programs FOLDER`, the folder having `rules` and `plan`. What is expected
//! comes from the test vectors and, for listings and drawn cases, from
//! `listing`. Exit status 1 on any difference.

use std::fs::{self, File};
use std::io;
use std::path::{Path, PathBuf};
use std::process::{Command, ExitCode, Stdio};

use second::calls::{Form, Job};
use second::gen::stream::JobStream;
use second::limits::END_SHEET_LENGTH;
use second::vectors::Vector;
use second::{listing, vectors, Answer};

/// Drawn cases for each program.
const DRAWN: usize = 300;

/// The programs, and a folder to run them in.
struct Programs {
    rules: PathBuf,
    plan: PathBuf,
    work: PathBuf,
    runs: usize,
    differ: usize,
}

fn main() -> ExitCode {
    let Some(folder) = std::env::args().nth(1) else {
        eprintln!("usage: programs FOLDER");
        return ExitCode::from(2);
    };
    let work = std::env::temp_dir().join(format!("changeover-programs-{}", std::process::id()));
    let outcome = compare(Path::new(&folder), &work);
    // Nothing is left to be done about a folder that cannot be removed.
    let _ = fs::remove_dir_all(&work);
    match outcome {
        Ok((runs, 0)) => {
            println!("{runs} runs, no difference");
            ExitCode::SUCCESS
        }
        Ok((runs, differ)) => {
            println!("{runs} runs, {differ} differ");
            ExitCode::FAILURE
        }
        Err(error) => {
            eprintln!("programs: {error}");
            ExitCode::from(2)
        }
    }
}

fn compare(folder: &Path, work: &Path) -> io::Result<(usize, usize)> {
    fs::create_dir_all(work)?;
    let folder = folder.canonicalize()?;
    let (rules, plan) = (folder.join("rules"), folder.join("plan"));
    let mut programs = Programs { rules, plan, work: work.to_path_buf(), runs: 0, differ: 0 };
    for vector in vectors::all().into_iter().filter(|vector| vector.form == Form::Full.number()) {
        let name = &vector.name;
        if vector.jobs.contains(&Job::Learn) && vector.answer.number != 13 {
            programs.rules(name, &vector.book, &rules_text(vector.answer, &vector.book))?;
        }
        if vector.jobs == [Job::Check] && vector.output == END_SHEET_LENGTH {
            let files = [Some(&vector.book[..]), Some(&vector.order[..])];
            programs.plan(name, files, &plan_text(&vector))?;
        }
    }
    let [books, orders] = [Job::Learn, Job::Check].map(|job| JobStream::new(job, Form::Full, 1));
    for index in 0..DRAWN {
        let case = books.case(index);
        programs.rules("drawn", &case.book, &listing::rules(&case.book))?;
        let case = orders.case(index);
        let expected = listing::plan(&case.book, &case.other);
        programs.plan("drawn", [Some(&case.book), Some(&case.other)], &expected)?;
    }
    programs.files_missing_or_long()?;
    Ok((programs.runs, programs.differ))
}

/// What a refusal prints is the paper's; a listing is this implementation's.
fn rules_text(answer: Answer, book: &[u8]) -> String {
    match answer.number {
        0 => listing::rules(book),
        number => format!("refused {number} {}\n", answer.place),
    }
}

/// Of an order that is longer than what a program reads it sees the front alone.
fn plan_text(vector: &Vector) -> String {
    let Vector { book, order, answer: Answer { number, place, .. }, .. } = vector;
    match (order.get(..listing::READ_LIMIT), number) {
        (Some(front), _) => listing::plan(book, front),
        (None, 0) => format!("passes {place}\n"),
        (None, number) => format!("refused {number} {place}\n"),
    }
}

impl Programs {
    fn rules(&mut self, name: &str, book: &[u8], expected: &str) -> io::Result<()> {
        let input = self.work.join("input");
        fs::write(&input, book)?;
        let mut command = Command::new(&self.rules);
        command.stdin(File::open(&input)?);
        self.run(name, command, expected)
    }

    /// The book and the order, or `None` for a file that is not there.
    fn plan(&mut self, name: &str, files: [Option<&[u8]>; 2], expected: &str) -> io::Result<()> {
        for (file, bytes) in ["book", "order"].into_iter().zip(files) {
            let path = self.work.join(file);
            match bytes {
                Some(bytes) => fs::write(&path, bytes)?,
                None if path.exists() => fs::remove_file(&path)?,
                None => {}
            }
        }
        let mut command = Command::new(&self.plan);
        command.stdin(Stdio::null());
        self.run(name, command, expected)
    }

    fn run(&mut self, name: &str, mut command: Command, expected: &str) -> io::Result<()> {
        let output = command.current_dir(&self.work).output()?;
        self.runs += 1;
        let printed = String::from_utf8_lossy(&output.stdout);
        // A program that was killed has no status.
        if printed != expected || output.status.code().is_none() {
            self.differ += 1;
            println!("{name}: {:?}, {}", command.get_program(), output.status);
            println!("expected:\n{expected}printed:\n{printed}");
        }
        Ok(())
    }

    /// "A file that can't be read counts as empty"; no more than 60,001 bytes
    /// of an input are read.
    fn files_missing_or_long(&mut self) -> io::Result<()> {
        let book = vectors::all().swap_remove(0).book;
        let long = vec![0; 200_000];
        let mut long_order = vec![0, 0, 0, 1, 0, 0, 0, 0, 0, 16, 0, 16, 0, 18, 0, 18];
        long_order.resize(200_000, 0);
        // The goal lies so far behind the starts that the order is this long.
        let far = |length: usize| {
            let goal = (length as u16).to_be_bytes();
            let mut order = [&long_order[..12], &goal, &goal].concat();
            order.resize(length, 0);
            order
        };
        self.rules("no bytes", &[], "refused 1 0\n")?;
        self.rules("200,000 bytes", &long, "refused 1 0\n")?;
        self.plan("no files", [None, None], "refused 1 0\n")?;
        self.plan("no book", [None, Some(&long_order)], "refused 1 0\n")?;
        self.plan("no order", [Some(&book), None], "refused 14 0\n")?;
        self.plan("long order", [Some(&book), Some(&long_order)], "refused 14 0\n")?;
        let (most, over) = (far(listing::READ_LIMIT), far(listing::READ_LIMIT + 1));
        self.plan("order of 60,001 bytes", [Some(&book), Some(&most)], "refused 16 18\n")?;
        self.plan("order of 60,002 bytes", [Some(&book), Some(&over)], "refused 14 0\n")?;
        self.plan("long book", [Some(&long), Some(&long_order)], "refused 1 0\n")
    }
}
