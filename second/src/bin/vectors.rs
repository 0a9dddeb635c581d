//! The test vectors of tests/vectors.
//!
//! `vectors print` writes the file; `vectors run FILE` runs it on this
//! implementation and on the built library. Exit status 1 if a vector fails or
//! a number has none, 2 without a library or a file to read.

use std::process::ExitCode;

use second::vectors;

#[cfg(archive)]
#[path = "shared/library.rs"]
mod library;

fn main() -> ExitCode {
    let arguments: Vec<String> = std::env::args().skip(1).collect();
    let arguments: Vec<&str> = arguments.iter().map(String::as_str).collect();
    match arguments[..] {
        ["print"] => {
            print!("{}", vectors::print(&vectors::all()));
            ExitCode::SUCCESS
        }
        ["run", file] => run(file),
        _ => {
            eprintln!("usage: vectors print | vectors run FILE");
            ExitCode::from(2)
        }
    }
}

#[cfg(archive)]
fn run(file: &str) -> ExitCode {
    let text = std::fs::read_to_string(file).map_err(|error| error.to_string());
    let read = match text.and_then(|text| vectors::parse(&text)) {
        Ok(read) => read,
        Err(error) => {
            eprintln!("{file}: {error}");
            return ExitCode::from(2);
        }
    };
    let mut good = true;
    for (job, form, number) in vectors::missing(&read) {
        println!("no vector for {} of a {} book with number {number}", job.name(), form.name());
        good = false;
    }
    let mut report = |who: &str, (runs, failures): (usize, Vec<vectors::Failure>)| {
        for failure in &failures {
            println!("{who}: {failure}");
        }
        println!("{who}: {} vectors, {runs} calls, {} failed", read.len(), failures.len());
        good &= failures.is_empty();
    };
    report("second", vectors::run(&read, &second::Second));
    report("library", vectors::run(&read, &library::Library::default()));
    if good {
        ExitCode::SUCCESS
    } else {
        ExitCode::FAILURE
    }
}

#[cfg(not(archive))]
fn run(_: &str) -> ExitCode {
    eprintln!("no libchangeover.a: build it, or set CHANGEOVER_LIB_DIR to its folder");
    ExitCode::from(2)
}
