//! Compares the built static library with this implementation, with the definition by
//! the paper's words, and with the judge on tiny halls and on those in which over 256
//! facts hold; books in both forms, and with their records in another sequence.
//!
//! `compare [seed] [count]`; exit status 1 on any difference or when something
//! was met too seldom, 2 without a library to compare with.

use std::process::ExitCode;

#[cfg(archive)]
#[path = "shared/library.rs"]
mod library;

/// Of 48,000 cases of learning, at least this many must be books that learn.
#[cfg(archive)]
const LEARNING: usize = 20_000;

#[cfg(archive)]
fn main() -> ExitCode {
    use library::Library;
    use second::calls::Job;
    use second::compare::{definition, judge, judge_crowded, Run};

    let mut arguments = std::env::args().skip(1).map(|argument| argument.parse::<u64>());
    let mut next = |default| match arguments.next() {
        None => Ok(default),
        Some(given) => given,
    };
    let (Ok(seed), Ok(count)) = (next(1), next(24_000)) else {
        eprintln!("usage: compare [seed] [count]");
        return ExitCode::from(2);
    };
    let count = count as usize;
    let library = Library::default();

    let mut good = true;
    for job in Job::ALL {
        // About half of the books learn.
        let factor = if job == Job::Learn { 2 } else { 1 };
        for &form in job.forms() {
            good &= compare_job(&library, job, form, Run { seed, count: factor * count });
        }
    }
    let any = Run { seed, count };
    good &= compare_halls("definition", "halls", any, |run| definition(run, &library));
    let tiny = Run { seed, count: count / 3 };
    good &= compare_halls("judge", "tiny halls", tiny, |run| judge(run, &library));
    let crowded = Run { seed, count: count / 30 };
    let over_256 = "halls with over 256 facts";
    good &= compare_halls("judge", over_256, crowded, |run| judge_crowded(run, &library));
    println!("NULL was lent {} times for an empty input or output", library.nulls());
    good &= library.nulls() > 0;
    if good {
        ExitCode::SUCCESS
    } else {
        ExitCode::FAILURE
    }
}

/// Runs one comparison and prints its tally, or what was wrong.
#[cfg(archive)]
fn compare_job(
    library: &library::Library,
    job: second::calls::Job,
    form: second::calls::Form,
    run: second::compare::Run,
) -> bool {
    use second::calls::Job;

    let call = format!("{}, {} books", job.name(), form.name());
    let started = std::time::Instant::now();
    match second::compare::job(job, form, run, library) {
        Ok(tally) => {
            let seconds = started.elapsed().as_secs_f64();
            println!("{call}: no difference in {} cases, {seconds:.1} s", run.count);
            println!("{tally}");
            let mut missing = tally.missing(job.numbers());
            if job == Job::Learn && 48_000 * tally.times(0) < LEARNING * run.count {
                missing.push(format!("books that learn: {}", tally.times(0)));
            }
            for line in &missing {
                println!("{call}: met too seldom: {line}");
            }
            missing.is_empty()
        }
        Err(difference) => {
            println!("{call}: DIFFERENCE\n{difference}");
            false
        }
    }
}

/// Learning and checking beside the judge or the definition, each kind of outcome often
/// enough.
#[cfg(archive)]
fn compare_halls<M: 'static>(
    by: &str,
    halls: &str,
    run: second::compare::Run,
    compare: impl Fn(second::compare::Run) -> Result<second::compare::Kinds<M>, String>,
) -> bool {
    let started = std::time::Instant::now();
    match compare(run) {
        Ok(met) => {
            let seconds = started.elapsed().as_secs_f64();
            println!("{by}: no difference in {} {halls}, {seconds:.1} s: {met}", run.count);
            let missing = met.missing();
            for line in &missing {
                println!("{by}: met too seldom in {halls}: {line}");
            }
            missing.is_empty()
        }
        Err(difference) => {
            println!("{by}: DIFFERENCE in {halls}\n{difference}");
            false
        }
    }
}

#[cfg(not(archive))]
fn main() -> ExitCode {
    eprintln!("no libchangeover.a: build it, or set CHANGEOVER_LIB_DIR to its folder");
    ExitCode::from(2)
}
