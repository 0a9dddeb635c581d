//! The root of a program with several checkers, wrong or right; `all.rs` is
//! written for each program. It is given a file of vectors and the number of a
//! checker, runs the vectors on this one, those of fewest bytes first, and prints
//! the first that the checker fails: status 1, and 0 if there is none. A panic and
//! a checker that does not come back count as failing.

mod all;

use std::panic;
use std::process::{exit, ExitCode};
use std::sync::atomic::{AtomicUsize, Ordering};
use std::sync::OnceLock;
use std::thread;
use std::time::Duration;

use runner::vectors::file::{parse, run, Vector};

/// For all vectors together; a right checker takes a fiftieth of it.
const LIMIT: Duration = Duration::from_secs(10);

/// The vectors, and the one that is being run.
static VECTORS: OnceLock<Vec<Vector>> = OnceLock::new();
static AT: AtomicUsize = AtomicUsize::new(0);

fn main() -> ExitCode {
    let mut arguments = std::env::args().skip(1);
    let file = arguments.next().unwrap_or_default();
    let number = arguments.next().and_then(|number| number.parse::<usize>().ok());
    let Some(&checker) = number.and_then(|number| all::ALL.get(number)) else {
        eprintln!("no checker of this number");
        return ExitCode::from(2);
    };
    let text = std::fs::read_to_string(&file).map_err(|error| error.to_string());
    let vectors = match text.and_then(|text| parse(&text)) {
        Ok(vectors) => VECTORS.get_or_init(|| shortest_first(vectors)),
        Err(error) => {
            eprintln!("{file}: {error}");
            return ExitCode::from(2);
        }
    };
    panic::set_hook(Box::new(|_| failed(" (panic)")));
    thread::spawn(|| {
        thread::sleep(LIMIT);
        failed(" (no answer)");
    });
    for (index, vector) in vectors.iter().enumerate() {
        AT.store(index, Ordering::Relaxed);
        if !run(std::slice::from_ref(vector), checker).1.is_empty() {
            failed("");
        }
    }
    println!("{} vectors passed", vectors.len());
    ExitCode::SUCCESS
}

/// A few bytes take little time, and show most mistakes.
fn shortest_first(mut vectors: Vec<Vector>) -> Vec<Vector> {
    vectors.sort_by_key(|vector| {
        vector.book.len() + vector.order.len() + vector.record.len() + vector.output
    });
    vectors
}

fn failed(how: &str) {
    if let Some(vectors) = VECTORS.get() {
        println!("{}{how}", vectors[AT.load(Ordering::Relaxed)].name);
    }
    exit(1);
}
