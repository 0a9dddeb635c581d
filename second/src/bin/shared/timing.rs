//! Medians and least times of repeated calls, the two implementations in turn.
//! On a machine with other work the least times are the steadier ones.

use std::fmt;
use std::hint::black_box;
use std::time::{Duration, Instant};

pub struct Timing {
    pub repeats: usize,
}

impl Timing {
    /// Prints the times of both and their ratios, for the median and the least.
    ///
    /// # Panics
    /// If the answers differ, for then the times are not of the same work.
    pub fn compare(
        &self,
        call: &str,
        mut library: impl FnMut() -> u64,
        mut second: impl FnMut() -> u64,
    ) {
        let (mut theirs, mut ours) = (Vec::new(), Vec::new());
        for _ in 0..self.repeats {
            let (time, library_answer) = timed(&mut library);
            theirs.push(time);
            let (time, second_answer) = timed(&mut second);
            ours.push(time);
            assert_eq!(library_answer, second_answer, "{call}: the answers differ");
        }
        let (theirs, ours) = (Times::of(theirs), Times::of(ours));
        println!(
            "  {call:<20} library {theirs} µs, second {ours} µs, ratio {:.2} ({:.2})",
            theirs.median / ours.median,
            theirs.least / ours.least,
        );
    }
}

/// In microseconds.
struct Times {
    median: f64,
    least: f64,
}

impl Times {
    fn of(mut times: Vec<Duration>) -> Self {
        times.sort_unstable();
        // A clock too coarse must not bring a division by 0.
        let micros = |time: Duration| time.as_secs_f64().max(1e-9) * 1e6;
        Self { median: micros(times[times.len() / 2]), least: micros(times[0]) }
    }
}

impl fmt::Display for Times {
    fn fmt(&self, f: &mut fmt::Formatter<'_>) -> fmt::Result {
        write!(f, "{:>7.1} ({:>6.1})", self.median, self.least)
    }
}

fn timed(call: &mut impl FnMut() -> u64) -> (Duration, u64) {
    let started = Instant::now();
    let answer = black_box(call());
    (started.elapsed(), answer)
}
