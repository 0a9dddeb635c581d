//! Writes generated cases of the six calls for the test of guard pages
//! (tests/guard), with the answers of this implementation.
//!
//! `cases [seed] [count]` writes `count` cases of each call to standard output, full
//! and short books in turn where the call is told which it reads.
//! A case is, numbers of four bytes with the low byte first:
//! job (0 look over, 1 learn, 2 check, 3 add, 4 to short, 5 to full), form (0 of a
//! full book, any other number of a short one; 0 for a converter, which is told
//! none), length of the book, length of the order or record, length of the output to
//! lend, and of the answer number, place and position (by 19 and 20 that of the start,
//! from 1; else 0); then the book's bytes; then those of the order or record.

use std::io::{self, BufWriter, Write};
use std::process::ExitCode;

use second::calls::{unpacked, Job};
use second::gen::stream::JobStream;
use second::gen::JobCase;
use second::{Answer, Second};

fn main() -> ExitCode {
    let mut arguments = std::env::args().skip(1).map(|argument| argument.parse::<u64>());
    let mut next = |default| arguments.next().unwrap_or(Ok(default));
    let (Ok(seed), Ok(count)) = (next(1), next(7_500)) else {
        eprintln!("usage: cases [seed] [count]");
        return ExitCode::from(2);
    };
    match write_cases(seed, count as usize) {
        Ok(()) => ExitCode::SUCCESS,
        Err(error) => {
            eprintln!("cases: {error}");
            ExitCode::FAILURE
        }
    }
}

fn write_cases(seed: u64, count: usize) -> io::Result<()> {
    let mut out = BufWriter::new(io::stdout().lock());
    for (code, job) in (0u32..).zip(Job::ALL) {
        let streams: Vec<JobStream> =
            job.forms().iter().map(|&form| JobStream::new(job, form, seed)).collect();
        for index in 0..count {
            let case = streams[index % streams.len()].case(index);
            let JobCase { book, form, other, .. } = &case;
            let answer = unpacked(job.run(&Second, book, *form, other, &mut vec![0; case.output]));
            let lengths = [book.len(), other.len(), case.output];
            let [book, other, output] = lengths.map(|length| length as u32);
            let Answer { number, place, position } = answer;
            for value in [code, *form, book, other, output, number, place, position] {
                out.write_all(&value.to_le_bytes())?;
            }
            out.write_all(&case.book)?;
            out.write_all(&case.other)?;
        }
    }
    out.flush()
}
