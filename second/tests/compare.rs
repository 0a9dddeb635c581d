//! The comparison itself: it passes this implementation, meets every refusal
//! and every aimed fault often, and finds implementations that are wrong.

use second::calls::{unpacked, Calls, Form, Job};
use second::compare::{self, By, Capped, Difference, Run, Tally};
use second::{add, form, Answer, Refusal, Second};

const RUN: Run = Run { seed: 7, count: 10_000 };

fn assert_met(outcome: Result<Tally, Box<Difference>>, numbers: impl IntoIterator<Item = u32>) {
    let tally = match outcome {
        Ok(tally) => tally,
        Err(difference) => panic!("{difference}"),
    };
    println!("{tally}");
    assert_eq!(tally.missing(numbers), Vec::<String>::new());
}

/// What a call answered, with its inputs and output, changed to what is wrong.
struct Given<'a> {
    book: &'a [u8],
    other: &'a [u8],
    output: &'a mut [u8],
    answer: Answer,
}

/// This implementation but for one job, whose answer is changed.
fn wrong(wrong: Job, change: impl Fn(Given<'_>) -> Answer) -> impl Calls {
    By(move |job: Job, book: &[u8], form: u32, other: &[u8], output: &mut [u8]| {
        let answer = unpacked(job.run(&Second, book, form, other, output));
        let changed =
            if job == wrong { change(Given { book, other, output, answer }) } else { answer };
        changed.packed()
    })
}

/// Whether the comparison of a job finds these calls wrong, with books of each form
/// that it reads.
fn is_found(job: Job, count: usize, calls: &impl Calls) -> bool {
    let run = Run { count, ..RUN };
    job.forms().iter().all(|&form| compare::job(job, form, run, calls).is_err())
}

/// This implementation against itself: the run meets every number that the call
/// can answer with, and every fault that it is aimed at.
#[test]
fn every_row_and_fault_is_met() {
    for job in Job::ALL {
        for &form in job.forms() {
            assert_met(compare::job(job, form, RUN, &Second), job.numbers());
        }
    }
}

/// The short way of adding agrees with the paper's: form the new book, look it over.
#[test]
fn add_is_as_defined() {
    let defined = |book: &[u8], form: Form, record: &[u8], out: &mut [u8]| {
        let old = form::look_over(book, form);
        if old.number != 0 {
            return old;
        }
        if book.len() + record.len() > 60_000 {
            return Refusal::Length.at(0);
        }
        let new = add::renewed(book, record, usize::from(book[7]) + 1);
        let looked = form::look_over(&new, form);
        if looked.number != 0 {
            return looked;
        }
        if out.len() < new.len() {
            return Refusal::Output.at(0);
        }
        out[..new.len()].copy_from_slice(&new);
        Answer::success(new.len())
    };
    for form in Form::BOTH {
        let calls =
            By(|job: Job, book: &[u8], told: u32, other: &[u8], out: &mut [u8]| match job {
                Job::Add => defined(book, form, other, out).packed(),
                _ => job.run(&Second, book, told, other, out),
            });
        assert_met(compare::job(Job::Add, form, RUN, &calls), Job::Add.numbers());
    }
}

/// Each is right but for one reading of the paper.
#[test]
fn look_over_finds_wrong_readings() {
    type Reading = fn(Given<'_>) -> Answer;
    let readings: [(&str, Reading); 4] = [
        ("records at the end are 3", |Given { book, answer, .. }| {
            let at_end = book.len() >= 16 && book[12..14] == book[14..16];
            if at_end && answer.number == 6 {
                Refusal::HeaderOffsets.at(0)
            } else {
                answer
            }
        }),
        ("an object twice is 9", |Given { answer, .. }| match answer.number {
            10 => Refusal::Step.at(answer.place as usize),
            _ => answer,
        }),
        ("a state's fault is met a byte before", |Given { answer, .. }| match answer.number {
            8 => Refusal::State.at(answer.place as usize - 1),
            _ => answer,
        }),
        ("no book has 60,000 bytes", |Given { book, answer, .. }| {
            if book.len() == 60_000 {
                Refusal::Length.at(0)
            } else {
                answer
            }
        }),
    ];
    for (reading, change) in readings {
        let calls = wrong(Job::LookOver, change);
        assert!(is_found(Job::LookOver, 4_000, &calls), "not found: {reading}");
    }
}

/// A form that is not the one told, or told by other numbers than 0.
#[test]
fn a_wrong_form_is_found() {
    type ReadAs = fn(u32) -> u32;
    let forms: [(&str, ReadAs); 5] = [
        ("all full", |_| 0),
        ("all short", |_| 1),
        ("1 alone is short", |form| u32::from(form == 1)),
        ("in one byte", |form| form % 256),
        ("with a sign", |form| u32::from(form as i32 > 0)),
    ];
    for (what, read_as) in forms {
        for job in Job::OF_BOTH_FORMS {
            let calls = By(|made: Job, book: &[u8], told: u32, other: &[u8], out: &mut [u8]| {
                let form = if made == job { read_as(told) } else { told };
                made.run(&Second, book, form, other, out)
            });
            let run = Run { count: 4_000, ..RUN };
            let found = Form::BOTH.map(|form| compare::job(job, form, run, &calls).is_err());
            assert!(found.contains(&true), "{what}: {}", job.name());
        }
    }
}

#[test]
fn learn_finds_a_touched_sheet() {
    let calls = wrong(Job::Learn, |Given { output, answer, .. }| {
        if answer.number == 13 && !output.is_empty() {
            output[0] ^= 1;
        }
        answer
    });
    assert!(is_found(Job::Learn, 4_000, &calls));
}

#[test]
fn check_finds_a_wrong_end_sheet() {
    let calls = wrong(Job::Check, |Given { output, answer, .. }| {
        if answer.number == 0 && answer.place > 0 {
            output[511] ^= 0x80;
        }
        answer
    });
    assert!(is_found(Job::Check, 4_000, &calls));
}

/// What a converter may do wrong.
#[test]
fn convert_finds_wrong_books() {
    type Converter = fn(Given<'_>) -> Answer;
    let wrongs: [(&str, Converter); 4] = [
        ("a byte behind is written", |Given { output, answer, .. }| {
            if let (0, Some(byte)) = (answer.number, output.get_mut(answer.place as usize)) {
                *byte ^= 1;
            }
            answer
        }),
        ("the book is written as it is", |Given { book, output, answer, .. }| {
            if answer.number == 0 && book.len() <= output.len() {
                output[..book.len()].copy_from_slice(book);
                return Answer::success(book.len());
            }
            answer
        }),
        ("23 is 1", |Given { answer, .. }| match answer.number {
            23 => Refusal::Length.at(0),
            _ => answer,
        }),
        ("13 is met before 23", |Given { output, answer, .. }| match answer.number {
            23 if output.len() < 60_000 => Refusal::Output.at(0),
            _ => answer,
        }),
    ];
    for (what, change) in wrongs {
        for job in [Job::ToShort, Job::ToFull] {
            let calls = wrong(job, change);
            assert!(is_found(job, 2_000, &calls), "not found: {what}, {}", job.name());
        }
    }
}

/// What the other one says of a book in its two forms must be the same, even where
/// this implementation says nothing else: here both are wrong alike.
#[test]
fn twins_that_differ_are_found() {
    // A converter that leaves the last record out is right by itself.
    let calls = wrong(Job::ToFull, |Given { output, answer, .. }| {
        if answer.number == 0 && output[7] > 0 {
            output[7] -= 1;
        }
        answer
    });
    let run = Run { count: 2_000, ..RUN };
    for job in [Job::LookOver, Job::Learn, Job::Check] {
        assert!(compare::job(job, Form::Short, run, &calls).is_err(), "{}", job.name());
    }
    assert!(compare::job(Job::ToShort, Form::Full, run, &calls).is_err());
}

/// What a check of several starts may do wrong, and a check of one does not show.
#[test]
fn check_finds_wrong_starts() {
    type Starts = fn(Given<'_>) -> Answer;
    let starts: [(&str, Starts); 5] = [
        ("position 1", |Given { answer, .. }| answer.from_start(answer.position.min(1) as usize)),
        ("position on success", |Given { other, answer, .. }| match answer.number {
            0 => answer.from_start(usize::from(other[3] > 1)),
            _ => answer,
        }),
        ("no position", |Given { answer, .. }| answer.from_start(0)),
        ("22 is 14", |Given { answer, .. }| match answer.number {
            22 => Refusal::OrderHeader.at(0),
            _ => answer,
        }),
        ("end sheet cleared", |Given { other, output, answer, .. }| {
            if answer.number == 0 && other[3] > 1 {
                output.fill(0);
            }
            answer
        }),
    ];
    for (what, change) in starts {
        let calls = wrong(Job::Check, change);
        assert!(is_found(Job::Check, 2_000, &calls), "not found: {what}");
    }
}

/// Over 256 facts may hold while a plan is executed.
#[test]
fn check_finds_a_state_of_256_facts() {
    for form in Form::BOTH {
        let outcome = compare::job(Job::Check, form, RUN, &Capped);
        let difference = outcome.err().expect("a difference");
        // The shortest one: plans of fewer facts, which are shorter, don't differ.
        assert!(difference.label.what.starts_with("over 256 facts"), "{difference}");
        assert!(difference.differing >= 250, "{} of 500", difference.differing);
    }
}
