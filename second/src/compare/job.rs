//! One call, on the generated cases of its kind.

use super::agreed::Agreed;
use super::alone::by_each_start;
use super::lent::Lent;
use super::report::{compare_all, Compared};
use super::{permuted, twins, Difference, Run, Tally};
use crate::calls::{unpacked, Calls, Form, Job};
use crate::gen::stream::JobStream;
use crate::gen::{JobCase, Rng};
use crate::Second;

/// Runs `calls` on generated cases of one call, with books of one form. An order of
/// several starts is also split, and what they say of it held to what they say of
/// each start; what they say of a book is held to what they say of its twin, and of the
/// same book with its records in another sequence.
pub fn job(job: Job, form: Form, run: Run, calls: &impl Calls) -> Result<Tally, Box<Difference>> {
    let stream = JobStream::new(job, form, run.seed);
    compare_all(run, Tally::new(stream.labels(), permuted::outcomes(job)), |index| {
        let rng = &mut Rng::of_case(run.seed ^ 0x3c3c, index);
        compare(calls, stream.case(index), index as u8, rng)
    })
}

/// The output is lent with `fill`; `rng` draws the sequence.
fn compare(calls: &impl Calls, case: JobCase, fill: u8, rng: &mut Rng) -> Compared {
    let mut lent = Lent::new(case.output, fill);
    let JobCase { job, book, form, other, .. } = &case;
    let expected = unpacked(job.run(&Second, book, *form, other, lent.ours()));
    let packed = job.run(calls, book, *form, other, lent.theirs());
    let mut note = lent.difference();
    let mut permuted = None;
    if note.is_empty() && packed == expected.packed() {
        let agreed = Agreed { case: &case, answer: expected, written: lent.theirs(), fill };
        note = by_starts(calls, &agreed);
        if note.is_empty() {
            note = twins::difference(calls, &agreed);
        }
        if note.is_empty() {
            permuted = permuted::compare(calls, &agreed, rng);
        }
    }
    let mut compared = Compared {
        label: case.label,
        aimed: case.aimed,
        expected,
        packed,
        note,
        form: case.form,
        inputs: vec![("book", case.book), ("order or record", case.other)],
        permuted: permuted.as_ref().map(|permuted| permuted.answer),
    };
    if let Some(permuted) = permuted.filter(|permuted| !permuted.note.is_empty()) {
        compared.note = permuted.note;
        compared.inputs.push(("book in another sequence", permuted.book));
    }
    compared
}

/// What the answers to each start alone come to, if that is not the answer to all.
fn by_starts(calls: &impl Calls, agreed: &Agreed<'_>) -> String {
    let Agreed { case, answer, .. } = agreed;
    if case.job != Job::Check {
        return String::new();
    }
    let by_each = by_each_start(&case.other, *answer, |order, end| {
        calls.check(&case.book, case.form, order, end)
    });
    match by_each {
        Some(by_each) if by_each != *answer => {
            format!("by what the other one says of each start alone: {by_each}")
        }
        _ => String::new(),
    }
}
