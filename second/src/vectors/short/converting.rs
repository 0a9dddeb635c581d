//! Converting, by hand: a book's form before the output, what is left to learning,
//! and what a converted book keeps. Its length, and 23, are in `converted_lengths`.

use super::hall::{short_hall, short_with, turned};
use crate::answer::Answer;
use crate::calls::Form;
use crate::calls::Job::{self, ToFull, ToShort};
use crate::gen::{BookDraft, RecordDraft};
use crate::vectors::hall::{filed, small_hall, still, with, with_parents};
use crate::vectors::rows::lent::{impossible, malformed};
use crate::vectors::Vector;

pub fn all() -> Vec<Vector> {
    let mut vectors = of_bad_form();
    vectors.extend(left_to_learning());
    vectors.extend(kept());
    vectors
}

/// The call that reads this form.
fn converter(form: Form) -> Job {
    match form {
        Form::Full => ToShort,
        Form::Short => ToFull,
    }
}

/// The draft in its other form, written in front of an output of this length.
pub fn converted(name: &str, draft: &BookDraft, lent: usize) -> Vector {
    let (job, twin) = (converter(draft.form), draft.twin());
    let answer = Answer::success(twin.length());
    Vector::new(format!("{}: {name}", job.name()), &[job], draft.bytes(), answer)
        .output(lent)
        .after(twin.bytes())
}

pub fn refused(name: &str, draft: &BookDraft, lent: usize, answer: Answer) -> Vector {
    let (job, number) = (converter(draft.form), answer.number);
    Vector::new(format!("{}: {number}, {name}", job.name()), &[job], draft.bytes(), answer)
        .output(lent)
}

/// Rows 1 to 10, 21 and 24, with an output that is short and one that is not.
fn of_bad_form() -> Vec<Vector> {
    let mut vectors = Vec::new();
    for form in Form::BOTH {
        let (job, good) = (converter(form), small_hall().in_form(form));
        let length = good.twin().length();
        for (book, answer) in malformed(form) {
            for lent in [41, length, 0] {
                let name = format!(
                    "{}: {} at {}, output of {lent} bytes",
                    job.name(),
                    answer.number,
                    answer.place
                );
                vectors.push(Vector::new(name, &[job], book.clone(), answer).output(lent));
            }
        }
    }
    vectors
}

/// A book that only learning refuses is converted.
fn left_to_learning() -> Vec<Vector> {
    let mut vectors = Vec::new();
    for (draft, answer) in impossible() {
        for draft in [draft.twin(), draft] {
            let name = format!("{} is left to learning", answer.number);
            vectors.push(converted(&name, &draft, draft.twin().length()));
        }
    }
    vectors
}

/// The header but for its end, and all that is no state after a step, stay as they
/// are; each record begins anew.
fn kept() -> Vec<Vector> {
    let idle = RecordDraft { states: vec![filed().states[0].clone(); 2], ..filed() };
    let there_and_back = RecordDraft {
        states: filed().states.into_iter().cycle().take(6).collect(),
        steps: [[1, 1, 2, 3, 0], [1, 1, 3, 2, 0]].repeat(3)[..5].to_vec(),
        ..filed()
    };
    let stays = RecordDraft { states: vec![filed().states[0].clone(); 4], ..filed() };
    let stays = RecordDraft { steps: vec![[1, 1, 2, 3, 0]; 3], ..stays };
    let cases = [
        ("no bytes but the header", BookDraft::default()),
        ("no record", with([])),
        ("parents", with_parents(&[0, 0])),
        ("records in which nothing changes", with([still(), idle.clone(), still()])),
        ("there and back", with([there_and_back.clone()])),
        ("nothing turns", with([stays.clone()])),
        ("several records", with([filed(), still(), there_and_back, idle, stays, filed()])),
        ("length over 255", with(vec![filed(); 9])),
    ];
    let of_both = |(name, full): (&str, BookDraft)| {
        [full.twin(), full].map(|draft| converted(name, &draft, draft.twin().length() + 2))
    };
    let mut vectors: Vec<Vector> = cases.into_iter().flat_map(of_both).collect();
    let two = short_with([turned(), turned()]);
    vectors.push(converted("two equal records", &two, two.twin().length()));
    // A short book's first state is no list of what turns.
    vectors.push(converted("a hall of one record", &short_hall(), 100));
    vectors
}
