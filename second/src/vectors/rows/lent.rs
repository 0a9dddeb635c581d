//! A book that a row refuses, with an output lent: of a wrong length, where the
//! row stands before 13, and of the right one. No byte of it may change.

use crate::answer::{Answer, Refusal};
use crate::calls::Form;
use crate::calls::Job::{self, Add, Check, Learn, LookOver};
use crate::gen::BookDraft;
use crate::limits::{END_SHEET_LENGTH, RULES_LENGTH};
use crate::vectors::hall::{
    changed, empty_end, filed, m2, small_hall, unbound, with, with_parents, AFTER, HEAD, MOVE,
    OBJECTS, RELATIONS, STATE, STEP,
};
use crate::vectors::Vector;

/// The small hall, full or short, with a fault of each row of a book's form.
pub fn malformed(form: Form) -> Vec<(Vec<u8>, Answer)> {
    let good = small_hall().in_form(form).bytes();
    let hall = |at: usize, new: &[u8]| changed(good.clone(), &[(at, new)]);
    vec![
        (good[..15].to_vec(), Refusal::Length.at(0)),
        (hall(1, &[9]), Refusal::HeaderCounts.at(0)),
        (hall(15, &[59]), Refusal::HeaderOffsets.at(0)),
        (with_parents(&[0, 2]).in_form(form).bytes(), Refusal::Parent.at(17)),
        (hall(RELATIONS, &[3]), Refusal::Relation.at(RELATIONS)),
        (hall(MOVE, &[5]), Refusal::Move.at(MOVE)),
        (hall(HEAD + 1, &[65]), Refusal::Record.at(HEAD)),
        (hall(OBJECTS, &[0]), Refusal::Object.at(OBJECTS)),
        (hall(STATE + 5, &[3]), Refusal::State.at(STATE + 5)),
        (hall(STEP, &[2]), Refusal::Step.at(STEP)),
        (hall(STEP + 3, &[2]), Refusal::ObjectTwice.at(STEP)),
        (hall(AFTER + 5, &[3]), Refusal::State.at(AFTER + 5)),
    ]
}

/// Full books of good form that only learning refuses: rows 11 and 12. The step of
/// the first stands at the same offset in both forms.
pub fn impossible() -> Vec<(BookDraft, Answer)> {
    let unbound = with([unbound()]);
    let unbound_at = unbound.layout().records[0].steps[0];
    let conflict = with([filed(), empty_end()]);
    vec![
        (unbound, Refusal::UnboundChange.at(unbound_at)),
        (conflict, Refusal::EffectConflict.at(1)),
    ]
}

pub fn all() -> Vec<Vector> {
    of_form(Form::Full)
}

/// The same with short books.
pub fn short() -> Vec<Vector> {
    let mut vectors = of_form(Form::Short);
    vectors.extend(malformed(Form::Short).into_iter().map(|(book, answer)| {
        let name = format!("{} at {}, looked over", answer.number, answer.place);
        Vector::new(name, &[LookOver], book, answer)
    }));
    for vector in &mut vectors {
        vector.name.insert_str(0, "short hall: ");
        vector.form = Form::Short.number();
    }
    vectors
}

fn of_form(form: Form) -> Vec<Vector> {
    let record = small_hall().in_form(form).records.swap_remove(0).bytes();
    let mut vectors = Vec::new();
    for (book, answer) in malformed(form) {
        let at = format!("{} at {}", answer.number, answer.place);
        // 41 bytes are no rule sheet, no end sheet, and short of every new book.
        vectors.push(
            Vector::new(format!("{at} before 13"), &[Learn, Check, Add], book.clone(), answer)
                .order(m2().bytes())
                .record(record.clone())
                .output(41),
        );
        vectors.extend([Learn, Check, Add].map(|job| {
            let vector = of_right_length(&at, job, &book, answer);
            match job {
                Add => vector.output(book.len() + record.len()).record(record.clone()),
                _ => vector,
            }
        }));
    }
    for (draft, answer) in impossible() {
        let (number, book) = (answer.number.to_string(), draft.in_form(form).bytes());
        vectors.extend([Learn, Check].map(|job| of_right_length(&number, job, &book, answer)));
    }
    vectors
}

/// With the sheet of a job that has one.
fn of_right_length(what: &str, job: Job, book: &[u8], answer: Answer) -> Vector {
    let name = format!("{what}, output of the right length, {}", job.name());
    let vector = Vector::new(name, &[job], book.to_vec(), answer);
    match job {
        Learn => vector.output(RULES_LENGTH),
        Check => vector.order(m2().bytes()).output(END_SHEET_LENGTH),
        _ => vector,
    }
}
