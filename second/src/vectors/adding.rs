//! Adding, by hand: rows of the old book, of the new one and of the output met
//! in one input, and records that only learning refuses.
//!
//! The old book is the small hall, the record its own once more unless a name
//! says otherwise. Row 13 comes last, and a refusal writes nothing.

use super::hall::{
    changed, empty_end, filed, small_hall, still, story, unbound, unrecorded, with, HEAD, STEP,
};
use super::Vector;
use crate::answer::{Answer, Refusal};
use crate::calls::Job::{Add, LookOver};
use crate::gen::extreme::fullbook;
use crate::gen::{BookDraft, RecordDraft, Rng};
use crate::limits::BOOK_LIMIT;

pub fn all() -> Vec<Vector> {
    let mut vectors = output_short();
    vectors.extend(length_and_count());
    vectors.extend(old_book_first());
    vectors.extend(left_to_learning());
    vectors.extend(succeeds());
    vectors
}

/// The output is as long as the new book, unless another length is set.
fn add(name: impl Into<String>, book: Vec<u8>, record: Vec<u8>, answer: Answer) -> Vector {
    let length = book.len() + record.len();
    Vector::new(name, &[Add], book, answer).record(record).output(length)
}

fn sixty_four() -> BookDraft {
    with(vec![still(); 64])
}

/// Each row that the record or the new book can meet, with an output one byte
/// short of the new book, and with none.
fn output_short() -> Vec<Vector> {
    let hall = || small_hall().bytes();
    let end = hall().len();
    let wrong = |at: usize, new: &[u8]| changed(filed().bytes(), &[(at - HEAD, new)]);
    let in_new = |at: usize| end + at - HEAD;
    let mut tail = wrong(HEAD + 3, &[29]);
    tail.push(0);
    let mut behind = filed().bytes();
    behind.push(0);
    let more = story(&[false; 2], &[1]).bytes();
    let full = fullbook::of_length(BOOK_LIMIT + 1 - more.len(), &mut Rng::new(5));
    let good = || filed().bytes();
    let cases = [
        ("1", full, more, Refusal::Length.at(0)),
        ("2", sixty_four().bytes(), good(), Refusal::HeaderCounts.at(0)),
        ("6 at no byte", hall(), Vec::new(), Refusal::Record.at(end)),
        ("6 at a cut head", hall(), vec![0, 0, 0], Refusal::Record.at(end)),
        ("6 at the head", hall(), wrong(HEAD + 1, &[65]), Refusal::Record.at(end)),
        ("7", hall(), wrong(HEAD + 4, &[0]), Refusal::Object.at(in_new(HEAD + 4))),
        ("8", hall(), wrong(STEP - 3, &[9]), Refusal::State.at(in_new(STEP - 3))),
        ("9", hall(), wrong(STEP, &[2]), Refusal::Step.at(in_new(STEP))),
        ("10", hall(), wrong(STEP + 3, &[2]), Refusal::ObjectTwice.at(in_new(STEP))),
        ("6 at the record's tail", hall(), tail, Refusal::Record.at(end)),
        ("6 at the book's tail", hall(), behind, Refusal::Record.at(2 * end - HEAD)),
    ];
    let mut vectors = Vec::new();
    for (row, book, record, answer) in cases {
        let length = book.len() + record.len();
        for (lent, what) in [(length - 1, "output one byte short"), (0, "no output")] {
            let name = format!("adding: {row} before 13, {what}");
            vectors.push(add(name, book.clone(), record.clone(), answer).output(lent));
        }
    }
    vectors
}

/// The new book's length, its record count and the record, by twos.
fn length_and_count() -> Vec<Vector> {
    let long = |book: &[u8]| vec![0; BOOK_LIMIT + 1 - book.len()];
    let (hall, many) = (small_hall().bytes(), sixty_four().bytes());
    vec![
        add("adding: 1 before 2", many.clone(), long(&many), Refusal::Length.at(0)),
        add("adding: 1 before 6", hall.clone(), long(&hall), Refusal::Length.at(0)),
        add("adding: 2 before 6", many.clone(), vec![0; 3], Refusal::HeaderCounts.at(0)),
        add(
            "adding: 2 before 10",
            many,
            changed(filed().bytes(), &[(STEP + 3 - HEAD, &[2])]),
            Refusal::HeaderCounts.at(0),
        ),
    ]
}

/// A fault of the old book, before what the new one would meet.
fn old_book_first() -> Vec<Vector> {
    let twice = || changed(small_hall().bytes(), &[(STEP, &[1, 1, 2, 2, 0])]);
    let answer = Refusal::ObjectTwice.at(STEP);
    let many = sixty_four().bytes();
    let last_state = many.len() - 2;
    vec![
        add(
            "adding: 10 of the old book before 1 of the new length",
            twice(),
            vec![0; BOOK_LIMIT],
            answer,
        ),
        add(
            "adding: 8 of the old book before 2 of the new count",
            changed(many, &[(last_state, &[1, 1])]),
            filed().bytes(),
            Refusal::State.at(last_state),
        ),
        add(
            "adding: 10 of the old book before 6 of the record",
            twice(),
            vec![17, 0, 0, 4],
            answer,
        ),
    ]
}

/// "Looking over ends before 11" and "adding leaves 11 and 12 to learning".
fn left_to_learning() -> Vec<Vector> {
    let conflict = with([filed(), empty_end()]);
    let unbound_book = with([unbound()]);
    let looked = |name, book: &BookDraft| {
        Vector::new(name, &[LookOver], book.bytes(), Answer::success(book.steps()))
    };
    let added = |name, old: &BookDraft, record: RecordDraft| {
        let mut new = old.clone();
        new.records.push(record.clone());
        add(name, old.bytes(), record.bytes(), Answer::success(new.length())).after(new.bytes())
    };
    vec![
        looked("looked over: 11 is left to learning", &unbound_book),
        looked("looked over: 12 is left to learning", &conflict),
        added("added: a record that would be 11", &small_hall(), unbound()),
        added("added: to a book that would be 11", &unbound_book, filed()),
        added("added: to a book that would be 12", &conflict, filed()),
    ]
}

fn succeeds() -> Vec<Vector> {
    let hall = small_hall().bytes();
    let end = hall.len();
    let two = [filed().bytes(), filed().bytes()].concat();
    // 254 bytes before and 282 after: both bytes of the end are new.
    let eight = with(vec![filed(); 8]);
    let nine = with(vec![filed(); 9]).bytes();
    vec![
        add("6: two records added at once", hall, two, Refusal::Record.at(2 * end - HEAD)),
        add(
            "added: the new end is over 255",
            eight.bytes(),
            filed().bytes(),
            Answer::success(nine.len()),
        )
        .after(nine),
        add(
            "added: the first record",
            unrecorded().bytes(),
            still().bytes(),
            Answer::success(HEAD + 16),
        )
        .after(with([still()]).bytes()),
    ]
}
