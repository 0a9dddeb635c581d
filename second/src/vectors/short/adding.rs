//! Adding to a short book: the record is in the same form. Its list after the one
//! step stands 20 bytes behind its head.

use super::converted_lengths::of_length;
use super::hall::{short_hall, short_with, turned};
use crate::answer::{Answer, Refusal};
use crate::calls::Form;
use crate::calls::Job::Add;
use crate::gen::{BookDraft, RecordDraft};
use crate::limits::BOOK_LIMIT;
use crate::vectors::hall::{changed, filed, small_hall, still, story, unrecorded, HEAD, STEP};
use crate::vectors::Vector;

pub fn all() -> Vec<Vector> {
    let mut vectors = succeeds();
    vectors.extend(of_the_record());
    vectors.extend(of_the_books());
    vectors.iter_mut().for_each(|vector| vector.name.insert_str(0, "short, adding: "));
    vectors
}

/// The output is as long as the new book, unless another length is set.
fn add(name: impl Into<String>, book: Vec<u8>, record: Vec<u8>, answer: Answer) -> Vector {
    let length = book.len() + record.len();
    Vector::new(name, &[Add], book, answer).form(1).record(record).output(length)
}

fn added(name: &str, old: &BookDraft, record: RecordDraft) -> Vector {
    let mut new = old.clone();
    new.records.push(record.clone());
    add(name, old.bytes(), record.bytes(), Answer::success(new.length())).after(new.bytes())
}

/// Spot 4, which is no parameter of the roll, is cleared: 11, if it were learned.
fn unbound() -> RecordDraft {
    let mut record = RecordDraft { objects: vec![1, 2, 2, 2], ..turned() };
    record.states[1].push([2, 4, 0]);
    record
}

fn succeeds() -> Vec<Vector> {
    let eight = short_with(vec![turned(); 8]);
    let mut longer = added("bytes beyond the new book stay", &short_hall(), turned());
    longer.output += 5;
    vec![
        longer,
        added("the new end is over 255", &eight, turned()),
        added("the first record", &BookDraft { form: Form::Short, ..unrecorded() }, turned()),
        added("a record that would be 11", &short_hall(), unbound()),
        added("to a book that would be 11", &short_with([unbound()]), turned()),
        // Its list is read as what turns, whatever it was meant as.
        added("a record meant as a full one", &short_hall(), filed()),
    ]
}

/// Rows 6 to 10 of the record, with places in the new book.
fn of_the_record() -> Vec<Vector> {
    let (old, good) = (short_hall().bytes(), turned().bytes());
    let (end, list) = (old.len(), STEP + 5 - HEAD);
    let wrong = |at: usize, new: &[u8]| changed(good.clone(), &[(at, new)]);
    let mut behind = good.clone();
    behind.push(0);
    let tail = changed(behind.clone(), &[(3, &[35])]);
    let cases = [
        ("6 at the head", wrong(1, &[65]), Refusal::Record.at(end)),
        ("7", wrong(4, &[0]), Refusal::Object.at(end + 4)),
        ("8 in the first state", wrong(12, &[3]), Refusal::State.at(end + 12)),
        ("9", wrong(STEP - HEAD, &[2]), Refusal::Step.at(end + STEP - HEAD)),
        ("10", wrong(STEP - HEAD + 3, &[2]), Refusal::ObjectTwice.at(end + STEP - HEAD)),
        ("8 at a count of 513", wrong(list, &[2, 1]), Refusal::State.at(end + list)),
        ("8 at a count of 5", wrong(list, &[0, 5]), Refusal::State.at(end + list + 14)),
        ("8 at equal facts", wrong(list + 7, &[2]), Refusal::State.at(end + list + 5)),
        ("8 at the last fact", wrong(list + 11, &[3]), Refusal::State.at(end + list + 11)),
        ("6 at the record's tail", tail, Refusal::Record.at(end)),
        ("6 at the book's tail", behind, Refusal::Record.at(end + good.len())),
    ];
    let mut vectors = Vec::new();
    for (name, record, answer) in cases {
        let length = end + record.len();
        for lent in [length, length - 1] {
            let name = format!("{name}, output of {lent} bytes");
            vectors.push(add(name, old.clone(), record.clone(), answer).output(lent));
        }
    }
    vectors
}

/// The old book first, then the new length, the record count and the output.
fn of_the_books() -> Vec<Vector> {
    let many = short_with(vec![still(); 64]).bytes();
    let more = story(&[false; 2], &[1]).bytes();
    let long = of_length(Form::Short, BOOK_LIMIT + 1 - more.len()).bytes();
    let list = STEP + 5;
    let wrong = changed(short_hall().bytes(), &[(list + 7, &[2])]);
    vec![
        add("1 of the new length", long, more, Refusal::Length.at(0)),
        add("2 of the new count", many, turned().bytes(), Refusal::HeaderCounts.at(0)),
        add("8 of the old book", wrong, vec![17], Refusal::State.at(list + 5)),
        add("13", short_hall().bytes(), turned().bytes(), Refusal::Output.at(0)).output(97),
        add("a full book, read as a short one", small_hall().bytes(), filed().bytes(), {
            Answer::success(86)
        })
        .after(crate::vectors::added(&small_hall().bytes(), &filed().bytes(), 2)),
    ]
}
