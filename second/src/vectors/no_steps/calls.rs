//! Row 24 in each call: before what only that call meets, and where a record is added.

use super::books::{bare, MET};
use crate::answer::{Answer, Refusal};
use crate::calls::Form;
use crate::calls::Job::{Add, Check, Learn};
use crate::gen::{BookDraft, RecordDraft};
use crate::limits::{BOOK_LIMIT, END_SHEET_LENGTH, RULES_LENGTH};
use crate::vectors::hall::{
    changed, empty_end, failing_orders, filed, m2, small_hall, still, unbound, unrecorded, with,
    without_steps, HEAD, OBJECTS, STATE, STEP,
};
use crate::vectors::short::converted_lengths::{of_length, to_length};
use crate::vectors::short::converting::refused;
use crate::vectors::Vector;

pub fn all() -> Vec<Vector> {
    let of_form = |form: Form| {
        let mut vectors = learning(form);
        vectors.extend(orders(form));
        vectors.extend(record_added(form));
        vectors.extend(new_book(form));
        vectors.extend(old_book(form));
        vectors.iter_mut().for_each(|vector| vector.form = form.number());
        vectors.extend(converting(form));
        for vector in &mut vectors {
            vector.name.insert_str(0, &format!("no steps, {}, ", form.name()));
        }
        vectors
    };
    Form::BOTH.into_iter().flat_map(of_form).collect()
}

/// The small hall with these full records in this form, and behind them one without
/// steps; and where that stands.
fn behind(form: Form, records: &[RecordDraft]) -> (BookDraft, Answer) {
    let mut book = with(records.to_vec()).in_form(form);
    let place = book.length();
    book.records.push(without_steps());
    (book, Refusal::NoSteps.at(place))
}

/// Learning and checking meet it before 11, 12 and 13, with every length of output.
fn learning(form: Form) -> Vec<Vector> {
    let mut vectors = Vec::new();
    for (what, records) in [
        ("before 13", vec![]),
        ("before 11", vec![unbound()]),
        ("before 12", vec![filed(), empty_end()]),
        ("behind one that teaches", vec![filed()]),
    ] {
        let (book, answer) = behind(form, &records);
        for (job, right) in [(Learn, RULES_LENGTH), (Check, END_SHEET_LENGTH)] {
            for lent in [right, right - 1, 0] {
                let name = format!("{}: {what}, output of {lent} bytes", job.name());
                let vector = Vector::new(name, &[job], book.bytes(), answer);
                vectors.push(vector.order(m2().bytes()).output(lent));
            }
        }
    }
    vectors
}

/// Checking meets it before the rows of an order, and before 19 and 20.
fn orders(form: Form) -> Vec<Vector> {
    let (book, answer) = behind(form, &[filed()]);
    failing_orders()
        .map(|(row, order)| {
            Vector::new(format!("check: before {row}"), &[Check], book.bytes(), answer)
                .order(order)
                .output(END_SHEET_LENGTH)
        })
        .into()
}

/// With an output as long as the new book.
fn add(name: impl Into<String>, book: Vec<u8>, record: Vec<u8>, answer: Answer) -> Vector {
    let length = book.len() + record.len();
    Vector::new(format!("add: {}", name.into()), &[Add], book, answer).record(record).output(length)
}

/// The record itself, which is behind the small hall: its place is the old length.
fn record_added(form: Form) -> Vec<Vector> {
    let old = small_hall().in_form(form).bytes();
    let (met, head) = (Refusal::NoSteps.at(old.len()), Refusal::Record.at(old.len()));
    let none = || without_steps().bytes();
    let wrong = |at: usize, new: &[u8]| changed(none(), &[(at, new)]);
    let left_in = changed(with([filed()]).in_form(form).records[0].bytes(), &[(1, &[0])]);
    let length = none().len() as u8;
    let tail = |length: u8| [wrong(3, &[length]), vec![0]].concat();
    let mut vectors = Vec::new();
    for (name, record, answer) in [
        ("a record", none(), met),
        ("a record, its step left in", left_in, met),
        ("a head alone", vec![0, 0, 0, 4], met),
        ("before 7", wrong(OBJECTS - HEAD, &[0]), met),
        ("before 8", wrong(STATE - HEAD, &[1, 1]), met),
        ("before 6 of the record's tail", tail(length + 1), met),
        ("before 6 of the book's tail", tail(length), met),
        ("before 6 of a second record", [none(), filed().bytes()].concat(), met),
        ("behind 6: no byte", Vec::new(), head),
        ("behind 6: a cut head", vec![0, 0, 0], head),
        ("behind 6: 17 objects", wrong(0, &[17]), head),
        ("behind 6: length 3", wrong(3, &[3]), head),
        ("behind 6: length past the end", wrong(3, &[length + 1]), head),
    ] {
        for lent in [old.len() + record.len(), old.len() + record.len() - 1] {
            let name = format!("{name}, output of {lent} bytes");
            vectors.push(add(name, old.clone(), record.clone(), answer).output(lent));
        }
    }
    vectors
}

/// The new book's length and record count come before it; other old books do not.
fn new_book(form: Form) -> Vec<Vector> {
    let none = without_steps().bytes();
    let of = |records: Vec<RecordDraft>| with(records).in_form(form).bytes();
    let bare = bare().bytes();
    let long = |over: usize| of_length(form, BOOK_LIMIT + over - bare.len()).bytes();
    let met = |book: &[u8]| Refusal::NoSteps.at(book.len());
    let case = |name: &str, book: Vec<u8>, record: &[u8]| {
        let answer = met(&book);
        add(name, book, record.to_vec(), answer)
    };
    vec![
        case("the first record", unrecorded().bytes(), &none),
        case("the 64th record", of(vec![still(); 63]), &none),
        add("behind 2, as the 65th", of(vec![still(); 64]), none.clone(), {
            Refusal::HeaderCounts.at(0)
        }),
        case("to a new length of 60,000", long(0), &bare),
        add("behind 1, to 60,001 bytes", long(1), bare.clone(), Refusal::Length.at(0)),
        case("to a book that would be 11", of(vec![unbound()]), &none),
        case("to a book that would be 12", of(vec![filed(), empty_end()]), &none),
    ]
}

/// Of the old book it comes before all of the new one, with its place in the old one.
fn old_book(form: Form) -> Vec<Vector> {
    let good = with([filed()]).in_form(form).records[0].bytes();
    let twice = changed(good.clone(), &[(STEP + 3 - HEAD, &[2])]);
    let case = |name: &str, records: &[RecordDraft], record: &[u8]| {
        let (book, answer) = behind(form, records);
        add(format!("an old book's {name}"), book.bytes(), record.to_vec(), answer)
    };
    let two = [filed()];
    vec![
        case("record", &[], &good),
        case("second record", &two, &good),
        case("before 13", &two, &good).output(1),
        case("before another", &two, &without_steps().bytes()),
        case("before 1", &two, &[0; BOOK_LIMIT]),
        case("before 2", &vec![still(); 63], &good),
        case("before 6", &[], &[17, 0, 0, 4]),
        case("before 10", &two, &twice),
    ]
}

/// The converters meet it before 23 and 13, and write nothing.
fn converting(form: Form) -> Vec<Vector> {
    let small = BookDraft { form, ..with([without_steps()]) };
    let mut vectors: Vec<Vector> = [0, 1, small.length() - 1, small.length(), 200]
        .map(|lent| refused(&format!("output of {lent} bytes"), &small, lent, MET))
        .into();
    let (two, second) = behind(form, &[filed()]);
    vectors.push(refused("the second record", &two, 200, second));
    let mut long = to_length(form, 65_000);
    let place = long.length();
    long.records.push(bare());
    for lent in [0, 70_000] {
        let name = format!("before 23, output of {lent} bytes");
        vectors.push(refused(&name, &long, lent, Refusal::NoSteps.at(place)));
    }
    vectors
}
