//! Books by the length that they have in the other form: row 23, before 13 and behind
//! all of the book's form.

use super::converting::{converted, refused};
use crate::answer::{Answer, Refusal};
use crate::calls::Form;
use crate::calls::Job::{self, Add, Check, Learn, LookOver};
use crate::gen::{BookDraft, Fact, OrderDraft, RecordDraft};
use crate::limits::{BOOK_LIMIT, END_SHEET_LENGTH, OBJECT_LIMIT, RULES_LENGTH};
use crate::vectors::hall::{end_sheet, sheet, story};
use crate::vectors::Vector;

const OVER: Answer = Refusal::ConvertedLength.at(0);

pub fn all() -> Vec<Vector> {
    let of_form = |form| [limits(form), beyond(form), behind(form), looked_over(form)].concat();
    Form::BOTH.into_iter().flat_map(of_form).chain(long_twin()).collect()
}

/// Relation 1 is over two objects of one kind; move 1 has no parameters, move 2 two.
fn front(form: Form) -> BookDraft {
    BookDraft {
        form,
        kinds: 1,
        relations: vec![[2, 1, 1, 0]],
        moves: vec![[0; 6], [2, 1, 1, 0, 0, 0]],
        ..BookDraft::default()
    }
}

/// A book of this form and length. In a full one nothing changes with a step; in a
/// short one 16 facts vanish and 16 others appear. Its twin is shorter by far.
pub fn of_length(form: Form, length: usize) -> BookDraft {
    let row = |first: u8| (1..=16).map(move |second| [1, first, second]).collect::<Vec<Fact>>();
    let (first, list) = match form {
        Form::Full => (row(1), row(1)),
        Form::Short => (row(1), [row(1), row(2)].concat()),
    };
    let record = |steps: usize| RecordDraft {
        objects: vec![1; OBJECT_LIMIT],
        states: [vec![first.clone()], vec![list.clone(); steps]].concat(),
        steps: vec![[1, 0, 0, 0, 0]; steps],
    };
    let mut draft = front(form);
    let (front, step) = (record(0).length(), 7 + 3 * list.len());
    // What is left of 13 bytes or more is for records of a step and objects alone.
    while length - draft.length() >= front + step + 13 {
        let steps = (length - draft.length() - front - 13) / step;
        draft.records.push(record(steps.min(64)));
    }
    while length > draft.length() {
        let objects = match length - draft.length() {
            rest @ ..30 => rest - 13,
            // 13 bytes are left.
            rest @ 30..42 => rest - 26,
            _ => OBJECT_LIMIT,
        };
        draft.records.push(RecordDraft { objects: vec![1; objects], ..story(&[false; 2], &[1]) });
    }
    assert_eq!(draft.length(), length);
    draft
}

/// A book of this form whose twin has this length.
pub fn to_length(form: Form, length: usize) -> BookDraft {
    of_length(form.other(), length).twin()
}

/// 60,000 bytes there or back, and one more.
fn limits(form: Form) -> Vec<Vector> {
    let longest = of_length(form, BOOK_LIMIT);
    let (most, more) = (to_length(form, BOOK_LIMIT), to_length(form, BOOK_LIMIT + 1));
    vec![
        converted("60,000 bytes", &longest, longest.twin().length()),
        converted("to 60,000 bytes", &most, BOOK_LIMIT),
        refused("to 60,000 bytes, one byte short", &most, BOOK_LIMIT - 1, Refusal::Output.at(0)),
        refused("to 60,001 bytes", &more, BOOK_LIMIT + 1, OVER),
        refused("to 60,001 bytes, output longer", &more, 2 * BOOK_LIMIT, OVER),
        refused("to 60,001 bytes, one byte short", &more, BOOK_LIMIT, OVER),
        refused("to 60,001 bytes, no output", &more, 0, OVER),
    ]
}

/// Lengths that two bytes do not hold, or hold only without a sign. No full book
/// becomes twice as long.
fn beyond(form: Form) -> Vec<Vector> {
    let far = match form {
        Form::Full => 100_000,
        Form::Short => 131_172,
    };
    let case = |length: usize| {
        refused(&format!("to {length} bytes"), &to_length(form, length), 70_000, OVER)
    };
    let mut vectors: Vec<Vector> = [65_535, 65_536, 66_000, far].map(case).into();
    vectors.push(converted("to 40,000 bytes", &to_length(form, 40_000), 40_000));
    vectors
}

/// A fault behind what passes 60,000 bytes is met before 23.
fn behind(form: Form) -> Vec<Vector> {
    let mut draft = to_length(form, 65_000);
    draft.records.push(RecordDraft {
        objects: vec![1; 2],
        states: vec![Vec::new(); 2],
        steps: vec![[2, 1, 1, 0, 0]],
    });
    let place = draft.layout().records.last().expect("a record").steps[0];
    let wrong = refused("behind over 60,000 bytes", &draft, 70_000, Refusal::ObjectTwice.at(place));
    draft.records.last_mut().expect("a record").steps[0][2] = 2;
    vec![wrong, refused("no fault behind over 60,000 bytes", &draft, 70_000, OVER)]
}

/// 23 is the converters' alone: a book is looked over whatever its twin's length.
fn looked_over(form: Form) -> Vec<Vector> {
    let draft = to_length(form, 65_000);
    let name = format!("looked over: {}, its twin of 65,000 bytes", form.name());
    let answer = Answer::success(draft.steps());
    vec![Vector::new(name, &[LookOver], draft.bytes(), answer).form(form.number())]
}

/// Such a short book is learned from, checked by and added to. Move 1 needs nothing,
/// move 2 has no step.
fn long_twin() -> Vec<Vector> {
    let book = to_length(Form::Short, 65_000);
    let more = story(&[false; 2], &[1]);
    let mut new = book.clone();
    new.records.push(more.clone());
    let order = OrderDraft {
        starts: vec![Vec::new()],
        steps: vec![[1, 0, 0, 0, 0]],
        ..OrderDraft::default()
    };
    let case = |job: Job, answer: Answer| {
        let name = format!("{}: short, its twin of 65,000 bytes", job.name());
        Vector::new(name, &[job], book.bytes(), answer).form(1)
    };
    let both: &[usize] = &[0, 1, 4, 5];
    vec![
        case(Learn, Answer::success(book.steps()))
            .output(2 * RULES_LENGTH)
            .after(sheet(&[[&[], &[], &[], &[]], [both, both, &[], &[]]])),
        case(Check, Answer::success(1))
            .order(order.bytes())
            .output(END_SHEET_LENGTH)
            .after(end_sheet(&[])),
        case(Add, Answer::success(new.length()))
            .record(more.bytes())
            .output(new.length())
            .after(new.bytes()),
    ]
}
