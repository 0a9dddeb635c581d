//! Two rows of the table met in one book: the answer is the first. The books are
//! the small hall's 58 bytes with a few bytes changed.

use crate::answer::{Answer, Refusal};
use crate::calls::Job::{self, Check, Learn};
use crate::gen::{BookDraft, RecordDraft};
use crate::limits::END_SHEET_LENGTH;
use crate::vectors::hall::{
    changed, empty_end, filed, m2, small_hall, unbound, with, AFTER, HEAD, MOVE, OBJECTS,
    RELATIONS, STATE, STEP,
};
use crate::vectors::Vector;

/// The step with spot 2 for both of its spots.
const TWICE: (usize, &[u8]) = (STEP, &[1, 1, 2, 2, 0]);

fn hall(changes: &[(usize, &[u8])]) -> Vec<u8> {
    changed(small_hall().bytes(), changes)
}

/// The small hall with bytes behind its record; these belong to it if its
/// length says so.
fn longer(length: u8, behind: &[u8], changes: &[(usize, &[u8])]) -> Vec<u8> {
    let mut book = hall(changes);
    book.extend_from_slice(behind);
    let end = book.len() as u8;
    changed(book, &[(15, &[end]), (HEAD + 3, &[length])])
}

pub fn all() -> Vec<Vector> {
    let mut vectors = fronts();
    vectors.extend(sections());
    vectors.extend(heads_and_objects());
    vectors.extend(states_and_steps());
    vectors.extend(tails());
    vectors.extend(learning());
    vectors
}

fn every(name: &str, book: Vec<u8>, answer: Answer) -> Vector {
    Vector::new(name, &Job::OF_BOTH_FORMS, book, answer)
}

fn fronts() -> Vec<Vector> {
    let (counts, offsets) = (Refusal::HeaderCounts.at(0), Refusal::HeaderOffsets.at(0));
    vec![
        every("1 before 2: 15 bytes", vec![0xff; 15], Refusal::Length.at(0)),
        every("1 before 2: 60,001 bytes", vec![0xff; 60_001], Refusal::Length.at(0)),
        every("2 before 3: 9 kinds, relations at 17", hall(&[(1, &[9]), (9, &[17])]), counts),
        every("2 before 3: 65 records, end 59", hall(&[(7, &[65]), (15, &[59])]), counts),
        every(
            "3 before 4: moves at 25, relation of 3 places",
            hall(&[(11, &[25]), (RELATIONS, &[3])]),
            offsets,
        ),
        every("3 before 4: end 59", hall(&[(15, &[59]), (RELATIONS, &[3])]), offsets),
    ]
}

fn sections() -> Vec<Vector> {
    let (relation, action) = (Refusal::Relation.at(RELATIONS), Refusal::Move.at(MOVE));
    let two_moves = BookDraft { moves: vec![[5, 1, 2, 2, 0, 0]; 2], ..small_hall() };
    let mut cut = hall(&[(MOVE, &[5]), (15, &[33])]);
    cut.truncate(33);
    vec![
        every(
            "4: the first of two wrong relations",
            hall(&[(RELATIONS, &[3]), (RELATIONS + 4, &[3])]),
            relation,
        ),
        every(
            "4 before 5",
            hall(&[(RELATIONS + 4, &[3]), (MOVE, &[5])]),
            Refusal::Relation.at(RELATIONS + 4),
        ),
        every("5: the first of two wrong moves", two_moves.bytes(), action),
        every("5 before 6: head cut", cut, action),
        every(
            "5 before 6: 17 objects, 65 steps, length 3",
            hall(&[(MOVE, &[5]), (HEAD, &[17, 65, 0, 3])]),
            action,
        ),
    ]
}

fn heads_and_objects() -> Vec<Vector> {
    let head = Refusal::Record.at(HEAD);
    vec![
        every("6: length 65,535", hall(&[(HEAD + 2, &[0xff, 0xff])]), head),
        every("6 before 7: 65 steps", hall(&[(HEAD + 1, &[65]), (OBJECTS, &[0])]), head),
        every("6 before 7: length 3", hall(&[(HEAD + 3, &[3]), (OBJECTS, &[0])]), head),
        every(
            "7: the first of two wrong objects",
            hall(&[(OBJECTS + 1, &[0, 9])]),
            Refusal::Object.at(OBJECTS + 1),
        ),
        every(
            "7 before 8",
            hall(&[(OBJECTS + 2, &[0]), (STATE, &[1, 1])]),
            Refusal::Object.at(OBJECTS + 2),
        ),
    ]
}

/// Objects 1 and 2 are banks, 3 is a spot; the step's first two parameters are one
/// bank, and the fourth has an object that is not there.
fn twice_and_missing() -> BookDraft {
    BookDraft {
        moves: vec![[4, 1, 1, 2, 2, 0]],
        ..with([RecordDraft {
            objects: vec![1, 1, 2],
            states: vec![Vec::new(); 2],
            steps: vec![[1, 2, 2, 3, 4]],
        }])
    }
}

fn states_and_steps() -> Vec<Vector> {
    let four = twice_and_missing();
    let four_at = four.layout().records[0].steps[0];
    vec![
        every(
            "8: the first of two wrong facts",
            hall(&[(STATE + 2, &[3]), (STATE + 5, &[4])]),
            Refusal::State.at(STATE + 2),
        ),
        every(
            "8 before 9 of the step after the state",
            hall(&[(STATE + 5, &[3]), (STEP, &[2])]),
            Refusal::State.at(STATE + 5),
        ),
        every(
            "9 before 10: an unused object not 0",
            hall(&[(STEP, &[1, 1, 2, 2, 5])]),
            Refusal::Step.at(STEP),
        ),
        every("9 before 10: a later object wrong", four.bytes(), Refusal::Step.at(four_at)),
        every(
            "10 before 8 of the state after the step",
            hall(&[TWICE, (AFTER + 2, &[9])]),
            Refusal::ObjectTwice.at(STEP),
        ),
    ]
}

fn tails() -> Vec<Vector> {
    let two = with([filed(), filed()]).bytes();
    let second = HEAD + 28;
    let mut tail_and_head = longer(29, &[0], &[(7, &[2])]);
    tail_and_head.extend([17, 0, 0, 6, 0, 0]);
    let end = tail_and_head.len() as u8;
    vec![
        every("10 before 6 of the record's tail", longer(29, &[0], &[TWICE]), {
            Refusal::ObjectTwice.at(STEP)
        }),
        every("8 before 6 of the record's tail", longer(29, &[0], &[(AFTER + 5, &[9])]), {
            Refusal::State.at(AFTER + 5)
        }),
        every("6 of the record's tail before the book's", longer(29, &[0, 0], &[]), {
            Refusal::Record.at(HEAD)
        }),
        every(
            "6 of a record's tail before the next head",
            changed(tail_and_head, &[(15, &[end])]),
            Refusal::Record.at(HEAD),
        ),
        every(
            "10 before 6 of the next head",
            changed(two.clone(), &[TWICE, (second, &[17])]),
            Refusal::ObjectTwice.at(STEP),
        ),
        every(
            "8 of the last state before 7 of the next record",
            changed(two, &[(AFTER + 5, &[9]), (second + 4, &[0])]),
            Refusal::State.at(AFTER + 5),
        ),
    ]
}

fn learning() -> Vec<Vector> {
    let book = with([unbound()]);
    let unbound_at = book.layout().records[0].steps[0];
    let mut behind = book.bytes();
    let length = behind.len();
    behind.push(0);
    let behind = changed(behind, &[(15, &[length as u8 + 1])]);
    let answers = |name, book: Vec<u8>, answer| Vector::new(name, &[Learn, Check], book, answer);
    let conflict = with([filed(), empty_end()]).bytes();
    vec![
        answers("6 of the book's tail before 11", behind, Refusal::Record.at(length)),
        answers("11 before 13", book.bytes(), Refusal::UnboundChange.at(unbound_at))
            .order(m2().bytes())
            .output(127),
        answers("12 before 13", conflict.clone(), Refusal::EffectConflict.at(1))
            .order(m2().bytes())
            .output(127),
        Vector::new("11 before 14", &[Check], book.bytes(), {
            Refusal::UnboundChange.at(unbound_at)
        })
        .output(END_SHEET_LENGTH),
        Vector::new("12 before 14", &[Check], conflict, Refusal::EffectConflict.at(1))
            .output(END_SHEET_LENGTH),
    ]
}
