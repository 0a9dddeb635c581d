//! Each byte of the small hall, and of M2's order, set to 128 in its turn. No
//! number of theirs may be so large; with a sign it would be below 0, and by its
//! last bits it would be 0. Then objects that are another by their last bits.

use crate::answer::{Answer, Refusal};
use crate::calls::Job;
use crate::vectors::hall::{changed, m2, one_fact, small_hall, story};
use crate::vectors::paper::check;
use crate::vectors::Vector;

const LARGE: u8 = 128;

pub fn all() -> Vec<Vector> {
    let hall = small_hall().bytes();
    let m2 = m2().bytes();
    let books = (0..hall.len()).map(|at| {
        let book = changed(hall.clone(), &[(at, &[LARGE])]);
        Vector::new(
            format!("byte {at} of the small hall is 128"),
            &Job::OF_BOTH_FORMS,
            book,
            in_book(at),
        )
    });
    let orders = (0..m2.len()).map(|at| {
        let order = changed(m2.clone(), &[(at, &[LARGE])]);
        check(&format!("byte {at} of M2's order is 128"), hall.clone(), order, in_order(at))
    });
    books.chain(orders).chain(objects(&hall)).collect()
}

/// An object number whose last four, five or six bits are those of object 1,
/// where object 1 stands, and of 0, where an unused one does.
fn objects(hall: &[u8]) -> Vec<Vector> {
    let mut vectors = Vec::new();
    for (at, new, answer) in [16, 32, 64].into_iter().flat_map(|high| {
        [(40, high + 1), (44, high), (46, high + 1), (49, high)]
            .map(|(at, new)| (at, new, in_book(at)))
    }) {
        let name = format!("byte {at} of the small hall is {new}");
        let book = changed(hall.to_vec(), &[(at, &[new])]);
        vectors.push(Vector::new(name, &Job::OF_BOTH_FORMS, book, answer));
    }
    // A fact of no places, with an object in the one or the other.
    for fact in [1, 32, 128].into_iter().flat_map(|object| [[1, object, 0], [1, 0, object]]) {
        let mut record = story(&[true, false], &[1]);
        record.states[0] = vec![fact];
        let book = one_fact(1, [record]);
        let answer = Refusal::State.at(book.layout().records[0].states[0] + 2);
        let name = format!("8: a fact of no places with objects {} {}", fact[1], fact[2]);
        vectors.push(Vector::new(name, &Job::OF_BOTH_FORMS, book.bytes(), answer));
    }
    vectors
}

/// By the paper's 58 bytes. A state's low count byte leaves 128 facts to be
/// read: those of the first state run into the step, whose first three bytes
/// are out of order, and those of the last past the end.
fn in_book(at: usize) -> Answer {
    let (row, place) = match at {
        0..=7 => (Refusal::HeaderCounts, 0),
        8..=15 => (Refusal::HeaderOffsets, 0),
        16..=19 => (Refusal::Relation, 16),
        20..=23 => (Refusal::Relation, 20),
        24..=29 => (Refusal::Move, 24),
        30..=33 => (Refusal::Record, 30),
        34..=36 => (Refusal::Object, at),
        37 => (Refusal::State, 37),
        38 => (Refusal::State, 45),
        39..=41 => (Refusal::State, 39),
        42..=44 => (Refusal::State, 42),
        45..=49 => (Refusal::Step, 45),
        50 => (Refusal::State, 50),
        51 => (Refusal::State, 58),
        52..=54 => (Refusal::State, 52),
        _ => (Refusal::State, 55),
    };
    row.at(place)
}

/// Four objects from 16, the start's count at 20, three facts from 22, an entry at
/// 31, steps at 35, 40. Byte 3 counts 128 starts, byte 2 32,769; the low byte of
/// the start's count leaves 128 facts, of which the goal cuts the fourth.
fn in_order(at: usize) -> Answer {
    let (row, place) = match at {
        2..=3 => (Refusal::StartCount, 0),
        0..=15 => (Refusal::OrderHeader, 0),
        16..=19 => (Refusal::OrderObject, at),
        20 => (Refusal::Start, 20),
        21 => (Refusal::Start, 31),
        22..=30 => (Refusal::Start, 22 + (at - 22) / 3 * 3),
        31..=34 => (Refusal::GoalEntry, 31),
        35..=39 => (Refusal::PlanStep, 35),
        _ => (Refusal::PlanStep, 40),
    };
    row.at(place)
}
