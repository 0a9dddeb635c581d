//! The small hall's record, and with it the book, cut behind each of its bytes:
//! decision D2, the place of a thing that is cut.

use crate::answer::Refusal;
use crate::calls::Job;
use crate::vectors::hall::{changed, small_hall, AFTER, HEAD, STATE, STEP};
use crate::vectors::Vector;

/// The record of the small hall, and with it the book, cut at `end`.
fn cut(end: usize) -> Vec<u8> {
    let ends: [(usize, &[u8]); 2] = [(15, &[end as u8]), (HEAD + 3, &[(end - HEAD) as u8])];
    let mut book = changed(small_hall().bytes(), &ends);
    book.truncate(end);
    book
}

/// A thing is cut: its place is where it begins, however much of it is there.
pub fn all() -> Vec<Vector> {
    (HEAD + 4..58)
        .map(|end| {
            let (row, place) = match end {
                34..=36 => (Refusal::Object, end),
                37..=38 => (Refusal::State, STATE),
                39..=44 => (Refusal::State, STATE + 2 + (end - STATE - 2) / 3 * 3),
                45..=49 => (Refusal::Step, STEP),
                50..=51 => (Refusal::State, AFTER),
                _ => (Refusal::State, AFTER + 2 + (end - AFTER - 2) / 3 * 3),
            };
            Vector::new(format!("cut at {end}"), &Job::OF_BOTH_FORMS, cut(end), row.at(place))
        })
        .collect()
}
