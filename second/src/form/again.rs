//! The steps that did not go, in a good book's records walked again: what is asked of
//! them must wait until all records were walked.

use super::record::went;
use super::state::State;
use super::{two_bytes, Header, Transition};
use crate::calls::Form;
use crate::limits::{COUNT_LENGTH, FACT_LENGTH, HEAD_LENGTH, STEP_LENGTH};

/// The offset of the first step that did not go and is wanted. The book is of good form,
/// and `records` has the bits of those, from 0, that have steps which did not go.
pub fn find_inapplicable(
    book: &[u8],
    form: Form,
    header: &Header,
    mut records: u64,
    mut is_wanted: impl FnMut(&Transition<'_>) -> bool,
) -> Option<usize> {
    let mut at = header.records_at;
    while records != 0 {
        if records & 1 == 1 {
            let found = find_in_record(book, form, at, &mut is_wanted);
            if found.is_some() {
                return found;
            }
        }
        records >>= 1;
        at += two_bytes(book, at + 2);
    }
    None
}

fn find_in_record(
    book: &[u8],
    form: Form,
    at: usize,
    is_wanted: &mut impl FnMut(&Transition<'_>) -> bool,
) -> Option<usize> {
    let (objects, steps) = (usize::from(book[at]), book[at + 1]);
    let mut cursor = at + HEAD_LENGTH + objects;
    let mut state = State::first(form, facts(book, &mut cursor));
    for _ in 0..steps {
        let step_at = cursor;
        let step = &book[step_at..step_at + STEP_LENGTH];
        cursor += STEP_LENGTH;
        let states = state.next(facts(book, &mut cursor))?;
        if !went(step) && is_wanted(&Transition { step_at, step, states }) {
            return Some(step_at);
        }
    }
    None
}

/// The facts of the list at `cursor`.
fn facts<'a>(book: &'a [u8], cursor: &mut usize) -> &'a [u8] {
    let from = *cursor + COUNT_LENGTH;
    *cursor = from + FACT_LENGTH * two_bytes(book, *cursor);
    &book[from..*cursor]
}
