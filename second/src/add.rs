//! Adding a record to a book.

use crate::answer::{Answer, Refusal};
use crate::calls::Form;
use crate::form;
use crate::limits::{BOOK_LIMIT, RECORD_LIMIT};

/// Looks over the old book, then the new one, then the output's length. On
/// success the new book is written to the front of `output`. The record is in the
/// book's form.
///
/// The new book differs from the good old one in its record count, its end and
/// the bytes behind. The rows before the new record therefore cannot be met
/// again, but for the record count, and only the new record is walked.
pub fn add(book: &[u8], form: Form, record: &[u8], output: &mut [u8]) -> Answer {
    let front = match form::walk(book, form, &mut ()) {
        Ok(front) => front,
        Err(refusal) => return refusal,
    };
    let length = book.len() + record.len();
    if length > BOOK_LIMIT {
        return Refusal::Length.at(0);
    }
    let records = front.header.records + 1;
    if records > RECORD_LIMIT {
        return Refusal::HeaderCounts.at(0);
    }
    let new = renewed(book, record, records);
    let walked = form::walk_records(&new, form, &front.signature, book.len(), 1, &mut ());
    if let Err(refusal) = walked {
        return refusal;
    }
    let Some(output) = output.get_mut(..length) else {
        return Refusal::Output.at(0);
    };
    output.copy_from_slice(&new);
    Answer::success(length)
}

/// The old book with the record behind it, record count and end renewed.
#[must_use]
pub fn renewed(book: &[u8], record: &[u8], records: usize) -> Vec<u8> {
    let mut new = [book, record].concat();
    let end = new.len() as u16;
    new[6..8].copy_from_slice(&(records as u16).to_be_bytes());
    new[14..16].copy_from_slice(&end.to_be_bytes());
    new
}
