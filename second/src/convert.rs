//! A book written in the other form.

use crate::answer::{Answer, Refusal};
use crate::calls::Form;
use crate::form::{self, Observer, States, Transition};
use crate::limits::{BOOK_LIMIT, COUNT_LENGTH, FACT_LENGTH};

/// Reads a full book; on success the short one is in front of the output.
pub fn to_short(book: &[u8], output: &mut [u8]) -> Answer {
    convert(book, Form::Full, output)
}

/// Reads a short book; on success the full one is in front of the output.
pub fn to_full(book: &[u8], output: &mut [u8]) -> Answer {
    convert(book, Form::Short, output)
}

/// Rows 1 to 10, 21, 24 and 27, then 23 and 13; success has the new length as its place.
fn convert(book: &[u8], form: Form, output: &mut [u8]) -> Answer {
    let mut records = Records::default();
    let front = match form::walk(book, form, &mut records) {
        Ok(front) => front,
        Err(refusal) => return refusal,
    };
    let records_at = front.header.records_at;
    let length = records_at + records.bytes.len();
    if length > BOOK_LIMIT {
        return Refusal::ConvertedLength.at(0);
    }
    let Some(output) = output.get_mut(..length) else {
        return Refusal::Output.at(0);
    };
    output[..records_at].copy_from_slice(&book[..records_at]);
    output[records_at..].copy_from_slice(&records.bytes);
    put_number(output, 14, length);
    Answer::success(length)
}

/// The records in the other form, one behind another. Lengths are of two bytes:
/// a record with one that these do not hold is in no book.
#[derive(Default)]
struct Records {
    bytes: Vec<u8>,
    /// Where the last of them begins.
    at: usize,
    /// The facts of the state before, while a short book is read.
    state: Vec<u8>,
}

impl Observer for Records {
    fn begin_record(&mut self, front: &[u8], first: &[u8]) {
        self.at = self.bytes.len();
        self.bytes.extend_from_slice(front);
        self.bytes.extend_from_slice(first);
        self.state.clear();
        self.state.extend_from_slice(first);
    }

    fn observe(&mut self, transition: &Transition<'_>) {
        self.bytes.extend_from_slice(transition.step);
        let count_at = self.bytes.len();
        self.bytes.extend_from_slice(&[0; COUNT_LENGTH]);
        let facts_at = self.bytes.len();
        match transition.states {
            States::Listed { before, after } => push_unshared(&mut self.bytes, before, after),
            States::Turned { turned, .. } => {
                push_unshared(&mut self.bytes, &self.state, turned);
                self.state.clear();
                self.state.extend_from_slice(&self.bytes[facts_at..]);
            }
        }
        let count = (self.bytes.len() - facts_at) / FACT_LENGTH;
        put_number(&mut self.bytes, count_at, count);
    }

    fn end_record(&mut self) {
        let length = self.bytes.len() - self.at;
        put_number(&mut self.bytes, self.at + 2, length);
    }
}

/// The facts of one of the two lists alone, in order. Of the states before and
/// after these are the facts that turn; of the state before and the facts that
/// turn, the state after.
fn push_unshared(bytes: &mut Vec<u8>, one: &[u8], two: &[u8]) {
    let (one, _) = one.as_chunks::<FACT_LENGTH>();
    let (two, _) = two.as_chunks::<FACT_LENGTH>();
    let (mut at, mut to) = (0, 0);
    while at < one.len() && to < two.len() {
        let (left, right) = (one[at], two[to]);
        if left == right {
            at += 1;
            to += 1;
        } else if left < right {
            bytes.extend_from_slice(&left);
            at += 1;
        } else {
            bytes.extend_from_slice(&right);
            to += 1;
        }
    }
    bytes.extend_from_slice(one[at..].as_flattened());
    bytes.extend_from_slice(two[to..].as_flattened());
}

fn put_number(bytes: &mut [u8], at: usize, number: usize) {
    bytes[at..at + 2].copy_from_slice(&(number as u16).to_be_bytes());
}
