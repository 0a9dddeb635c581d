//! Test vectors for any implementation: marked cases, limits, a case for each
//! refusal and each fault that a row of the table names, and cases in which two
//! rows are met.
//!
//! The expected answers come from the paper, by hand, or from where a fault was
//! put (`rows/aimed.rs`), and never from this implementation.

mod adding;
mod bytes;
pub mod file;
mod further;
mod hall;
mod inapplicable;
mod kinds;
mod limits;
mod no_steps;
mod paper;
mod rows;
mod sequence;
mod short;
mod starts;

pub use file::{missing, parse, print, run, Failure, Vector};

use crate::calls::{Form, Job};

/// What the makers put into a vector.
impl Vector {
    fn form(mut self, form: u32) -> Self {
        self.form = form;
        self
    }

    fn order(mut self, order: Vec<u8>) -> Self {
        self.order = order;
        self
    }

    fn record(mut self, record: Vec<u8>) -> Self {
        self.record = record;
        self
    }

    fn output(mut self, length: usize) -> Self {
        self.output = length;
        self
    }

    fn after(mut self, bytes: Vec<u8>) -> Self {
        self.after = bytes;
        self
    }
}

/// All vectors, in the order of the file.
#[must_use]
pub fn all() -> Vec<Vector> {
    let mut vectors = full_books();
    vectors.extend(short_books());
    vectors.extend(no_steps::books::all());
    vectors.extend(no_steps::calls::all());
    vectors.extend(sequence::permuted::all());
    vectors.extend(inapplicable::all());
    vectors
}

fn full_books() -> Vec<Vector> {
    let mut vectors = paper::marked();
    vectors.extend(paper::decisions());
    vectors.extend(paper::limits());
    vectors.extend(rows::alone::learning());
    vectors.extend(rows::alone::outputs());
    vectors.extend(rows::alone::plans());
    vectors.extend(rows::alone::plans_without_places());
    vectors.extend(limits::many::plans());
    vectors.extend(limits::largest::all());
    vectors.extend(bytes::offsets::all());
    vectors.extend(bytes::each_byte::all());
    vectors.extend(bytes::cuts::all());
    vectors.extend(rows::both::all());
    vectors.extend(rows::both_orders::all());
    vectors.extend(rows::lent::all());
    vectors.extend(starts::plans::all());
    vectors.extend(starts::counts::all());
    vectors.extend(starts::form::all());
    vectors.extend(adding::all());
    vectors.extend(further::all());
    vectors.extend(kinds::parents::all());
    vectors.extend(kinds::wagon::all());
    vectors.extend(kinds::wagon_learning::all());
    vectors.extend(kinds::wagon_plans::all());
    vectors.extend(kinds::families::all());
    vectors.extend(rows::aimed::books());
    vectors.extend(rows::aimed::orders());
    vectors.extend(rows::aimed::additions());
    vectors.extend(short::carried::all());
    vectors
}

/// Short books, and books to be converted.
fn short_books() -> Vec<Vector> {
    let mut vectors = short::hall::all();
    vectors.extend(rows::lent::short());
    vectors.extend(short::states::all());
    vectors.extend(short::twins::of(&twinned()));
    vectors.extend(short::adding::all());
    vectors.extend(short::converting::all());
    vectors.extend(short::converted_lengths::all());
    vectors.extend(rows::aimed::short_books());
    vectors
}

/// The vectors of full books that have short twins.
fn twinned() -> Vec<Vector> {
    let learned = rows::alone::learning().into_iter().chain(kinds::wagon_learning::all());
    learned
        .chain(kinds::families::all())
        .chain(limits::largest::all())
        .chain(short::carried::all())
        .collect()
}

/// Every call that reads a book of this form.
const fn jobs(form: Form) -> [Job; 5] {
    let converter = match form {
        Form::Full => Job::ToShort,
        Form::Short => Job::ToFull,
    };
    [Job::LookOver, Job::Learn, Job::Check, Job::Add, converter]
}

/// The book with the record behind it, its record count and end renewed.
fn added(book: &[u8], record: &[u8], records: usize) -> Vec<u8> {
    let mut new = [book, record].concat();
    let end = new.len();
    crate::gen::draft::put_number(&mut new, 6, records);
    crate::gen::draft::put_number(&mut new, 14, end);
    new
}
