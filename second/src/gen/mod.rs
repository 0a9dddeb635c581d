//! Seeded generators of books, records and orders: good, damaged and extreme. A
//! book is drawn full and may then be written short.
//!
//! Nothing here rests on the code under test. A damaged case carries the answer
//! that its fault must bring, worked out from where the fault was put.

pub mod aim;
pub mod draft;
pub mod extreme;
pub mod faults;
pub mod hall;
pub mod plan;
pub mod rng;
pub mod stream;

pub use aim::{Aim, Hit, Label};
pub use draft::{BookDraft, Fact, OrderDraft, RecordDraft, Step};
pub use rng::Rng;

use crate::answer::Answer;
use crate::calls::Job;

/// A book with what was aimed at. `aimed` is the answer that looking over must
/// give, where the generator knows it.
pub struct BookCase {
    pub label: Label,
    pub book: Vec<u8>,
    /// What the call is told of the book.
    pub form: u32,
    pub aimed: Option<Answer>,
}

/// All that one call is given. `aimed` is the answer that it must give, where
/// the generator knows it.
pub struct JobCase {
    pub job: Job,
    pub label: Label,
    pub aimed: Option<Answer>,
    pub book: Vec<u8>,
    /// What the call is told of the book; no converter is told anything.
    pub form: u32,
    /// The order or the record; empty for a call that takes none.
    pub other: Vec<u8>,
    /// The length of the output lent; 0 for a call that takes none.
    pub output: usize,
}

impl From<BookCase> for JobCase {
    /// The book to be looked over.
    fn from(case: BookCase) -> Self {
        let BookCase { label, book, form, aimed } = case;
        Self { job: Job::LookOver, label, aimed, book, form, other: Vec::new(), output: 0 }
    }
}
