//! A test vector, the file that vectors stand in, and the runner. Of this crate
//! it needs the answers and the six calls alone, so that it can be built with
//! any checker.

mod bytes;
mod run;
mod text;

pub use run::{missing, run, Failure};
pub use text::{parse, print};

use crate::answer::Answer;
use crate::calls::{Form, Job};

#[derive(Clone, Debug, PartialEq, Eq)]
pub struct Vector {
    pub name: String,
    /// Each of these calls must give the answer.
    pub jobs: Vec<Job>,
    pub book: Vec<u8>,
    /// What the calls are told of the book; the converters are told nothing.
    pub form: u32,
    pub order: Vec<u8>,
    pub record: Vec<u8>,
    /// The length of the output to lend.
    pub output: usize,
    pub answer: Answer,
    /// The front of the output afterwards; all bytes behind it stay.
    pub after: Vec<u8>,
}

impl Vector {
    /// With nothing but a book; no output is lent.
    pub fn new(name: impl Into<String>, jobs: &[Job], book: Vec<u8>, answer: Answer) -> Self {
        Self {
            name: name.into(),
            jobs: jobs.to_vec(),
            book,
            form: Form::Full.number(),
            order: Vec::new(),
            record: Vec::new(),
            output: 0,
            answer,
            after: Vec::new(),
        }
    }

    /// The form in which a call reads the book.
    #[must_use]
    pub fn form_for(&self, job: Job) -> Form {
        match job.forms() {
            [form] => *form,
            _ if self.form == Form::Full.number() => Form::Full,
            _ => Form::Short,
        }
    }
}
