//! The cases of each call, on books of one form.

pub mod addition;
mod checking;
mod converting;
mod learning;
pub mod mixed;

use super::aim::Label;
use super::JobCase;
use crate::calls::{Form, Job};
use addition::AddStream;
use checking::CheckStream;
use converting::ConvertStream;
use learning::LearnStream;
use mixed::BookStream;

pub enum JobStream {
    LookOver(BookStream),
    Learn(LearnStream),
    Check(CheckStream),
    Add(AddStream),
    Convert(ConvertStream),
}

impl JobStream {
    /// A converter has the form that it reads, whatever is given.
    #[must_use]
    pub fn new(job: Job, form: Form, seed: u64) -> Self {
        match job {
            Job::LookOver => Self::LookOver(BookStream::new(form, seed)),
            Job::Learn => Self::Learn(LearnStream::new(form, seed)),
            Job::Check => Self::Check(CheckStream::new(form, seed)),
            Job::Add => Self::Add(AddStream::new(form, seed)),
            Job::ToShort => Self::Convert(ConvertStream::new(Form::Full, seed)),
            Job::ToFull => Self::Convert(ConvertStream::new(Form::Short, seed)),
        }
    }

    /// What must be met often: every aimed label.
    #[must_use]
    pub fn labels(&self) -> Vec<Label> {
        match self {
            Self::LookOver(stream) => stream.labels(),
            Self::Learn(_) => Vec::new(),
            Self::Check(stream) => stream.labels(),
            Self::Add(stream) => stream.labels(),
            Self::Convert(stream) => stream.labels(),
        }
    }

    /// The case of this index, the same for the same seed.
    #[must_use]
    pub fn case(&self, index: usize) -> JobCase {
        match self {
            Self::LookOver(stream) => stream.case(index).into(),
            Self::Learn(stream) => stream.case(index),
            Self::Check(stream) => stream.case(index),
            Self::Add(stream) => stream.case(index),
            Self::Convert(stream) => stream.case(index),
        }
    }
}
