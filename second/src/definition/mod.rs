//! Learning and checking by the paper's words: lifted atom by lifted atom, step by
//! step and fact by fact, for halls of any size.
//!
//! It is slow and simple. It takes drafts of good form, and uses nothing of the
//! implementation but its answers; the rules are learned, where the judge enumerates
//! all that fit.

mod atom;
mod execution;
mod learning;
mod sheets;

pub use sheets::end_sheet;

use crate::answer::Answer;
use crate::calls::Form;
use crate::gen::{BookDraft, OrderDraft};
use learning::model;

/// What a call must answer, and the bytes that it must write, if any.
#[derive(Debug)]
pub struct Defined {
    pub answer: Answer,
    pub written: Option<Vec<u8>>,
}

impl Defined {
    fn refused(answer: Answer) -> Self {
        Self { answer, written: None }
    }
}

/// Learning from a book that is drafted full and written in this form, with a sheet
/// of the right length.
#[must_use]
pub fn learn(book: &BookDraft, form: Form) -> Defined {
    match model(book, form) {
        Err(refused) => Defined::refused(refused),
        Ok(model) => Defined {
            answer: Answer::success(book.steps()),
            written: Some(sheets::rule_sheet(&model)),
        },
    }
}

/// Checking an order by such a book, with an end sheet of the right length.
#[must_use]
pub fn check(book: &BookDraft, form: Form, order: &OrderDraft) -> Defined {
    match model(book, form) {
        Err(refused) => Defined::refused(refused),
        Ok(model) => execution::check(&model, order),
    }
}
