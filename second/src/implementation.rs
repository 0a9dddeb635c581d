//! The six calls of this implementation.

use crate::calls::{Calls, Form};
use crate::{add, check, convert, form, learn};

pub struct Second;

impl Calls for Second {
    fn look_over(&self, book: &[u8], form: u32) -> u64 {
        form::look_over(book, told(form)).packed()
    }

    fn learn(&self, book: &[u8], form: u32, sheet: &mut [u8]) -> u64 {
        learn::learn(book, told(form), sheet).packed()
    }

    fn check(&self, book: &[u8], form: u32, order: &[u8], end: &mut [u8]) -> u64 {
        check::check(book, told(form), order, end).packed()
    }

    fn add(&self, book: &[u8], form: u32, record: &[u8], out: &mut [u8]) -> u64 {
        add::add(book, told(form), record, out).packed()
    }

    fn to_short(&self, book: &[u8], out: &mut [u8]) -> u64 {
        convert::to_short(book, out).packed()
    }

    fn to_full(&self, book: &[u8], out: &mut [u8]) -> u64 {
        convert::to_full(book, out).packed()
    }
}

/// The form that a call is told.
const fn told(form: u32) -> Form {
    match form {
        0 => Form::Full,
        _ => Form::Short,
    }
}
