//! Calls that one function makes: wrong implementations for the tests.

use crate::calls::{Calls, Job};

/// What a function is given: the call, and what [`Job::run`] takes.
pub struct By<F>(pub F);

impl<F: Fn(Job, &[u8], u32, &[u8], &mut [u8]) -> u64> Calls for By<F> {
    fn look_over(&self, book: &[u8], form: u32) -> u64 {
        self.0(Job::LookOver, book, form, &[], &mut [])
    }

    fn learn(&self, book: &[u8], form: u32, sheet: &mut [u8]) -> u64 {
        self.0(Job::Learn, book, form, &[], sheet)
    }

    fn check(&self, book: &[u8], form: u32, order: &[u8], end: &mut [u8]) -> u64 {
        self.0(Job::Check, book, form, order, end)
    }

    fn add(&self, book: &[u8], form: u32, record: &[u8], out: &mut [u8]) -> u64 {
        self.0(Job::Add, book, form, record, out)
    }

    fn to_short(&self, book: &[u8], out: &mut [u8]) -> u64 {
        self.0(Job::ToShort, book, 0, &[], out)
    }

    fn to_full(&self, book: &[u8], out: &mut [u8]) -> u64 {
        self.0(Job::ToFull, book, 1, &[], out)
    }
}
