//! Runs vectors on an implementation.

use std::fmt;

use super::Vector;
use crate::answer::Answer;
use crate::calls::{unpacked, Calls, Form, Job};

pub struct Failure {
    pub name: String,
    pub job: Job,
    pub expected: Answer,
    pub given: u64,
    /// The first output byte that is wrong, if any.
    pub wrong_byte: Option<usize>,
}

impl fmt::Display for Failure {
    fn fmt(&self, f: &mut fmt::Formatter<'_>) -> fmt::Result {
        let Self { name, expected, given, .. } = self;
        let call = self.job.name();
        write!(f, "{name}: {call} gave {} ({given:#018x})", unpacked(*given))?;
        write!(f, ", expected {expected}")?;
        match self.wrong_byte {
            Some(at) => write!(f, "; output byte {at} is wrong"),
            None => Ok(()),
        }
    }
}

/// Runs every call of every vector; answers how many there were, and what failed.
pub fn run(vectors: &[Vector], calls: &(impl Calls + ?Sized)) -> (usize, Vec<Failure>) {
    let mut runs = 0;
    let mut failures = Vec::new();
    for vector in vectors {
        for &job in &vector.jobs {
            runs += 1;
            failures.extend(run_one(vector, job, calls));
        }
    }
    (runs, failures)
}

fn run_one(vector: &Vector, job: Job, calls: &(impl Calls + ?Sized)) -> Option<Failure> {
    let other = if job == Job::Check { &vector.order } else { &vector.record };
    // Two fills, so that a byte written with its old value is found once.
    for fill in [0x00, 0xff] {
        let before: Vec<u8> = (0..vector.output).map(|at| (at as u8) ^ fill).collect();
        let mut output = before.clone();
        let given = job.run(calls, &vector.book, vector.form, other, &mut output);
        let expected = vector.after.iter().chain(before.iter().skip(vector.after.len()));
        let wrong_byte = output.iter().zip(expected).position(|(is, should)| is != should);
        if given != vector.answer.packed() || wrong_byte.is_some() {
            let (name, expected) = (vector.name.clone(), vector.answer);
            return Some(Failure { name, job, expected, given, wrong_byte });
        }
    }
    None
}

/// The calls, forms of a book and numbers that no vector has.
#[must_use]
pub fn missing(vectors: &[Vector]) -> Vec<(Job, Form, u32)> {
    let has = |&(job, form, number): &(Job, Form, u32)| {
        vectors.iter().any(|vector| {
            vector.answer.number == number
                && vector.jobs.contains(&job)
                && vector.form_for(job) == form
        })
    };
    let forms = |job: Job| job.forms().iter().map(move |&form| (job, form));
    let numbers =
        |(job, form): (Job, Form)| job.numbers().into_iter().map(move |number| (job, form, number));
    let all = Job::ALL.into_iter().flat_map(forms).flat_map(numbers);
    all.filter(|wanted| !has(wanted)).collect()
}
