//! A book beside its twin, which an implementation itself writes in the other form:
//! it must answer both alike, and write the first again from the second.

use super::agreed::Agreed;
use super::lent::Lent;
use crate::answer::Answer;
use crate::calls::{unpacked, Calls, Form, Job};
use crate::limits::BOOK_LIMIT;

/// What `calls` says of the twin and not of the case itself, in words; empty if
/// there is no twin or nothing to say.
pub fn difference(calls: &impl Calls, agreed: &Agreed<'_>) -> String {
    match agreed.case.job {
        Job::ToShort | Job::ToFull if agreed.answer.number == 0 => back(calls, agreed),
        Job::LookOver | Job::Learn | Job::Check => by_twin(calls, agreed),
        _ => String::new(),
    }
}

/// Converting there and back restores the book.
fn back(calls: &impl Calls, agreed: &Agreed<'_>) -> String {
    let Agreed { case, answer, written, .. } = agreed;
    let form = if case.job == Job::ToShort { Form::Short } else { Form::Full };
    let twin = written.get(..answer.place as usize).unwrap_or(written);
    match converted(calls, twin, form) {
        Ok(book) if book == case.book => String::new(),
        Ok(_) => "converted back, another book".into(),
        Err(refusal) => format!("converted back: {refusal}"),
    }
}

/// Refused books have no twin.
fn by_twin(calls: &impl Calls, agreed: &Agreed<'_>) -> String {
    let case = agreed.case;
    let form = if case.form == 0 { Form::Full } else { Form::Short };
    let Ok(twin) = converted(calls, &case.book, form) else { return String::new() };
    let told = form.other().number();
    let mut lent = Lent::new(case.output, agreed.fill);
    let said = unpacked(case.job.run(calls, &twin, told, &case.other, lent.theirs()));
    agreed.unlike("in the other form", said, lent.theirs())
}

/// What a call writes for a book of this form.
fn converted(calls: &impl Calls, book: &[u8], form: Form) -> Result<Vec<u8>, Answer> {
    let mut out = vec![0; BOOK_LIMIT];
    let answer = unpacked(match form {
        Form::Full => calls.to_short(book, &mut out),
        Form::Short => calls.to_full(book, &mut out),
    });
    if answer.number != 0 {
        return Err(answer);
    }
    out.truncate(answer.place as usize);
    Ok(out)
}
