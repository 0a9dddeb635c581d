//! A case that two implementations answer alike, to be held to what the other one says
//! of a book that means the same.

use crate::answer::Answer;
use crate::gen::JobCase;

pub struct Agreed<'a> {
    pub case: &'a JobCase,
    pub answer: Answer,
    /// The output after the case, which `fill` was lent with.
    pub written: &'a [u8],
    pub fill: u8,
}

impl Agreed<'_> {
    /// What is said and written otherwise for a book that means the same, in words;
    /// else empty. Number, position and bytes must be those of the case, and the place
    /// too but for that of 11 and 28, which is an offset in the book.
    pub fn unlike(&self, which: &str, said: Answer, written: &[u8]) -> String {
        let place = if self.answer.is_at_step() { said.place } else { self.answer.place };
        if said != (Answer { place, ..self.answer }) {
            return format!("the other one says of the book {which}: {said}");
        }
        if written != self.written {
            return format!("the other one writes other bytes for the book {which}");
        }
        String::new()
    }
}
