//! What the two programs print. They read full books.

use std::fmt::Write;

use crate::answer::Answer;
use crate::calls::Form;
use crate::check::check;
use crate::learn::{ActionModel, Rules};
use crate::limits::END_SHEET_LENGTH;

/// The most that a program reads of an input: one byte over a book's limit.
pub const READ_LIMIT: usize = crate::limits::BOOK_LIMIT + 1;

/// The output of the program that prints the rules of a book.
#[must_use]
pub fn rules(book: &[u8]) -> String {
    let model = match ActionModel::learn(book, Form::Full) {
        Ok(model) => model,
        Err(refusal) => return refused(refusal),
    };
    let front = &model.front;
    let (moves, records) = (model.actions.len(), front.header.records);
    let mut text = format!("moves {moves} records {records} steps {}\n", front.steps);
    for (number, rules) in (1..).zip(&model.actions) {
        for atom in rules.atoms.atoms() {
            let (relation, first, second) = (atom / 16, atom / 4 % 4 + 1, atom % 4 + 1);
            let places = front.signature.relations[relation].places;
            let first = if places > 0 { first } else { 0 };
            let second = if places > 1 { second } else { 0 };
            let (need, effect) = letters(rules, atom);
            writeln!(text, "{number} {} {first} {second} {need} {effect}", relation + 1)
                .expect("a string takes all that is written");
        }
    }
    text
}

/// The output of the program that checks a plan.
#[must_use]
pub fn plan(book: &[u8], order: &[u8]) -> String {
    match check(book, Form::Full, order, &mut [0; END_SHEET_LENGTH]) {
        Answer { number: 0, place, .. } => format!("passes {place}\n"),
        refusal => refused(refusal),
    }
}

fn refused(refusal: Answer) -> String {
    format!("refused {} {}\n", refusal.number, refusal.place)
}

fn letters(rules: &Rules, atom: usize) -> (char, char) {
    let need = match (rules.pre_pos.contains(atom), rules.pre_neg.contains(atom)) {
        (true, true) => 'B',
        (true, false) => 'H',
        (false, true) => 'N',
        (false, false) => 'F',
    };
    let effect = match (rules.add.contains(atom), rules.delete.contains(atom)) {
        (true, _) => 'A',
        (_, true) => 'R',
        _ => 'K',
    };
    (need, effect)
}
