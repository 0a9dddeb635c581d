//! What is learned of each lifted atom from its values before and after each step of
//! its move that went; rows 11, 12 and 28.

use super::atom::{atoms, Atom};
use crate::answer::{Answer, Refusal};
use crate::calls::Form;
use crate::gen::draft::{action, went};
use crate::gen::{BookDraft, Fact};

/// What is learned of one lifted atom of a move.
pub(super) struct Rule {
    pub(super) atom: Atom,
    pub(super) pre_pos: bool,
    pub(super) pre_neg: bool,
    pub(super) add: bool,
    pub(super) delete: bool,
}

/// The rules of one move, one for each of its atoms.
pub(super) type Rules = Vec<Rule>;

/// The rules of each move, or the refusal with its place in the book as it is written
/// in this form. The draft is full.
pub(super) fn model(book: &BookDraft, form: Form) -> Result<Vec<Rules>, Answer> {
    let of_move: Vec<Vec<Atom>> = book.moves.iter().map(|entry| atoms(book, entry)).collect();
    if let Some(place) = unbound_change(book, form, &of_move) {
        return Err(Refusal::UnboundChange.at(place));
    }
    let rules = |(number, atoms): (usize, Vec<Atom>)| {
        let learned = atoms.into_iter().map(|atom| learned(book, number, atom));
        learned.collect::<Option<Rules>>().ok_or(Refusal::EffectConflict.at(number))
    };
    let model: Vec<Rules> = (1..).zip(of_move).map(rules).collect::<Result<_, _>>()?;
    match needs_met(book, form, &model) {
        Some(place) => Err(Refusal::NeedsMet.at(place)),
        None => Ok(model),
    }
}

/// Where the first step stands that did not go, though what is learned of each atom was
/// met in the state before it: row 28.
fn needs_met(book: &BookDraft, form: Form, model: &[Rules]) -> Option<usize> {
    for (record, layout) in book.records.iter().zip(book.in_form(form).layout().records) {
        for (index, step) in record.steps.iter().enumerate().filter(|(_, step)| !went(step)) {
            let before = &record.states[index];
            if model[action(step)].iter().all(|rule| rule.is_met(step, before)) {
                return Some(layout.steps[index]);
            }
        }
    }
    None
}

/// Where the first step stands that changes a fact which no atom of its move gives:
/// row 11.
fn unbound_change(book: &BookDraft, form: Form, of_move: &[Vec<Atom>]) -> Option<usize> {
    for (record, layout) in book.records.iter().zip(book.in_form(form).layout().records) {
        for (index, step) in record.steps.iter().enumerate().filter(|(_, step)| went(step)) {
            let (before, after) = (&record.states[index], &record.states[index + 1]);
            let bound: Vec<Fact> =
                of_move[action(step)].iter().map(|atom| atom.fact(step)).collect();
            let changed = |fact: &&Fact| before.contains(fact) != after.contains(fact);
            if before.iter().chain(after).filter(changed).any(|fact| !bound.contains(fact)) {
                return Some(layout.steps[index]);
            }
        }
    }
    None
}

/// The atom's rule in the move of this number; `None` if its values conflict.
fn learned(book: &BookDraft, number: usize, atom: Atom) -> Option<Rule> {
    let values = values(book, number, &atom);
    (!conflict(&values)).then(|| Rule {
        atom,
        pre_pos: values.iter().all(|&(before, _)| before),
        pre_neg: values.iter().all(|&(before, _)| !before),
        add: values.contains(&(false, true)),
        delete: values.contains(&(true, false)),
    })
}

/// The atom's values before and after each step of the move of this number that went.
fn values(book: &BookDraft, number: usize, atom: &Atom) -> Vec<(bool, bool)> {
    let mut values = Vec::new();
    for record in &book.records {
        for (at, step) in record.steps.iter().enumerate() {
            if went(step) && action(step) + 1 == number {
                let fact = atom.fact(step);
                let holds = |state: usize| record.states[state].contains(&fact);
                values.push((holds(at), holds(at + 1)));
            }
        }
    }
    values
}

/// Changed to a value by one step, and of the other after another: row 12.
fn conflict(values: &[(bool, bool)]) -> bool {
    [true, false].into_iter().any(|value| {
        let changed_to = values.contains(&(!value, value));
        changed_to && values.iter().any(|&(_, after)| after != value)
    })
}
