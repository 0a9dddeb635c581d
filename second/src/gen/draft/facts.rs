//! Facts of good form over given objects.

use super::{BookDraft, Fact};
use crate::gen::rng::Rng;

/// A well-formed fact, if the objects drawn have the kinds for one.
pub fn random_fact(book: &BookDraft, objects: &[u8], rng: &mut Rng) -> Option<Fact> {
    let index = (!book.relations.is_empty()).then(|| rng.below(book.relations.len()))?;
    let places = book.relations[index];
    let mut object = |kind: u8| rng.pick(&book.fillers(objects, kind)).copied().map(number);
    Some([index as u8 + 1, object(places[1])?, object(places[2])?])
}

/// Every well-formed fact, in increasing order.
pub fn all_facts(book: &BookDraft, objects: &[u8]) -> Vec<Fact> {
    let mut facts = Vec::new();
    for (relation, entry) in (1..).zip(&book.relations) {
        let seconds = book.fillers(objects, entry[2]);
        for first in book.fillers(objects, entry[1]) {
            facts.extend(seconds.iter().map(|&second| [relation, number(first), number(second)]));
        }
    }
    facts
}

/// An object from 1; 0 for an unused place.
fn number(object: Option<usize>) -> u8 {
    object.map_or(0, |index| index as u8 + 1)
}
