//! The lifted atoms of a move, by trying every pair of parameters.

use crate::gen::{BookDraft, Fact, Step};

/// A relation with a parameter in each place.
pub(super) struct Atom {
    /// Its number in a set of the rule sheet.
    pub(super) n: usize,
    relation: u8,
    /// From 1; 0 for an unused place.
    parameters: [usize; 2],
}

impl Atom {
    /// The fact that it is with the step's objects for the parameters.
    pub(super) fn fact(&self, step: &Step) -> Fact {
        let object = |parameter: usize| if parameter == 0 { 0 } else { step[parameter] };
        [self.relation, object(self.parameters[0]), object(self.parameters[1])]
    }
}

/// The atoms of a move with this entry, by their numbers.
pub(super) fn atoms(book: &BookDraft, entry: &[u8; 6]) -> Vec<Atom> {
    let mut atoms = Vec::new();
    for (relation, kinds) in (1u8..).zip(&book.relations) {
        for first in fillers(book, entry, kinds[1]) {
            for second in fillers(book, entry, kinds[2]) {
                let from_zero = |number: usize| number.max(1) - 1;
                let n = 16 * (usize::from(relation) - 1) + 4 * from_zero(first) + from_zero(second);
                atoms.push(Atom { n, relation, parameters: [first, second] });
            }
        }
    }
    atoms
}

/// The parameters, from 1, that may fill a place of this kind; 0 alone for an unused
/// place.
fn fillers(book: &BookDraft, entry: &[u8; 6], kind: u8) -> Vec<usize> {
    match kind {
        0 => vec![0],
        _ => (1..=usize::from(entry[0])).filter(|&of| book.suits(entry[of], kind)).collect(),
    }
}
