//! The objects of one record or order, and which facts and steps they make.

use super::kinds::ByKind;
use super::{Move, Signature};
use crate::answer::Refusal;
use crate::limits::{FACT_LENGTH, KIND_LIMIT, OBJECT_LIMIT, RELATION_LIMIT};

/// A set of object numbers as bits; bit 0 stands for "unused".
type Objects = u32;

pub struct Hall {
    /// By kind the objects that suit it; only 0 suits an unused place.
    of_kind: ByKind,
    /// By relation number; a number that is no relation has no suitable object.
    of_relation: [[Objects; 2]; RELATION_LIMIT + 1],
}

impl Hall {
    /// `kinds` are the objects' kinds, all of them good.
    #[must_use]
    pub fn new(signature: &Signature, kinds: &[u8]) -> Self {
        debug_assert!(kinds.len() <= OBJECT_LIMIT);
        let mut own = [0; KIND_LIMIT + 1];
        for (index, &kind) in kinds.iter().enumerate() {
            own[usize::from(kind)] |= 1 << (index + 1);
        }
        let of_kind = signature.parents.gather(own);
        let mut of_relation = [[0; 2]; RELATION_LIMIT + 1];
        for (index, relation) in signature.relations.iter().enumerate() {
            of_relation[index + 1] = relation.kinds.map(|kind| of_kind[usize::from(kind)]);
        }
        Self { of_kind, of_relation }
    }

    /// The form of a fact alone, without its order among others.
    #[must_use]
    pub fn fact_is_good(&self, relation: u8, first: u8, second: u8) -> bool {
        let Some(&[at_first, at_second]) = self.of_relation.get(usize::from(relation)) else {
            return false;
        };
        (first | second) < 32 && (at_first >> first) & (at_second >> second) & 1 == 1
    }

    /// How many facts from the front are good and strictly increase.
    #[must_use]
    pub fn good_facts(&self, facts: &[u8]) -> usize {
        let mut last = 0;
        for (index, fact) in facts.chunks_exact(FACT_LENGTH).enumerate() {
            let key = fact_key(fact);
            if key <= last || !self.fact_is_good(fact[0], fact[1], fact[2]) {
                return index;
            }
            last = key;
        }
        facts.len() / FACT_LENGTH
    }

    /// Rows 9 and 10 for a step's move, by its number, and its objects, the first row
    /// before the second.
    pub fn check_step(
        &self,
        signature: &Signature,
        number: u8,
        objects: &[u8],
    ) -> Result<(), Refusal> {
        let action = move_numbered(signature, number).ok_or(Refusal::Step)?;
        // An array, so that the loop below has a fixed length.
        let &[a, b, c, d] = objects else { return Err(Refusal::Step) };
        let objects = [a, b, c, d];
        for (&object, &kind) in objects.iter().zip(&action.kinds) {
            let suitable = self.of_kind[usize::from(kind)];
            if object >= 32 || suitable >> object & 1 == 0 {
                return Err(Refusal::Step);
            }
        }
        let mut seen: Objects = 0;
        for &object in &objects[..action.parameters] {
            let bit = 1 << object;
            if seen & bit != 0 {
                return Err(Refusal::ObjectTwice);
            }
            seen |= bit;
        }
        Ok(())
    }
}

/// A fact's bytes as one number of the same order.
pub(crate) fn fact_key(fact: &[u8]) -> u32 {
    u32::from_be_bytes([0, fact[0], fact[1], fact[2]])
}

fn move_numbered(signature: &Signature, number: u8) -> Option<&Move> {
    signature.moves.get(usize::from(number).checked_sub(1)?)
}
