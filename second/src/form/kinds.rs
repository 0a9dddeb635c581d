//! Kinds (types) under kinds: row 21, and what suits which kind.

use super::Header;
use crate::answer::{Answer, Refusal};
use crate::limits::{HEADER_LENGTH, KIND_LIMIT};

/// A set of objects or of parameters, as bits, for each kind. Kind 0 is that of
/// an unused place.
pub type ByKind = [u32; KIND_LIMIT + 1];

pub struct Parents {
    /// By kind; 0 for none.
    of_kind: [u8; KIND_LIMIT + 1],
    /// The last kind that has a parent; 0 if none has.
    last: usize,
}

impl Parents {
    /// Row 21. No byte lies between header and relations if these begin at 16.
    pub fn read(book: &[u8], header: &Header) -> Result<Self, Answer> {
        let mut parents = Self { of_kind: [0; KIND_LIMIT + 1], last: 0 };
        let section = &book[HEADER_LENGTH..header.relations_at];
        for (index, &parent) in section.iter().enumerate() {
            let (kind, at) = (index + 1, HEADER_LENGTH + index);
            if usize::from(parent) >= kind {
                return Err(Refusal::Parent.at(at));
            }
            parents.of_kind[kind] = parent;
            if parent > 0 {
                parents.last = kind;
            }
        }
        Ok(parents)
    }

    /// Takes what is of each kind itself, and answers what suits each kind: its
    /// own and all that lies below it. Bit 0 alone suits an unused place.
    #[must_use]
    pub fn gather(&self, mut sets: ByKind) -> ByKind {
        // A parent is a smaller number, so a kind has all of its own before it
        // hands that on.
        for kind in (1..=self.last).rev() {
            sets[usize::from(self.of_kind[kind])] |= sets[kind];
        }
        sets[0] = 1;
        sets
    }
}
