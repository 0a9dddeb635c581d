//! Kinds under kinds: parents drawn, and which kind suits which by climbing.

use super::BookDraft;
use crate::gen::rng::Rng;

/// Parents for this many kinds; none in one of four books.
pub fn draw_parents(kinds: usize, rng: &mut Rng) -> Vec<u8> {
    let form = rng.below(20);
    let parent = |kind: u8| match form {
        // A chain: the last kind lies below all others.
        5..=9 => kind - 1,
        10 => 0,
        // All below the first.
        11 => u8::from(kind > 1),
        _ => rng.below(usize::from(kind)) as u8,
    };
    match form {
        0..=4 => Vec::new(),
        _ => (1..=kinds as u8).map(parent).collect(),
    }
}

impl BookDraft {
    /// Whether a kind is the one of a place or a parameter, or lies below it. An
    /// unused place, of kind 0, is suited by none.
    #[must_use]
    pub fn suits(&self, mut kind: u8, place: u8) -> bool {
        while kind > place {
            kind = self.parents.get(usize::from(kind) - 1).copied().unwrap_or(0);
        }
        kind == place && place > 0
    }

    /// The kinds that suit this one, in increasing order.
    #[must_use]
    pub fn suiting(&self, place: u8) -> Vec<u8> {
        (1..=self.kinds as u8).filter(|&kind| self.suits(kind, place)).collect()
    }

    /// What may fill a place of this kind, given the kinds of objects or of
    /// parameters: their indices, or nothing but `None` for an unused place.
    pub(in crate::gen) fn fillers(&self, kinds: &[u8], place: u8) -> Vec<Option<usize>> {
        match place {
            0 => vec![None],
            _ => (0..kinds.len()).filter(|&at| self.suits(kinds[at], place)).map(Some).collect(),
        }
    }
}
