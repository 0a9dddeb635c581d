//! What a damaged case is aimed at.

use std::fmt;

use super::rng::Rng;
use crate::answer::{Answer, Refusal};

/// Names a kind of case in a tally: the part of the format and what is wrong.
#[derive(Clone, Copy, Debug, PartialEq, Eq, PartialOrd, Ord, Hash)]
pub struct Label {
    pub part: &'static str,
    pub what: &'static str,
}

impl fmt::Display for Label {
    fn fmt(&self, f: &mut fmt::Formatter<'_>) -> fmt::Result {
        write!(f, "{}: {}", self.part, self.what)
    }
}

/// Bytes with one fault, and the place at which it must be met.
pub struct Hit {
    pub bytes: Vec<u8>,
    pub place: usize,
}

type Maker<D> = Box<dyn Fn(&D, &mut Rng) -> Option<Hit>>;

/// One fault that a row of the paper names, and how to put it into a good
/// draft. `None` if the draft has no place for it.
pub struct Aim<D> {
    pub label: Label,
    pub refusal: Refusal,
    make: Maker<D>,
}

impl<D> Aim<D> {
    pub fn new(
        part: &'static str,
        what: &'static str,
        refusal: Refusal,
        make: impl Fn(&D, &mut Rng) -> Option<Hit> + 'static,
    ) -> Self {
        Self { label: Label { part, what }, refusal, make: Box::new(make) }
    }

    /// Puts the fault into this draft.
    pub fn try_on(&self, draft: &D, rng: &mut Rng) -> Option<Hit> {
        (self.make)(draft, rng)
    }

    /// Draws drafts until one has a place for the fault; answers that draft, the
    /// damaged bytes and the answer that they must get.
    pub fn hit(&self, rng: &mut Rng, draw: impl Fn(&mut Rng) -> D) -> (D, Vec<u8>, Answer) {
        for _ in 0..10_000 {
            let draft = draw(rng);
            if let Some(hit) = self.try_on(&draft, rng) {
                return (draft, hit.bytes, self.refusal.at(hit.place));
            }
        }
        panic!("no draft has a place for the fault \"{}\"", self.label)
    }
}
