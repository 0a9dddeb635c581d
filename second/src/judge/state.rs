//! The states that the judge carries a plan out on.

/// A set of facts as bits. The few words of tiny halls keep these fast.
#[derive(Clone, PartialEq)]
pub(super) struct State<const WORDS: usize> {
    words: [u64; WORDS],
    /// How many hold.
    pub(super) count: usize,
}

/// Enough for 3 objects and 8 relations.
pub(super) const TINY: usize = 2;
/// Enough for the paper's limits, 16 objects and 16 relations.
pub(super) const FULL: usize = 73;

impl<const WORDS: usize> State<WORDS> {
    pub(super) const EMPTY: Self = Self { words: [0; WORDS], count: 0 };
    /// Objects are below this, 0 for an unused place.
    const RADIX: usize = if WORDS == TINY { 4 } else { 17 };

    /// The number of a fact: radix²·(relation−1) + radix·first + second.
    pub(super) fn fact(bytes: &[u8]) -> usize {
        let [relation, first, second] = [bytes[0], bytes[1], bytes[2]].map(usize::from);
        Self::RADIX * (Self::RADIX * (relation - 1) + first) + second
    }

    pub(super) fn holds(&self, fact: usize) -> bool {
        self.words[fact / 64] >> (fact % 64) & 1 == 1
    }

    pub(super) fn set(&mut self, fact: usize, holds: bool) {
        if self.holds(fact) != holds {
            self.words[fact / 64] ^= 1 << (fact % 64);
            self.count = if holds { self.count + 1 } else { self.count - 1 };
        }
    }

    pub(super) fn facts(&self) -> Vec<[u8; 3]> {
        let radix = Self::RADIX;
        (0..64 * WORDS)
            .filter(|&fact| self.holds(fact))
            .map(|fact| [fact / radix / radix + 1, fact / radix % radix, fact % radix])
            .map(|fact| fact.map(|number| number as u8))
            .collect()
    }
}
