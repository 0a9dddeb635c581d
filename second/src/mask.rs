//! Sets of lifted atoms and of facts, as the bits of the paper's sheets.

use crate::limits::{
    END_SHEET_LENGTH, FACT_LENGTH, OBJECT_LIMIT, PARAMETER_LIMIT, RELATION_LIMIT, SET_LENGTH,
};

/// The facts that a state has for one relation and one first object, as bits.
pub type Row = u16;

/// A set of lifted atoms: for each relation 16 bits, four for each parameter in
/// the first place. Atom n is bit n mod 16 of word n div 16, which in
/// little-endian bytes is the sheet's bit n mod 8 of byte n div 8.
#[derive(Clone, Copy, Debug, PartialEq, Eq)]
pub struct AtomMask([u16; RELATION_LIMIT]);

impl AtomMask {
    pub const EMPTY: Self = Self([0; RELATION_LIMIT]);
    pub const FULL: Self = Self([u16::MAX; RELATION_LIMIT]);

    #[inline]
    pub fn insert(&mut self, atom: usize) {
        self.0[atom / 16] |= 1 << (atom % 16);
    }

    /// All atoms of a relation, from 0, with parameters of the two sets.
    pub fn insert_pairs(&mut self, relation: usize, first: u32, second: u32) {
        // The four bits of `first`, four apart; each then carries `second`.
        let apart = (first | first << 3 | first << 6 | first << 9) & 0x1111;
        self.0[relation] |= (apart * second) as u16;
    }

    /// The atoms of a relation and a first parameter, from 0, whose second
    /// parameter's object, from 0, is in the row.
    #[inline]
    pub fn insert_seconds(
        &mut self,
        relation: usize,
        first: usize,
        row: Row,
        objects: [u8; PARAMETER_LIMIT],
    ) {
        for (second, object) in objects.into_iter().enumerate() {
            self.0[relation] |= (row >> object & 1) << (PARAMETER_LIMIT * first + second);
        }
    }

    #[must_use]
    pub fn contains(&self, atom: usize) -> bool {
        self.0[atom / 16] >> (atom % 16) & 1 == 1
    }

    /// Whether there are atoms of this relation, from 0.
    #[inline]
    #[must_use]
    pub fn has_relation(&self, relation: usize) -> bool {
        self.0[relation] != 0
    }

    /// The second parameters of a relation's atoms with this first one, as bits.
    #[inline]
    #[must_use]
    pub fn seconds(&self, relation: usize, first: usize) -> usize {
        usize::from(self.0[relation] >> (PARAMETER_LIMIT * first)) % 16
    }

    #[inline]
    #[must_use]
    pub fn and(self, other: Self) -> Self {
        Self(std::array::from_fn(|word| self.0[word] & other.0[word]))
    }

    #[inline]
    #[must_use]
    pub fn or(self, other: Self) -> Self {
        Self(std::array::from_fn(|word| self.0[word] | other.0[word]))
    }

    #[inline]
    #[must_use]
    pub fn without(self, other: Self) -> Self {
        Self(std::array::from_fn(|word| self.0[word] & !other.0[word]))
    }

    #[must_use]
    pub fn is_empty(self) -> bool {
        self == Self::EMPTY
    }

    /// The atoms in increasing order.
    pub fn atoms(self) -> impl Iterator<Item = usize> {
        (0..16 * RELATION_LIMIT).filter(move |&atom| self.contains(atom))
    }

    #[must_use]
    pub fn bytes(self) -> [u8; SET_LENGTH] {
        let mut bytes = [0; SET_LENGTH];
        write_words(&mut bytes, &self.0);
        bytes
    }
}

/// A set of facts over the objects of one hall, numbered as in the end sheet:
/// fact n is in row n div 16, which is that of its relation and first object. A
/// row's number fills a byte, so no access by it is out of range.
#[derive(Clone, Debug, PartialEq, Eq)]
pub struct FactSet([Row; RELATION_LIMIT * OBJECT_LIMIT]);

impl FactSet {
    pub const EMPTY: Self = Self([0; RELATION_LIMIT * OBJECT_LIMIT]);

    /// The bytes of facts that are of good form.
    #[must_use]
    pub fn of(facts: &[u8]) -> Self {
        let mut set = Self::EMPTY;
        for fact in facts.chunks_exact(FACT_LENGTH) {
            set.insert(fact_number(fact[0], fact[1], fact[2]));
        }
        set
    }

    pub fn insert(&mut self, fact: usize) {
        self.insert_all((fact / 16) as u8, 1 << (fact % 16));
    }

    /// Turns a fact's value; answers whether it holds now.
    #[inline]
    pub fn turn(&mut self, fact: usize) -> bool {
        let row = &mut self.0[usize::from((fact / 16) as u8)];
        *row ^= 1 << (fact % 16);
        *row >> (fact % 16) & 1 == 1
    }

    #[inline]
    pub fn insert_all(&mut self, row: u8, facts: Row) {
        let row = usize::from(row);
        self.0[row] |= facts;
    }

    #[inline]
    pub fn remove_all(&mut self, row: u8, facts: Row) {
        let row = usize::from(row);
        self.0[row] &= !facts;
    }

    /// Those of a row's facts that hold.
    #[inline]
    #[must_use]
    pub fn held(&self, row: u8, facts: Row) -> Row {
        self.0[usize::from(row)] & facts
    }

    #[must_use]
    pub fn contains(&self, fact: usize) -> bool {
        self.0[fact / 16] >> (fact % 16) & 1 == 1
    }

    pub fn write(&self, sheet: &mut [u8; END_SHEET_LENGTH]) {
        write_words(sheet, &self.0);
    }
}

/// A fact's number in the end sheet; an unused place (0) adds 0.
#[inline]
#[must_use]
pub fn fact_number(relation: u8, first: u8, second: u8) -> usize {
    let from_zero = |number: u8| usize::from(number.saturating_sub(1));
    256 * from_zero(relation) + 16 * from_zero(first) + from_zero(second)
}

fn write_words(bytes: &mut [u8], words: &[u16]) {
    for (part, word) in bytes.chunks_exact_mut(2).zip(words) {
        part.copy_from_slice(&word.to_le_bytes());
    }
}
