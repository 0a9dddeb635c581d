//! What a book says before its records, kinds, relations (predicates) and moves
//! (action schemas): rows 21, 4 and 5.

use super::kinds::Parents;
use super::Header;
use crate::answer::{Answer, Refusal};
use crate::limits::{KIND_LIMIT, MOVE_LENGTH, PARAMETER_LIMIT, PLACE_LIMIT, RELATION_LENGTH};
use crate::mask::AtomMask;

/// Kinds count from 1; the kind of an unused place is 0.
pub struct Relation {
    pub places: usize,
    pub kinds: [u8; PLACE_LIMIT],
}

/// Kinds count from 1; the kind of an unused parameter is 0.
pub struct Move {
    pub parameters: usize,
    pub kinds: [u8; PARAMETER_LIMIT],
}

pub struct Signature {
    pub kinds: usize,
    pub parents: Parents,
    pub relations: Vec<Relation>,
    pub moves: Vec<Move>,
}

impl Signature {
    pub fn read(book: &[u8], header: &Header) -> Result<Self, Answer> {
        let parents = Parents::read(book, header)?;
        let relations = book[header.relations_at..header.moves_at]
            .chunks_exact(RELATION_LENGTH)
            .enumerate()
            .map(|(index, entry)| {
                if !entry_is_good(entry, header.kinds) {
                    let at = header.relations_at + RELATION_LENGTH * index;
                    return Err(Refusal::Relation.at(at));
                }
                Ok(Relation { places: usize::from(entry[0]), kinds: [entry[1], entry[2]] })
            })
            .collect::<Result<_, _>>()?;
        let moves = book[header.moves_at..header.records_at]
            .chunks_exact(MOVE_LENGTH)
            .enumerate()
            .map(|(index, entry)| {
                if !entry_is_good(entry, header.kinds) {
                    let at = header.moves_at + MOVE_LENGTH * index;
                    return Err(Refusal::Move.at(at));
                }
                let kinds = [entry[1], entry[2], entry[3], entry[4]];
                Ok(Move { parameters: usize::from(entry[0]), kinds })
            })
            .collect::<Result<_, _>>()?;
        Ok(Self { kinds: header.kinds, parents, relations, moves })
    }

    /// The lifted atoms (bound facts) of a move. A parameter fills a place if its
    /// own kind suits that of the place, whatever object is given for it.
    #[must_use]
    pub fn atoms(&self, action: &Move) -> AtomMask {
        let mut own = [0; KIND_LIMIT + 1];
        for (parameter, &kind) in action.kinds.iter().enumerate() {
            own[usize::from(kind)] |= 1 << parameter;
        }
        // Of unused parameters nothing is left: an unused place adds 0 to the
        // atom's number, as parameter 0 would.
        let fillers = self.parents.gather(own);
        let mut atoms = AtomMask::EMPTY;
        for (index, relation) in self.relations.iter().enumerate() {
            let [first, second] = relation.kinds.map(|kind| fillers[usize::from(kind)]);
            atoms.insert_pairs(index, first, second);
        }
        atoms
    }
}

/// A relation or a move: a count, that many kinds, and zeros to the end.
fn entry_is_good(entry: &[u8], kinds: usize) -> bool {
    let (count, rest) = (usize::from(entry[0]), &entry[1..]);
    // The last byte of an entry is never used.
    count < rest.len()
        && rest[..count].iter().all(|&kind| (1..=kinds).contains(&usize::from(kind)))
        && rest[count..].iter().all(|&unused| unused == 0)
}
