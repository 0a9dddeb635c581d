//! The book's length and header: rows 1 to 3.

use super::two_bytes;
use crate::answer::{Answer, Refusal};
use crate::limits::{
    BOOK_LIMIT, HEADER_LENGTH, KIND_LIMIT, MOVE_LENGTH, MOVE_LIMIT, RECORD_LIMIT, RELATION_LENGTH,
    RELATION_LIMIT,
};

pub struct Header {
    pub kinds: usize,
    pub relations: usize,
    pub moves: usize,
    pub records: usize,
    pub relations_at: usize,
    pub moves_at: usize,
    pub records_at: usize,
}

impl Header {
    pub fn read(book: &[u8]) -> Result<Self, Answer> {
        if !(HEADER_LENGTH..=BOOK_LIMIT).contains(&book.len()) {
            return Err(Refusal::Length.at(0));
        }
        let number = |index: usize| two_bytes(book, 2 * index);
        let header = Self {
            kinds: number(0),
            relations: number(1),
            moves: number(2),
            records: number(3),
            relations_at: number(4),
            moves_at: number(5),
            records_at: number(6),
        };
        if header.kinds > KIND_LIMIT
            || header.relations > RELATION_LIMIT
            || header.moves > MOVE_LIMIT
            || header.records > RECORD_LIMIT
        {
            return Err(Refusal::HeaderCounts.at(0));
        }
        let end = number(7);
        // Between header and relations lie the kinds' parents, or nothing.
        if ![HEADER_LENGTH, HEADER_LENGTH + header.kinds].contains(&header.relations_at)
            || header.moves_at != header.relations_at + RELATION_LENGTH * header.relations
            || header.records_at != header.moves_at + MOVE_LENGTH * header.moves
            || end != book.len()
            || header.records_at > end
        {
            return Err(Refusal::HeaderOffsets.at(0));
        }
        Ok(header)
    }
}
