//! The first sections of a book: kinds with parents, relations and moves.

use super::Shape;
use crate::gen::draft::kinds::draw_parents;
use crate::gen::draft::BookDraft;
use crate::gen::rng::Rng;

/// Kinds, relations and moves, and no record.
pub fn draw_front(shape: &Shape, rng: &mut Rng) -> BookDraft {
    // As many as there may be now and then, for a chain of them.
    let kinds = if rng.chance(15) { shape.kinds } else { rng.count(shape.kinds) };
    let parents = draw_parents(kinds, rng);
    let mut book = BookDraft { kinds, parents, ..BookDraft::default() };
    for _ in 0..rng.count(shape.relations) {
        book.relations.push(draw_entry(kinds, usize::max, rng));
    }
    for _ in 0..rng.count(shape.moves) {
        book.moves.push(draw_entry(kinds, usize::min, rng));
    }
    book
}

/// A relation or a move: a count, kinds, zeros. The count leaves the last byte 0.
/// Every second one is of kinds that `of_two` prefers: relations of lower kinds
/// and moves of upper ones make facts of a step's objects that are not bound.
fn draw_entry<const N: usize>(
    kinds: usize,
    of_two: fn(usize, usize) -> usize,
    rng: &mut Rng,
) -> [u8; N] {
    let mut entry = [0; N];
    let count = if kinds == 0 { 0 } else { rng.range(0, N - 2) };
    let prefers = rng.chance(50);
    entry[0] = count as u8;
    entry[1..=count].fill_with(|| {
        let kind = rng.range(1, kinds);
        if prefers {
            of_two(kind, rng.range(1, kinds)) as u8
        } else {
            kind as u8
        }
    });
    entry
}
