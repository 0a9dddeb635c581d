//! Halls so small that a judge can hold every action model of them.

use super::order::{self, Plan};
use crate::gen::draft::BookDraft;
use crate::gen::hall::inapplicable::{filed, Inapplicable};
use crate::gen::hall::{book, Dynamics, Shape, World};
use crate::gen::rng::Rng;

const SHAPE: Shape =
    Shape { kinds: 3, relations: 3, moves: 2, records: 3, objects: 3, steps: 3, facts: 4 };

/// A book with few lifted atoms and an order for it, with steps in most cases;
/// some books are impossible.
pub fn draw(rng: &mut Rng) -> Plan {
    order::with_steps(draw_any, rng)
}

fn draw_any(rng: &mut Rng) -> Plan {
    let mut world = loop {
        let world = World::draw(&SHAPE, rng);
        if few_atoms(&world.book, rng) {
            break world;
        }
    };
    let dynamics = match rng.below(100) {
        0..=64 => Dynamics::Follows,
        65..=89 => Dynamics::Slips,
        _ => Dynamics::Random,
    };
    let records = rng.count(SHAPE.records);
    book::fill(&mut world, &SHAPE, records, dynamics, rng);
    let order = order::for_world(&world, &SHAPE, rng);
    Plan { book: filed(world.book, Inapplicable::Any, rng), order }
}

/// The models of one move number 12 to the power of its atoms: four atoms at
/// most, five now and then; with a second move three each.
pub(super) fn few_atoms(book: &BookDraft, rng: &mut Rng) -> bool {
    let limit = match book.moves.len() {
        0..=1 => 4 + usize::from(rng.chance(4)),
        _ => 3,
    };
    most_atoms(book) <= limit
}

/// The lifted atoms of the move that has most of them.
pub fn most_atoms(book: &BookDraft) -> usize {
    let count = |entry: &[u8; 6]| -> usize {
        let kinds = &entry[1..=usize::from(entry[0])];
        let fillers = |place: u8| book.fillers(kinds, place).len();
        book.relations.iter().map(|places| fillers(places[1]) * fillers(places[2])).sum()
    };
    book.moves.iter().map(count).max().unwrap_or(0)
}
