//! Halls in which over 256 facts hold while a plan is executed, with so few
//! lifted atoms that a judge can hold every action model of them.
//!
//! Most facts are of relations with a place for one kind, below which no move has
//! a parameter: they fill the state and are no move's bound facts. The kind may
//! itself lie below a parameter's, and its objects then be those of a step.

use super::crowded::{visible_rule, Ending};
use super::order::Plan;
use super::starts::multiply;
use super::tiny;
use crate::gen::draft::kinds::draw_parents;
use crate::gen::draft::BookDraft;
use crate::gen::hall::inapplicable::{filed, Inapplicable};
use crate::gen::hall::{book, Dynamics, Shape, World};
use crate::gen::rng::Rng;
use crate::limits::{OBJECT_LIMIT, PARAMETER_LIMIT};

const SHAPE: Shape =
    Shape { kinds: 4, relations: 16, moves: 2, records: 4, objects: 8, steps: 3, facts: 12 };

/// All but the one for which few atoms add too little.
const ENDINGS: [Ending; 6] = [
    Ending::Passes,
    Ending::PassesAfterRemovals,
    Ending::StopsAtAdded,
    Ending::StopsAtRemoved,
    Ending::MissesAdded,
    Ending::MissesRemoved,
];

/// A book with few lifted atoms and an order for it, in whose execution by the
/// hidden rules over 256 facts hold. In most cases the book teaches these rules.
pub fn draw(rng: &mut Rng) -> Plan {
    let ending = *rng.pick(&ENDINGS).expect("there are some");
    loop {
        let (front, objects) = draw_front(rng);
        let mut world = World::with_rules(front, || visible_rule(6, 45, 20, rng));
        let Some((mut order, _)) = ending.order(&world, objects, rng) else { continue };
        multiply(&mut order, &world.book, rng);
        if rng.chance(75) {
            world.teach(rng);
        } else {
            let records = rng.range(1, SHAPE.records);
            let dynamics = if rng.chance(80) { Dynamics::Follows } else { Dynamics::Slips };
            book::fill(&mut world, &SHAPE, records, dynamics, rng);
        }
        if all_recorded(&world.book) {
            return Plan { book: filed(world.book, Inapplicable::Any, rng), order };
        }
    }
}

/// The first sections of a book, and the objects of an order.
fn draw_front(rng: &mut Rng) -> (BookDraft, Vec<u8>) {
    let kinds = rng.range(2, SHAPE.kinds);
    let filling = rng.range(1, kinds) as u8;
    let others: Vec<u8> = (1..=kinds as u8).filter(|&kind| kind != filling).collect();
    let mut book = loop {
        let parents = draw_parents_beside(filling, kinds, rng);
        let book = BookDraft { kinds, parents, ..draw_changing(&others, rng) };
        if tiny::few_atoms(&book, rng) {
            break book;
        }
    };
    for _ in 0..rng.range(4, SHAPE.relations - book.relations.len()) {
        let mut places = [filling, rng.range(1, kinds) as u8];
        rng.shuffle(&mut places);
        book.relations.push([2, places[0], places[1], 0]);
    }
    rng.shuffle(&mut book.relations);
    let mut objects = vec![filling; rng.range(7, 10)];
    objects.resize_with(OBJECT_LIMIT, || any_of(&others, rng));
    rng.shuffle(&mut objects);
    (book, objects)
}

/// Parents by which nothing lies below the kind that fills the state.
fn draw_parents_beside(filling: u8, kinds: usize, rng: &mut Rng) -> Vec<u8> {
    let mut parents = draw_parents(kinds, rng);
    for parent in &mut parents {
        if *parent == filling {
            *parent = 0;
        }
    }
    parents
}

/// The moves, and the relations that they may change, over these kinds.
fn draw_changing(kinds: &[u8], rng: &mut Rng) -> BookDraft {
    let mut book = BookDraft::default();
    for _ in 0..rng.range(1, 2) {
        let second = if rng.chance(60) { any_of(kinds, rng) } else { 0 };
        book.relations.push([1 + u8::from(second > 0), any_of(kinds, rng), second, 0]);
    }
    for _ in 0..rng.range(1, SHAPE.moves) {
        let parameters = rng.range(1, PARAMETER_LIMIT);
        let mut entry = [0; 6];
        entry[0] = parameters as u8;
        entry[1..=parameters].fill_with(|| any_of(kinds, rng));
        book.moves.push(entry);
    }
    book
}

fn any_of(kinds: &[u8], rng: &mut Rng) -> u8 {
    *rng.pick(kinds).expect("there is a kind")
}

/// A move never recorded would keep every rule list.
fn all_recorded(book: &BookDraft) -> bool {
    let steps = book.records.iter().flat_map(|record| &record.steps);
    (1..=book.moves.len() as u8).all(|action| steps.clone().any(|step| step[0] == action))
}
