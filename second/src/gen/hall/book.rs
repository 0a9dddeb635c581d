//! Good books of several sizes.

use super::inapplicable::{filed, Inapplicable};
use super::{Dynamics, Shape, World};
use crate::calls::Form;
use crate::gen::draft::BookDraft;
use crate::gen::rng::Rng;
use crate::limits::BOOK_LIMIT;

pub const SMALL: Shape =
    Shape { kinds: 3, relations: 4, moves: 3, records: 3, objects: 5, steps: 3, facts: 6 };
pub const MEDIUM: Shape =
    Shape { kinds: 8, relations: 16, moves: 32, records: 8, objects: 16, steps: 10, facts: 30 };
/// Few kinds and many facts, so that states are near their limit.
pub const DENSE: Shape =
    Shape { kinds: 2, relations: 16, moves: 6, records: 4, objects: 16, steps: 12, facts: 256 };
/// Many steps with small states.
pub const LONG: Shape =
    Shape { kinds: 2, relations: 3, moves: 4, records: 64, objects: 6, steps: 64, facts: 6 };
/// Near the limit of a book's length.
pub const LARGE: Shape =
    Shape { kinds: 2, relations: 16, moves: 32, records: 64, objects: 16, steps: 64, facts: 200 };

/// A label for the tally, a shape, and how many of 1,000 cases have it.
const SIZES: [(&str, Shape, usize); 5] = [
    ("small", SMALL, 640),
    ("medium", MEDIUM, 240),
    ("dense", DENSE, 50),
    ("many steps", LONG, 60),
    ("large", LARGE, 10),
];

/// Draws a size, then a book of that size and form that follows `dynamics`, in most
/// cases with steps that did not go.
pub fn any_size(form: Form, dynamics: Dynamics, rng: &mut Rng) -> (&'static str, BookDraft) {
    let mut drawn = rng.below(1000);
    for (label, shape, weight) in SIZES {
        if drawn < weight {
            let mut world = World::draw(&shape, rng);
            let records = rng.count(shape.records);
            fill_in(form, &mut world, &shape, records, dynamics, rng);
            return (label, filed(world.book.in_form(form), Inapplicable::Any, rng));
        }
        drawn -= weight;
    }
    unreachable!("the weights sum to 1000")
}

/// A world whose book has records, each of which keeps the book in its limit.
pub fn of_shape(shape: &Shape, dynamics: Dynamics, rng: &mut Rng) -> World {
    let mut world = World::draw(shape, rng);
    let records = rng.count(shape.records);
    fill(&mut world, shape, records, dynamics, rng);
    world
}

pub fn fill(world: &mut World, shape: &Shape, records: usize, dynamics: Dynamics, rng: &mut Rng) {
    fill_in(Form::Full, world, shape, records, dynamics, rng);
}

/// Records that keep the book in its limit when it is written in this form: fewer, or
/// none if no step goes. The world's book is a full one, and may then be too long.
fn fill_in(
    form: Form,
    world: &mut World,
    shape: &Shape,
    records: usize,
    dynamics: Dynamics,
    rng: &mut Rng,
) {
    let mut length = world.book.length();
    for _ in 0..records {
        let Some(record) = world.record(shape, dynamics, rng) else { break };
        length += match form {
            Form::Full => record.length(),
            Form::Short => record.rewritten(form).length(),
        };
        if length > BOOK_LIMIT {
            break;
        }
        world.book.records.push(record);
    }
}

/// A draft to be damaged, with steps that did not go in most cases.
pub fn to_damage_any(form: Form, rng: &mut Rng) -> BookDraft {
    filed(to_damage(form, rng), Inapplicable::Any, rng)
}

/// A draft to be damaged, all steps of which went: small most of the time, for many
/// cases in little time.
pub fn to_damage(form: Form, rng: &mut Rng) -> BookDraft {
    let shape = if rng.chance(92) { SMALL } else { MEDIUM };
    let dynamics = if rng.chance(50) { Dynamics::Follows } else { Dynamics::Random };
    of_shape(&shape, dynamics, rng).book.fitting(form)
}
