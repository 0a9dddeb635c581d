//! Plans of every kind that is drawn here, also for books that 11, 12 or 28 refuses.

use super::crowded::{self, Ending};
use super::order::{self, Plan};
use super::several::{self, Starts};
use crate::gen::hall::inapplicable::{filed, Inapplicable};
use crate::gen::hall::{book, Dynamics, Shape};
use crate::gen::rng::Rng;

/// A book that is good in both forms and an order for it, with steps in most cases.
pub fn draw(rng: &mut Rng) -> Plan {
    let Plan { book, order } = match rng.below(100) {
        0..=4 => crowded::case(any_of(&Ending::ALL, rng), rng).0,
        5..=14 => several::case(any_of(&Starts::ALL, rng), rng).0,
        15..=74 => of_shape(&book::SMALL, rng),
        75..=94 => of_shape(&book::MEDIUM, rng),
        _ => of_shape(&book::DENSE, rng),
    };
    Plan { book: filed(book, Inapplicable::Any, rng), order }
}

/// None of these shapes makes a book whose short twin would be too long.
fn of_shape(shape: &Shape, rng: &mut Rng) -> Plan {
    let draw = |rng: &mut Rng| {
        let dynamics = if rng.chance(60) { Dynamics::Follows } else { Dynamics::Slips };
        let world = book::of_shape(shape, dynamics, rng);
        let order = order::for_world(&world, shape, rng);
        Plan { book: world.book, order }
    };
    order::with_steps(draw, rng)
}

fn any_of<T: Copy>(kinds: &[T], rng: &mut Rng) -> T {
    *rng.pick(kinds).expect("there are some")
}
