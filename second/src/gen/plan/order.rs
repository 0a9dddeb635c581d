//! Orders for a book: plans that pass, that stop and that miss their goal.

use std::collections::BTreeMap;

use super::starts::{multiply, turn_one};
use crate::gen::draft::facts::random_fact;
use crate::gen::draft::{BookDraft, Fact, OrderDraft, RecordDraft};
use crate::gen::extreme::fullbook;
use crate::gen::hall::{book, Dynamics, Shape, State, World};
use crate::gen::rng::Rng;

/// A book that learns and an order of good form for it.
pub struct Plan {
    pub book: BookDraft,
    pub order: OrderDraft,
}

/// A book small most of the time, and one order for it.
pub fn draw(rng: &mut Rng) -> Plan {
    let shape = if rng.chance(85) { book::SMALL } else { book::MEDIUM };
    let world = book::of_shape(&shape, Dynamics::Follows, rng);
    let order = for_world(&world, &shape, rng);
    Plan { book: world.book, order }
}

/// Draws until a plan has steps, and keeps one without in 15 of 100 cases.
pub(super) fn with_steps(draw: impl Fn(&mut Rng) -> Plan, rng: &mut Rng) -> Plan {
    loop {
        let plan = draw(rng);
        if !plan.order.steps.is_empty() || rng.chance(15) {
            return plan;
        }
    }
}

/// An order that is filed, lived through or made up.
pub fn for_world(world: &World, shape: &Shape, rng: &mut Rng) -> OrderDraft {
    let mut record = match rng.below(100) {
        0..=54 => filed(&world.book, rng),
        55..=84 => None,
        _ => Some(made_up(world, shape, rng)),
    }
    .unwrap_or_else(|| world.trajectory(shape, 0, Dynamics::Follows, rng));
    if rng.chance(50) {
        let mut numbers: Vec<u8> = (1..=record.objects.len() as u8).collect();
        rng.shuffle(&mut numbers);
        record = record.renumbered(&numbers);
    }
    let end = record.states.pop().expect("a record has a state");
    let goal = goal(&world.book, &record.objects, &end, rng);
    let mut start: State = record.states.into_iter().next().unwrap_or(end).into_iter().collect();
    if rng.chance(25) {
        turn_one(&world.book, &record.objects, &mut start, rng);
    }
    let starts = vec![start.into_iter().collect()];
    let mut order = OrderDraft { objects: record.objects, starts, goal, steps: record.steps };
    multiply(&mut order, &world.book, rng);
    order
}

/// A part of a record of the book, states included.
fn filed(book: &BookDraft, rng: &mut Rng) -> Option<RecordDraft> {
    let record = rng.pick(&book.records)?;
    let from = rng.below(record.states.len());
    let to = rng.range(from, record.steps.len());
    Some(RecordDraft {
        objects: record.objects.clone(),
        states: record.states[from..=to].to_vec(),
        steps: record.steps[from..to].to_vec(),
    })
}

/// Steps of good form that no rule was asked about. The states say nothing but
/// where the plan begins.
fn made_up(world: &World, shape: &Shape, rng: &mut Rng) -> RecordDraft {
    let objects = world.objects(shape, rng);
    let start: Vec<Fact> = world.state(&objects, shape.facts, rng).into_iter().collect();
    let steps: Vec<_> = (0..rng.range(0, 3)).filter_map(|_| world.step(&objects, rng)).collect();
    RecordDraft { states: vec![start; steps.len() + 1], objects, steps }
}

/// Entries that are true in `end`, but for one in some cases.
fn goal(book: &BookDraft, objects: &[u8], end: &[Fact], rng: &mut Rng) -> Vec<(u8, Fact)> {
    let mut entries = BTreeMap::new();
    for _ in 0..rng.range(0, 6) {
        let fact =
            if rng.chance(50) { rng.pick(end).copied() } else { random_fact(book, objects, rng) };
        if let Some(fact) = fact {
            entries.insert(fact, u8::from(end.contains(&fact)));
        }
    }
    let mut goal: Vec<(u8, Fact)> =
        entries.into_iter().map(|(fact, holds)| (holds, fact)).collect();
    if !goal.is_empty() && rng.chance(30) {
        let at = rng.below(goal.len());
        goal[at].0 ^= 1;
    }
    goal
}

/// Every count at its limit but that of the starts; the plan passes.
pub fn at_the_limits() -> Plan {
    let book = BookDraft {
        kinds: 1,
        relations: vec![[2, 1, 1, 0]],
        moves: vec![[0; 6]],
        ..BookDraft::default()
    };
    let start = fullbook::first_facts(16, 256);
    let goal = start.iter().take(64).map(|&fact| (1, fact)).collect();
    let (objects, steps) = (vec![1; 16], vec![[1, 0, 0, 0, 0]; 64]);
    let order = OrderDraft { objects, starts: vec![start], goal, steps };
    Plan { book, order }
}
