//! Plans in whose execution over 256 facts hold, and the answers they must get.
//!
//! The limit of 256 facts is one of bytes that are read: a state in a record,
//! the start of an order. While a plan is executed any number may hold, so a
//! checker that has room for 256 facts answers some of these plans wrongly. The
//! book teaches its hidden rules whole; the answers follow from these.

use std::collections::BTreeMap;

use super::execution::Execution;
use super::order::Plan;
use super::tiny;
use crate::answer::{Answer, Refusal};
use crate::gen::aim::Label;
use crate::gen::draft::facts::all_facts;
use crate::gen::draft::{Fact, OrderDraft};
use crate::gen::hall::front::draw_front;
use crate::gen::hall::{book, Dynamics, Rule, Shape, State, World};
use crate::gen::rng::Rng;
use crate::limits::{GOAL_LIMIT, OBJECT_LIMIT, STEP_LIMIT};

const SHAPE: Shape =
    Shape { kinds: 3, relations: 16, moves: 6, records: 3, objects: 8, steps: 3, facts: 30 };

/// What an execution comes to. "Added" is a fact that was added when 256 others
/// held, and still holds; "removed" is one that was removed when over 256 held.
#[derive(Clone, Copy)]
pub enum Ending {
    Passes,
    PassesWithOver320,
    PassesAfterRemovals,
    StopsAtAdded,
    StopsAtRemoved,
    MissesAdded,
    MissesRemoved,
}

type Goal = Vec<(u8, Fact)>;

impl Ending {
    pub const ALL: [Self; 7] = [
        Self::Passes,
        Self::PassesWithOver320,
        Self::PassesAfterRemovals,
        Self::StopsAtAdded,
        Self::StopsAtRemoved,
        Self::MissesAdded,
        Self::MissesRemoved,
    ];

    #[must_use]
    pub const fn label(self) -> Label {
        let what = match self {
            Self::Passes => "over 256 facts, passes",
            Self::PassesWithOver320 => "over 256 facts, passes with over 320",
            Self::PassesAfterRemovals => "over 256 facts, passes after removals",
            Self::StopsAtAdded => "over 256 facts, stops at one added",
            Self::StopsAtRemoved => "over 256 facts, stops at one removed",
            Self::MissesAdded => "over 256 facts, misses one added",
            Self::MissesRemoved => "over 256 facts, misses one removed",
        };
        Label { part: "order", what }
    }

    /// The goal and the answer, if the execution can be given this ending; one
    /// that stops gets further steps.
    fn of(self, execution: &mut Execution<'_>, rng: &mut Rng) -> Option<(Goal, Answer)> {
        let Execution { state, beyond, removed, .. } = &*execution;
        match self {
            Self::Passes => Some(passes(execution, rng)),
            Self::PassesWithOver320 => (state.len() > 320).then(|| passes(execution, rng)),
            Self::PassesAfterRemovals => (!removed.is_empty()).then(|| passes(execution, rng)),
            Self::StopsAtAdded => stops(&(beyond & state), execution, rng),
            Self::StopsAtRemoved => stops(&(removed - state), execution, rng),
            Self::MissesAdded => misses(&(beyond & state), execution, rng),
            // The entry is about a fact beyond the 256th, too.
            Self::MissesRemoved => misses(&(beyond - state), execution, rng),
        }
    }

    /// An order for these objects with this ending, and the answer under the
    /// hidden rules; `None` if the steps drawn do not come to it.
    pub fn order(
        self,
        world: &World,
        objects: Vec<u8>,
        rng: &mut Rng,
    ) -> Option<(OrderDraft, Answer)> {
        let mut execution = Execution::draw(world, objects, rng)?;
        let (goal, answer) = self.of(&mut execution, rng)?;
        Some((execution.order(goal), answer))
    }
}

/// A plan with this ending, for a book that teaches its hidden rules.
///
/// # Panics
/// If no draw has this ending.
pub fn case(ending: Ending, rng: &mut Rng) -> (Plan, Answer) {
    for _ in 0..10_000 {
        let mut world = draw_world(rng);
        let count = if rng.chance(70) { OBJECT_LIMIT } else { rng.range(10, OBJECT_LIMIT) };
        let objects = (0..count).map(|_| rng.range(1, world.book.kinds) as u8).collect();
        if let Some((order, answer)) = ending.order(&world, objects, rng) {
            world.teach(rng);
            let more = rng.below(SHAPE.records + 1);
            book::fill(&mut world, &SHAPE, more, Dynamics::Follows, rng);
            return (Plan { book: world.book, order }, answer);
        }
    }
    panic!("no plan has the ending \"{}\"", ending.label())
}

/// Rules that add more than they remove, with about two needs for the move of
/// most atoms.
fn draw_world(rng: &mut Rng) -> World {
    let book = loop {
        let book = draw_front(&SHAPE, rng);
        if book.kinds > 0 {
            break book;
        }
    };
    let atoms = tiny::most_atoms(&book).max(6);
    let (adds, removes) = (rng.range(15, 50), rng.range(0, 15));
    World::with_rules(book, || visible_rule(atoms, adds, removes, rng))
}

/// Two needs in `atoms` atoms, effects in percent. An effect never gives the
/// value that is needed, so that it is seen.
pub fn visible_rule(atoms: usize, adds: usize, removes: usize, rng: &mut Rng) -> Rule {
    let needed = (rng.below(atoms) < 2).then(|| rng.chance(50));
    let drawn = rng.below(100);
    let effect = (drawn < adds + removes).then_some(drawn < adds);
    Rule { needed, effect: effect.filter(|_| effect != needed) }
}

fn passes(execution: &Execution<'_>, rng: &mut Rng) -> (Goal, Answer) {
    (sorted(true_entries(execution, rng)), Answer::success(execution.steps.len()))
}

/// One more step, whose unmet needs are all of `facts`, and some behind it. No
/// entry of the goal counts.
fn stops(facts: &State, execution: &mut Execution<'_>, rng: &mut Rng) -> Option<(Goal, Answer)> {
    let mut entries = true_entries(execution, rng);
    turn_some(entries.values_mut(), rng);
    let (world, objects) = (execution.world, &execution.objects);
    let room = STEP_LIMIT.checked_sub(execution.steps.len() + 1)?;
    let stopping = (0..200).filter_map(|_| world.step(objects, rng)).find(|step| {
        let unmet = world.unmet(step, &execution.state);
        !unmet.is_empty() && unmet.iter().all(|fact| facts.contains(fact))
    })?;
    execution.steps.push(stopping);
    let answer = Refusal::NeedUnmet.at(execution.steps.len()).from_start(1);
    let behind = (0..rng.below(room + 1)).filter_map(|_| world.step(objects, rng));
    execution.steps.extend(behind);
    Some((sorted(entries), answer))
}

/// The entry of one of `facts` is false, those before it are true.
fn misses(facts: &State, execution: &Execution<'_>, rng: &mut Rng) -> Option<(Goal, Answer)> {
    let facts: Vec<Fact> = facts.iter().copied().collect();
    let missed = *rng.pick(&facts)?;
    let mut entries = true_entries(execution, rng);
    entries.insert(missed, !execution.state.contains(&missed));
    turn_some(entries.range_mut(missed..).skip(1).map(|(_, holds)| holds), rng);
    let place = entries.range(..=missed).count();
    Some((sorted(entries), Refusal::GoalMissed.at(place).from_start(1)))
}

/// Fewer entries than the limit, true at the end: of facts added beyond the
/// 256th, of facts removed and of any.
fn true_entries(execution: &Execution<'_>, rng: &mut Rng) -> BTreeMap<Fact, bool> {
    let of = |facts: &State| facts.iter().copied().collect();
    let any = all_facts(&execution.world.book, &execution.objects);
    let pools: [Vec<Fact>; 3] = [of(&execution.beyond), of(&execution.removed), any];
    (0..rng.below(GOAL_LIMIT))
        .filter_map(|_| rng.pick(&pools).and_then(|pool| rng.pick(pool)))
        .map(|&fact| (fact, execution.state.contains(&fact)))
        .collect()
}

fn turn_some<'a>(entries: impl Iterator<Item = &'a mut bool>, rng: &mut Rng) {
    for holds in entries {
        *holds ^= rng.chance(20);
    }
}

fn sorted(entries: BTreeMap<Fact, bool>) -> Goal {
    entries.into_iter().map(|(fact, holds)| (u8::from(holds), fact)).collect()
}
