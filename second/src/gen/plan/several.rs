//! Plans from several starts, and the answers they must get. The book teaches its
//! hidden rules whole, so the answer to each start alone follows from these.

use std::collections::BTreeMap;

use super::crowded::visible_rule;
use super::order::Plan;
use super::starts::turned;
use crate::answer::{Answer, Refusal};
use crate::gen::aim::Label;
use crate::gen::draft::facts::all_facts;
use crate::gen::draft::{BookDraft, Fact, OrderDraft, Step};
use crate::gen::hall::front::draw_front;
use crate::gen::hall::{book, Shape, State, World};
use crate::gen::rng::Rng;
use crate::limits::{FACT_LIMIT, GOAL_LIMIT, OBJECT_LIMIT, START_LIMIT, STEP_LIMIT};

const SHAPE: Shape = Shape { steps: 12, facts: 12, ..book::SMALL };

/// What becomes of the plan from its starts.
#[derive(Clone, Copy)]
pub enum Starts {
    AllPass,
    EqualPass,
    /// One start alone fails, at a late step.
    OneStops,
    OneMisses,
    /// Of two that fail, the later one stops at an earlier step.
    LaterStopsEarlier,
    /// One misses an entry before another that stops.
    MissesBeforeStops,
    /// 16 starts of 256 facts, of which one may miss an entry.
    Full,
}

impl Starts {
    pub const ALL: [Self; 7] = [
        Self::AllPass,
        Self::EqualPass,
        Self::OneStops,
        Self::OneMisses,
        Self::LaterStopsEarlier,
        Self::MissesBeforeStops,
        Self::Full,
    ];

    #[must_use]
    pub const fn label(self) -> Label {
        let what = match self {
            Self::AllPass => "several starts, all pass",
            Self::EqualPass => "several starts, equal ones pass",
            Self::OneStops => "several starts, one stops late",
            Self::OneMisses => "several starts, one misses",
            Self::LaterStopsEarlier => "several starts, a later one stops earlier",
            Self::MissesBeforeStops => "several starts, one misses before one stops",
            Self::Full => "16 starts of 256 facts",
        };
        Label { part: "order", what }
    }
}

/// A plan of this kind and its answer.
///
/// # Panics
/// If no draw is of this kind.
pub fn case(kind: Starts, rng: &mut Rng) -> (Plan, Answer) {
    if let Starts::Full = kind {
        return full(rng);
    }
    for _ in 0..10_000 {
        let book = draw_front(&SHAPE, rng);
        let mut world = World::with_rules(book, || visible_rule(6, 30, 20, rng));
        if let Some((order, answer)) = draw_order(kind, &world, rng) {
            world.teach(rng);
            return (Plan { book: world.book, order }, answer);
        }
    }
    panic!("no plan is of the kind \"{}\"", kind.label())
}

/// The starts by what the plan comes to from each of them alone.
struct Sorted {
    passing: Vec<Vec<Fact>>,
    /// With the step or the entry.
    stopping: Vec<(u32, Vec<Fact>)>,
    missing: Vec<(u32, Vec<Fact>)>,
}

fn draw_order(kind: Starts, world: &World, rng: &mut Rng) -> Option<(OrderDraft, Answer)> {
    let objects = world.objects(&SHAPE, rng);
    let start = world.state(&objects, SHAPE.facts, rng);
    let mut state = start.clone();
    let mut steps = Vec::new();
    for _ in 0..rng.range(1, SHAPE.steps) {
        let Some((step, next)) = world.transition(&objects, &state, rng) else { break };
        steps.push(step);
        state = next;
    }
    let goal = true_entries(world, &objects, &state, rng);
    let start: Vec<Fact> = start.into_iter().collect();
    let sorted = sort_starts(world, &objects, &start, &goal, &steps, rng);
    let (starts, answer) = sorted.choose(kind, steps.len(), rng)?;
    Some((OrderDraft { objects, starts, goal, steps }, answer))
}

fn true_entries(world: &World, objects: &[u8], end: &State, rng: &mut Rng) -> Vec<(u8, Fact)> {
    let facts = all_facts(&world.book, objects);
    let drawn = (0..rng.range(0, 8)).filter_map(|_| rng.pick(&facts));
    let entries: BTreeMap<Fact, u8> =
        drawn.map(|fact| (*fact, u8::from(end.contains(fact)))).collect();
    entries.into_iter().map(|(fact, holds)| (holds, fact)).collect()
}

/// The start itself, which passes, and others with a few facts turned.
fn sort_starts(
    world: &World,
    objects: &[u8],
    start: &[Fact],
    goal: &[(u8, Fact)],
    steps: &[Step],
    rng: &mut Rng,
) -> Sorted {
    let mut sorted =
        Sorted { passing: vec![start.to_vec()], stopping: Vec::new(), missing: Vec::new() };
    for _ in 0..40 {
        let start = turned(start, rng.range(1, 3), &world.book, objects, rng);
        let answer = alone(world, &start, goal, steps);
        match answer.number {
            0 => sorted.passing.push(start),
            19 => sorted.stopping.push((answer.place, start)),
            _ => sorted.missing.push((answer.place, start)),
        }
    }
    // The step that is latest stands last.
    sorted.stopping.sort_by_key(|&(step, _)| step);
    sorted
}

/// From one start, by the hidden rules.
fn alone(world: &World, start: &[Fact], goal: &[(u8, Fact)], steps: &[Step]) -> Answer {
    let mut state: State = start.iter().copied().collect();
    for (number, step) in (1..).zip(steps) {
        match world.apply(step, &state) {
            Some(next) => state = next,
            None => return Refusal::NeedUnmet.at(number),
        }
    }
    match goal.iter().position(|(holds, fact)| (*holds == 1) != state.contains(fact)) {
        Some(index) => Refusal::GoalMissed.at(index + 1),
        None => Answer::success(steps.len()),
    }
}

impl Sorted {
    /// Starts of this kind, if there are such, and the answer.
    fn choose(self, kind: Starts, steps: usize, rng: &mut Rng) -> Option<(Vec<Vec<Fact>>, Answer)> {
        let count = if rng.chance(25) { START_LIMIT } else { rng.range(2, 8) };
        let any = |rng: &mut Rng| rng.pick(&self.passing).expect("one passes").clone();
        let mut starts: Vec<Vec<Fact>> = (0..count).map(|_| any(rng)).collect();
        let at = rng.below(count);
        let stop = |step: u32| Refusal::NeedUnmet.at(step as usize).from_start(at + 1);
        let miss = |entry: u32| Refusal::GoalMissed.at(entry as usize).from_start(at + 1);
        let answer = match kind {
            Starts::EqualPass => {
                starts.fill(self.passing[0].clone());
                Answer::success(steps)
            }
            Starts::OneStops => {
                let (step, start) = self.stopping.last().filter(|&&(step, _)| step > 1)?;
                starts[at].clone_from(start);
                stop(*step)
            }
            Starts::OneMisses => {
                let (entry, start) = rng.pick(&self.missing)?;
                starts[at].clone_from(start);
                miss(*entry)
            }
            Starts::LaterStopsEarlier => {
                let (late, start) = self.stopping.last()?;
                let (_, early) = self.stopping.first().filter(|(early, _)| early < late)?;
                starts[at].clone_from(start);
                starts.get_mut(at + 1..)?.last_mut()?.clone_from(early);
                stop(*late)
            }
            Starts::MissesBeforeStops => {
                let (entry, start) = rng.pick(&self.missing)?;
                let (_, stops) = rng.pick(&self.stopping)?;
                starts[at].clone_from(start);
                starts.get_mut(at + 1..)?.last_mut()?.clone_from(stops);
                miss(*entry)
            }
            Starts::AllPass | Starts::Full => Answer::success(steps),
        };
        Some((starts, answer))
    }
}

/// Two relations over 16 objects of one kind, of whose 512 facts each start has
/// 256, and 64 steps that change nothing.
fn full(rng: &mut Rng) -> (Plan, Answer) {
    let book = BookDraft {
        kinds: 1,
        relations: vec![[2, 1, 1, 0]; 2],
        moves: vec![[0; 6]],
        ..BookDraft::default()
    };
    let objects = vec![1; OBJECT_LIMIT];
    let mut facts = all_facts(&book, &objects);
    rng.shuffle(&mut facts);
    // Each start has the first facts, and of the others as many as there is room.
    let others = facts.split_off(GOAL_LIMIT);
    facts.sort_unstable();
    let mut starts: Vec<Vec<Fact>> = (0..START_LIMIT)
        .map(|_| {
            let mut more = others.clone();
            rng.shuffle(&mut more);
            more.truncate(FACT_LIMIT - GOAL_LIMIT);
            let mut start = [&facts[..], &more].concat();
            start.sort_unstable();
            start
        })
        .collect();
    let mut answer = Answer::success(STEP_LIMIT);
    if rng.chance(50) {
        let (start, entry) = (rng.below(START_LIMIT), rng.below(GOAL_LIMIT));
        let free = others.iter().find(|fact| !starts[start].contains(fact));
        let free = *free.expect("512 facts, of which 256 hold");
        starts[start].retain(|&fact| fact != facts[entry]);
        starts[start].push(free);
        starts[start].sort_unstable();
        answer = Refusal::GoalMissed.at(entry + 1).from_start(start + 1);
    }
    let goal = facts.into_iter().map(|fact| (1, fact)).collect();
    let steps = vec![[1, 0, 0, 0, 0]; STEP_LIMIT];
    (Plan { book, order: OrderDraft { objects, starts, goal, steps } }, answer)
}
