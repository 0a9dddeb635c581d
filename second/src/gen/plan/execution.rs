//! A plan executed by the hidden rules until over 256 facts hold, and beyond.

use crate::gen::draft::facts::all_facts;
use crate::gen::draft::{Fact, OrderDraft, Step};
use crate::gen::hall::{Change, State, World};
use crate::gen::rng::Rng;
use crate::limits::{FACT_LIMIT, STEP_LIMIT};

/// How many steps are drawn for each one that is taken.
const TRIES: usize = 12;

pub struct Execution<'a> {
    pub world: &'a World,
    pub objects: Vec<u8>,
    start: Vec<Fact>,
    pub steps: Vec<Step>,
    /// After the steps.
    pub state: State,
    /// The facts added when 256 others held; some may be removed since.
    pub beyond: State,
    /// The facts removed when over 256 held; some may be added since.
    pub removed: State,
}

impl<'a> Execution<'a> {
    /// Starts with 200 to 256 facts, often 256. `None` if no fact is ever added
    /// when 256 others hold.
    pub fn draw(world: &'a World, objects: Vec<u8>, rng: &mut Rng) -> Option<Self> {
        let mut facts = all_facts(&world.book, &objects);
        if facts.len() <= FACT_LIMIT {
            return None;
        }
        rng.shuffle(&mut facts);
        facts.truncate(if rng.chance(60) { FACT_LIMIT } else { rng.range(200, FACT_LIMIT) });
        let state: State = facts.into_iter().collect();
        let start = state.iter().copied().collect();
        let (beyond, removed) = (State::new(), State::new());
        let mut execution =
            Self { world, objects, start, steps: Vec::new(), state, beyond, removed };
        let count = if rng.chance(30) { STEP_LIMIT } else { rng.range(1, STEP_LIMIT) };
        let adding = rng.range(1, count);
        // What the steps after the adding ones do.
        let after = *rng.pick(&[Wish::Add, Wish::Any, Wish::Remove]).expect("there are three");
        for number in 0..count {
            execution.go_on(if number < adding { Wish::Add } else { after }, rng);
        }
        (!execution.beyond.is_empty()).then_some(execution)
    }

    /// The step that suits the wish best, of some that go.
    fn go_on(&mut self, wish: Wish, rng: &mut Rng) {
        let going = (0..TRIES).filter_map(|_| {
            let step = self.world.step(&self.objects, rng)?;
            self.world.change(&step, &self.state).map(|change| (step, change))
        });
        let best = going.max_by_key(|(_, change)| {
            let growth = change.added.len() as isize - change.removed.len() as isize;
            growth * wish as isize
        });
        if let Some((step, change)) = best {
            self.take(step, &change);
        }
    }

    fn take(&mut self, step: Step, change: &Change) {
        let before = self.state.len();
        if before > FACT_LIMIT {
            self.removed.extend(&change.removed);
        }
        if before - change.removed.len() >= FACT_LIMIT {
            self.beyond.extend(&change.added);
        }
        change.apply_to(&mut self.state);
        self.steps.push(step);
    }

    pub fn order(self, goal: Vec<(u8, Fact)>) -> OrderDraft {
        OrderDraft { objects: self.objects, starts: vec![self.start], goal, steps: self.steps }
    }
}

/// What a step is wanted for.
#[derive(Clone, Copy)]
enum Wish {
    Remove = -1,
    Any = 0,
    Add = 1,
}
