//! Halls with hidden true rules, and the trajectories that they make.

pub mod book;
pub mod front;
pub mod inapplicable;
mod taught;

use std::collections::BTreeSet;

use super::draft::facts::{all_facts, random_fact};
use super::draft::{action, BookDraft, Fact, RecordDraft, Step};
use super::rng::Rng;
use front::draw_front;

pub type State = BTreeSet<Fact>;

/// How many halls are drawn for one in which a step goes.
const RECORD_TRIES: usize = 20;

/// How the states of a record come about.
#[derive(Clone, Copy, PartialEq, Eq, Debug)]
pub enum Dynamics {
    /// By the hidden rules, so that the book learns.
    Follows,
    /// By the hidden rules, with some facts turned against them.
    Slips,
    /// Each state for itself.
    Random,
}

/// Upper bounds for what is drawn at random.
#[derive(Clone, Copy)]
pub struct Shape {
    pub kinds: usize,
    pub relations: usize,
    pub moves: usize,
    pub records: usize,
    pub objects: usize,
    pub steps: usize,
    pub facts: usize,
}

/// What the hidden rules say of one lifted atom: the value that is needed, and
/// the value that the step gives it.
#[derive(Clone, Copy)]
pub struct Rule {
    pub needed: Option<bool>,
    pub effect: Option<bool>,
}

/// One lifted atom in the hidden rules of a move.
pub(super) struct HiddenAtom {
    relation: u8,
    /// From 0; `None` for an unused place.
    parameters: [Option<usize>; 2],
    pub(super) rule: Rule,
}

/// The facts that a step changes.
pub struct Change {
    pub added: Vec<Fact>,
    pub removed: Vec<Fact>,
}

/// Relations and moves with hidden rules; makes records for them.
pub struct World {
    pub book: BookDraft,
    pub(super) rules: Vec<Vec<HiddenAtom>>,
}

impl World {
    /// Draws the first sections of a book, which has no record yet, and hidden
    /// rules with few needs, so that steps go, and some effects.
    pub fn draw(shape: &Shape, rng: &mut Rng) -> Self {
        let book = draw_front(shape, rng);
        Self::with_rules(book, || Rule {
            needed: rng.chance(8).then(|| rng.chance(60)),
            effect: rng.chance(30).then(|| rng.chance(50)),
        })
    }

    /// `draw` gives the hidden rule of each lifted atom.
    pub fn with_rules(book: BookDraft, mut draw: impl FnMut() -> Rule) -> Self {
        let rules = book.moves.iter().map(|entry| hidden_atoms(&book, entry, &mut draw)).collect();
        Self { book, rules }
    }

    pub fn objects(&self, shape: &Shape, rng: &mut Rng) -> Vec<u8> {
        if self.book.kinds == 0 {
            return Vec::new();
        }
        let count = rng.count(shape.objects);
        (0..count).map(|_| rng.range(1, self.book.kinds) as u8).collect()
    }

    /// At most `limit` facts, drawn with repetition.
    pub fn state(&self, objects: &[u8], limit: usize, rng: &mut Rng) -> State {
        let mut state = State::new();
        if self.book.relations.is_empty() {
            return state;
        }
        for _ in 0..rng.range(0, limit) {
            if let Some(fact) = random_fact(&self.book, objects, rng) {
                state.insert(fact);
            }
        }
        state
    }

    /// A trajectory of a step or more, as it may be filed. `None` if no step is found
    /// that goes.
    pub fn record(&self, shape: &Shape, dynamics: Dynamics, rng: &mut Rng) -> Option<RecordDraft> {
        let mut drawn = (0..RECORD_TRIES).map(|_| self.trajectory(shape, 1, dynamics, rng));
        drawn.find(|record| !record.steps.is_empty())
    }

    /// From `least` steps on, or fewer if no other goes.
    pub fn trajectory(
        &self,
        shape: &Shape,
        least: usize,
        dynamics: Dynamics,
        rng: &mut Rng,
    ) -> RecordDraft {
        let objects = self.objects(shape, rng);
        let mut state = self.state(&objects, shape.facts, rng);
        let wanted = rng.range(least, shape.steps);
        let mut record = RecordDraft { objects, ..RecordDraft::default() };
        record.states.push(state.iter().copied().collect());
        while record.steps.len() < wanted {
            let Some((step, mut next)) = self.transition(&record.objects, &state, rng) else {
                break;
            };
            match dynamics {
                Dynamics::Follows => {}
                Dynamics::Slips => {
                    if rng.chance(30) {
                        self.slip(&record.objects, &step, &mut next, rng);
                    }
                }
                Dynamics::Random => next = self.state(&record.objects, shape.facts, rng),
            }
            record.steps.push(step);
            record.states.push(next.iter().copied().collect());
            state = next;
        }
        record
    }

    /// A step that the hidden rules let go, and the state after it.
    pub fn transition(
        &self,
        objects: &[u8],
        state: &State,
        rng: &mut Rng,
    ) -> Option<(Step, State)> {
        for _ in 0..12 {
            let Some(step) = self.step(objects, rng) else { continue };
            if let Some(next) = self.apply(&step, state) {
                if next.len() <= 256 {
                    return Some((step, next));
                }
            }
        }
        None
    }

    /// Any well-formed step.
    pub fn step(&self, objects: &[u8], rng: &mut Rng) -> Option<Step> {
        let index = (!self.book.moves.is_empty()).then(|| rng.below(self.book.moves.len()))?;
        self.bind(index, objects, rng)
    }

    /// A step of the move of this index, by an injective binding of objects that
    /// suit their parameters.
    pub fn bind(&self, index: usize, objects: &[u8], rng: &mut Rng) -> Option<Step> {
        let entry = self.book.moves[index];
        let mut step = [0; 5];
        step[0] = index as u8 + 1;
        for parameter in 1..=usize::from(entry[0]) {
            let free: Vec<u8> = (1..=objects.len() as u8)
                .filter(|&object| {
                    self.book.suits(objects[usize::from(object) - 1], entry[parameter])
                })
                .filter(|object| !step[1..parameter].contains(object))
                .collect();
            step[parameter] = *rng.pick(&free)?;
        }
        Some(step)
    }

    /// The facts of the step's needs that are unmet in `state`.
    pub fn unmet(&self, step: &Step, state: &State) -> Vec<Fact> {
        self.bound(step, |rule| rule.needed)
            .filter(|(fact, needed)| state.contains(fact) != *needed)
            .map(|(fact, _)| fact)
            .collect()
    }

    /// What the step changes in `state`, or `None` if a need is unmet.
    pub fn change(&self, step: &Step, state: &State) -> Option<Change> {
        if !self.unmet(step, state).is_empty() {
            return None;
        }
        let mut change = Change { added: Vec::new(), removed: Vec::new() };
        for (fact, holds) in self.bound(step, |rule| rule.effect) {
            if holds != state.contains(&fact) {
                if holds { &mut change.added } else { &mut change.removed }.push(fact);
            }
        }
        Some(change)
    }

    pub(super) fn apply(&self, step: &Step, state: &State) -> Option<State> {
        let change = self.change(step, state)?;
        let mut next = state.clone();
        change.apply_to(&mut next);
        Some(next)
    }

    /// The facts of the step of which the hidden rules say something in this
    /// part, and what.
    fn bound<'a>(
        &'a self,
        step: &'a Step,
        part: impl Fn(&Rule) -> Option<bool> + 'a,
    ) -> impl Iterator<Item = (Fact, bool)> + 'a {
        let atoms = &self.rules[usize::from(step[0]) - 1];
        atoms.iter().filter_map(move |atom| Some((atom.fact(step), part(&atom.rule)?)))
    }

    /// Turns one fact: of the step's bound ones most of the time, else any, or
    /// one of its objects that is not bound, where there is such a one.
    fn slip(&self, objects: &[u8], step: &Step, next: &mut State, rng: &mut Rng) {
        let beside = self.beside(objects, step);
        let fact = match rng.below(20) {
            0..=6 if !beside.is_empty() => rng.pick(&beside).copied(),
            0..=12 => rng.pick(&self.bound_facts(step)).copied(),
            _ => random_fact(&self.book, objects, rng),
        };
        if let Some(fact) = fact {
            if !next.remove(&fact) && next.len() < 256 {
                next.insert(fact);
            }
        }
    }
}

/// Facts of a step's objects.
impl World {
    fn bound_facts(&self, step: &Step) -> Vec<Fact> {
        self.rules[action(step)].iter().map(|atom| atom.fact(step)).collect()
    }

    /// Those that are not bound: an object suits a place that its parameter does
    /// not suit.
    pub fn beside(&self, objects: &[u8], step: &Step) -> Vec<Fact> {
        let bound = self.bound_facts(step);
        let used = step[1..].iter().take_while(|&&object| object > 0);
        let kinds: Vec<u8> = used.map(|&object| objects[usize::from(object) - 1]).collect();
        let object = |parameter: u8| if parameter == 0 { 0 } else { step[usize::from(parameter)] };
        let over_step = all_facts(&self.book, &kinds).into_iter();
        let facts = over_step.map(|[relation, a, b]| [relation, object(a), object(b)]);
        facts.filter(|fact| !bound.contains(fact)).collect()
    }
}

impl Change {
    pub fn apply_to(&self, state: &mut State) {
        state.extend(&self.added);
        for fact in &self.removed {
            state.remove(fact);
        }
    }
}

impl HiddenAtom {
    pub(super) fn fact(&self, step: &Step) -> Fact {
        let [first, second] = self.parameters.map(|parameter| parameter.map_or(0, |p| step[p + 1]));
        [self.relation, first, second]
    }
}

/// A parameter makes a lifted atom if its own kind suits the place.
fn hidden_atoms(
    book: &BookDraft,
    entry: &[u8; 6],
    draw: &mut impl FnMut() -> Rule,
) -> Vec<HiddenAtom> {
    let kinds = &entry[1..=usize::from(entry[0])];
    let mut atoms = Vec::new();
    for (relation, places) in (1..).zip(&book.relations) {
        let seconds = book.fillers(kinds, places[2]);
        for first in book.fillers(kinds, places[1]) {
            atoms.extend(seconds.iter().map(|&second| HiddenAtom {
                relation,
                parameters: [first, second],
                rule: draw(),
            }));
        }
    }
    atoms
}
