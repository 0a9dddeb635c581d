//! Steps that did not go, put into a good book: among the steps of its records, and as
//! records of their own.

use super::{Rule, World};
use crate::calls::Form;
use crate::gen::draft::{action, not_gone, went, BookDraft, Fact, RecordDraft, Step};
use crate::gen::rng::Rng;
use crate::limits::{BOOK_LIMIT, FACT_LIMIT, RECORD_LIMIT, STEP_LIMIT};

/// How many steps are drawn for one that is wanted.
const TRIES: usize = 60;

/// Which steps are put in.
#[derive(Clone, Copy, PartialEq, Eq)]
pub enum Inapplicable {
    /// Those in whose state some learned need is unmet: all is learned as without them.
    Barred,
    /// Now and then one in whose state none is.
    Any,
}

/// The book with such steps in most cases, in its form and within its limits.
pub fn filed(draft: BookDraft, which: Inapplicable, rng: &mut Rng) -> BookDraft {
    if draft.records.is_empty() || rng.chance(10) {
        return draft;
    }
    let unbarred = which == Inapplicable::Any && rng.chance(10);
    let count = rng.range(2, 2 + 2 * draft.records.len()).min(STEP_LIMIT);
    let mut filing = Filing::new(&draft);
    for number in 0..count {
        let barred = !unbarred || number > 0;
        if rng.chance(25) {
            filing.add_record(barred, rng);
        } else {
            filing.insert(barred, rng);
        }
    }
    filing.world.book.in_form(draft.form)
}

/// Whether each value was seen of an atom: not to hold, to hold.
type Seen = [bool; 2];

struct Filing {
    /// Its book is full.
    world: World,
    /// Of each atom of each move, before the steps that went.
    seen: Vec<Vec<Seen>>,
    /// In which the book is kept within its limit, and its length there.
    form: Form,
    length: usize,
}

impl Filing {
    fn new(draft: &BookDraft) -> Self {
        let no_rule = || Rule { needed: None, effect: None };
        let world = World::with_rules(draft.in_form(Form::Full), no_rule);
        let mut seen: Vec<Vec<Seen>> =
            world.rules.iter().map(|atoms| vec![[false; 2]; atoms.len()]).collect();
        for record in &world.book.records {
            for (step, before) in record.steps.iter().zip(&record.states) {
                if went(step) {
                    let values = world.values(step, before);
                    let of_move = seen[action(step)].iter_mut();
                    of_move.zip(values).for_each(|(seen, value)| seen[usize::from(value)] = true);
                }
            }
        }
        Self { world, seen, form: draft.form, length: draft.length() }
    }

    /// Whether a learned need is unmet: an atom has a value that it had before no step
    /// of the move that went.
    fn is_barred(&self, step: &Step, state: &[Fact]) -> bool {
        let values = self.world.values(step, state);
        self.seen[action(step)].iter().zip(values).any(|(seen, value)| !seen[usize::from(value)])
    }

    /// A step in a record, in any of its states.
    fn insert(&mut self, barred: bool, rng: &mut Rng) {
        let index = rng.below(self.world.book.records.len());
        let record = &self.world.book.records[index];
        let drawn = (0..TRIES).find_map(|_| {
            let at = rng.below(record.states.len());
            let step = match rng.below(3) {
                0 => rng.pick(&record.steps).copied(),
                _ => self.world.step(&record.objects, rng),
            }?;
            (self.is_barred(&step, &record.states[at]) == barred).then_some((at, step))
        });
        let Some((at, step)) = drawn else { return };
        let state = record.states[at].clone();
        let length = self.length + 7 + if self.form == Form::Full { 3 * state.len() } else { 0 };
        if record.steps.len() < STEP_LIMIT && length <= BOOK_LIMIT {
            self.length = length;
            let record = &mut self.world.book.records[index];
            record.steps.insert(at, not_gone(step));
            record.states.insert(at, state);
        }
    }

    /// A record of one step that went elsewhere, in the state before it with a bound fact
    /// turned: all needs but one may be met there, or all.
    fn add_record(&mut self, barred: bool, rng: &mut Rng) {
        let records = &self.world.book.records;
        let drawn = (0..TRIES).find_map(|_| {
            let record = rng.pick(records)?;
            let index = rng.below(record.steps.len());
            let (step, mut state) = (record.steps[index], record.states[index].clone());
            if rng.chance(80) {
                self.world.turn_bound(&step, &mut state, rng);
            }
            let wanted = state.len() <= FACT_LIMIT && self.is_barred(&step, &state) == barred;
            wanted.then(|| RecordDraft {
                objects: record.objects.clone(),
                states: vec![state; 2],
                steps: vec![not_gone(step)],
            })
        });
        let Some(record) = drawn else { return };
        let length = self.length
            + match self.form {
                Form::Full => record.length(),
                Form::Short => record.rewritten(Form::Short).length(),
            };
        if records.len() < RECORD_LIMIT && length <= BOOK_LIMIT {
            self.length = length;
            let at = rng.range(0, records.len());
            self.world.book.records.insert(at, record);
        }
    }
}

impl World {
    /// The values that the atoms of the step's move have in a state.
    fn values(&self, step: &Step, state: &[Fact]) -> Vec<bool> {
        let holds = |fact: Fact| state.binary_search(&fact).is_ok();
        self.bound_facts(step).into_iter().map(holds).collect()
    }

    /// Turns one of the step's bound facts, if it has some.
    fn turn_bound(&self, step: &Step, state: &mut Vec<Fact>, rng: &mut Rng) {
        let Some(&fact) = rng.pick(&self.bound_facts(step)) else { return };
        match state.binary_search(&fact) {
            Ok(at) => drop(state.remove(at)),
            Err(at) => state.insert(at, fact),
        }
    }
}
