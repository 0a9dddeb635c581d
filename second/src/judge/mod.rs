//! The judge of the paper, by brute force, for moves of few lifted atoms.
//!
//! He enumerates every action model over the lifted atoms, keeps those that are
//! consistent with each record and have an unmet need wherever a step did not go, and
//! carries the plan out under each. He knows
//! nothing of learned needs, of effects seen or of the rule sheet, and reads
//! the bytes, which must be of good form, by himself. Of a short book he holds the
//! models that are consistent with the states that its lists make.

mod reading;
mod state;

use std::cmp::Reverse;

use crate::calls::Form;
use reading::{is_tiny, read_book, read_order};
use state::{State, FULL, TINY};

/// His verdict on a start alone; `end` lists the facts of the end state in order.
#[derive(Debug, PartialEq, Eq)]
pub enum Verdict {
    Impossible,
    Stops { step: u32 },
    Misses { entry: u32 },
    Passes { steps: u32, end: Vec<[u8; 3]> },
}

/// His verdict on a start alone, and how many facts held at most, up to the step
/// of a stop or up to the end, under a model that comes to it; 0 if none fits.
pub struct Judgement {
    pub verdict: Verdict,
    pub most: usize,
}

/// What one model comes to. The verdict is the first of these, in this order,
/// to which any model comes.
#[derive(PartialEq, Eq, PartialOrd, Ord)]
enum Outcome {
    Stops(u32),
    Misses(u32),
    Passes,
}

/// One rule list for one move, over the move's atoms by their index.
#[derive(Clone, Copy)]
struct Rules {
    pre_pos: u32,
    pre_neg: u32,
    add: u32,
    delete: u32,
}

/// Four needs (none, hold, not hold, both) by three effects (none, add, delete).
const CHOICES: u32 = 12;

/// A lifted atom: a relation, and for each place the parameter from 0 or `None`.
struct Atom {
    relation: u8,
    parameters: [Option<usize>; 2],
}

/// A step with each atom of its move as a fact: that of atom i at index i.
struct GroundStep {
    action: usize,
    facts: Vec<usize>,
}

struct Transition<const WORDS: usize> {
    step: GroundStep,
    went: bool,
    before: State<WORDS>,
    after: State<WORDS>,
}

struct Plan<const WORDS: usize> {
    starts: Vec<State<WORDS>>,
    steps: Vec<GroundStep>,
    goal: Vec<(bool, usize)>,
}

/// The judge's verdict on a book and each start of an order, both of good form.
///
/// # Panics
/// If a record has no steps, if a move has over 8 lifted atoms, or if the end states
/// of a passing plan differ between models.
#[must_use]
pub fn verdicts(book: &[u8], form: Form, order: &[u8]) -> Vec<Verdict> {
    judge(book, form, order).into_iter().map(|judgement| judgement.verdict).collect()
}

/// As [`verdicts`], with how many facts held at most.
#[must_use]
pub fn judge(book: &[u8], form: Form, order: &[u8]) -> Vec<Judgement> {
    judge_by(book, form, order, Steps::All)
}

/// As if the steps that did not go were absent from the records, each other step keeping
/// its own two states.
#[must_use]
pub fn judge_absent(book: &[u8], form: Form, order: &[u8]) -> Vec<Judgement> {
    judge_by(book, form, order, Steps::Went)
}

/// The recorded steps that a rule list must fit.
#[derive(Clone, Copy, PartialEq, Eq)]
enum Steps {
    All,
    Went,
}

fn judge_by(book: &[u8], form: Form, order: &[u8], steps: Steps) -> Vec<Judgement> {
    if is_tiny(book, order) {
        judge_in::<TINY>(book, form, order, steps)
    } else {
        judge_in::<FULL>(book, form, order, steps)
    }
}

/// The first start from which the plan does not pass: its position from 1, and
/// what he says of it.
#[must_use]
pub fn failing(judgements: &[Judgement]) -> Option<(usize, &Judgement)> {
    let passes = |judgement: &Judgement| matches!(judgement.verdict, Verdict::Passes { .. });
    (1..).zip(judgements).find(|(_, judgement)| !passes(judgement))
}

fn judge_in<const WORDS: usize>(
    book: &[u8],
    form: Form,
    order: &[u8],
    steps: Steps,
) -> Vec<Judgement> {
    let (atoms, mut transitions) = read_book::<WORDS>(book, form);
    transitions.retain(|transition| transition.went || steps == Steps::All);
    let kept = consistent(&atoms, &transitions);
    let plan = read_order::<WORDS>(order, &atoms);
    plan.starts.iter().map(|start| judge_start(start, &plan, &kept)).collect()
}

/// Carries the plan out from this start under each model of the kept rules.
fn judge_start<const WORDS: usize>(
    start: &State<WORDS>,
    plan: &Plan<WORDS>,
    kept: &[Vec<Rules>],
) -> Judgement {
    if kept.iter().any(Vec::is_empty) {
        return Judgement { verdict: Verdict::Impossible, most: 0 };
    }
    // Begins as the last in order; of equal outcomes the one of most facts counts.
    let mut first = (Outcome::Passes, Reverse(0));
    let mut ends = Vec::new();
    let mut model = vec![0; kept.len()];
    loop {
        let (most, end) = plan.carry_out(start, |action| kept[action][model[action]]);
        let outcome = match &end {
            Err(step) => Outcome::Stops(*step),
            Ok(end) => plan.missed(end).map_or(Outcome::Passes, Outcome::Misses),
        };
        first = first.min((outcome, Reverse(most)));
        if let Some(end) = end.ok().filter(|end| !ends.contains(end)) {
            ends.push(end);
        }
        if !advance(&mut model, kept) {
            break;
        }
    }
    let (outcome, Reverse(most)) = first;
    let verdict = match outcome {
        Outcome::Stops(step) => Verdict::Stops { step },
        Outcome::Misses(entry) => Verdict::Misses { entry },
        Outcome::Passes => {
            assert_eq!(ends.len(), 1, "the end states of a passing plan differ");
            Verdict::Passes { steps: plan.steps.len() as u32, end: ends[0].facts() }
        }
    };
    Judgement { verdict, most }
}

/// The rule lists of each move that fit all its recorded steps. A step asks for
/// the rules of its own move alone, so the models that are consistent with the
/// records are all combinations of these.
fn consistent<const WORDS: usize>(
    atoms: &[Vec<Atom>],
    transitions: &[Transition<WORDS>],
) -> Vec<Vec<Rules>> {
    let lists = |(action, atoms): (usize, &Vec<Atom>)| {
        let of_action: Vec<_> =
            transitions.iter().filter(|transition| transition.step.action == action).collect();
        let count = CHOICES.checked_pow(atoms.len() as u32).expect("few lifted atoms");
        (0..count)
            .map(|number| Rules::numbered(number, atoms.len()))
            .filter(|rules| of_action.iter().all(|transition| rules.fits(transition)))
            .collect()
    };
    atoms.iter().enumerate().map(lists).collect()
}

/// The next combination, the first move's choice changing fastest.
fn advance(model: &mut [usize], kept: &[Vec<Rules>]) -> bool {
    for (choice, lists) in model.iter_mut().zip(kept) {
        *choice += 1;
        if *choice < lists.len() {
            return true;
        }
        *choice = 0;
    }
    false
}

impl Rules {
    /// The digits of `number` to base 12 are the choices for the atoms.
    fn numbered(mut number: u32, atoms: usize) -> Self {
        let mut rules = Self { pre_pos: 0, pre_neg: 0, add: 0, delete: 0 };
        for atom in 0..atoms {
            let (need, effect) = (number % CHOICES % 4, number % CHOICES / 4);
            rules.pre_pos |= (need & 1) << atom;
            rules.pre_neg |= (need >> 1) << atom;
            rules.add |= u32::from(effect == 1) << atom;
            rules.delete |= u32::from(effect == 2) << atom;
            number /= CHOICES;
        }
        rules
    }

    /// Whether the step goes.
    fn applicable<const WORDS: usize>(&self, step: &GroundStep, state: &State<WORDS>) -> bool {
        let held = step.held(state);
        self.pre_pos & !held == 0 && self.pre_neg & held == 0
    }

    /// Changes just the added and removed facts.
    fn change<const WORDS: usize>(&self, step: &GroundStep, state: &mut State<WORDS>) {
        for (atom, &fact) in step.facts.iter().enumerate() {
            if self.add >> atom & 1 == 1 {
                state.set(fact, true);
            }
            if self.delete >> atom & 1 == 1 {
                state.set(fact, false);
            }
        }
    }

    /// A step that did not go asks only that some need was unmet.
    fn fits<const WORDS: usize>(&self, transition: &Transition<WORDS>) -> bool {
        let applicable = self.applicable(&transition.step, &transition.before);
        if !transition.went {
            return !applicable;
        }
        applicable && {
            let mut state = transition.before.clone();
            self.change(&transition.step, &mut state);
            state == transition.after
        }
    }
}

impl GroundStep {
    /// The atoms whose facts hold.
    fn held<const WORDS: usize>(&self, state: &State<WORDS>) -> u32 {
        let bit = |(atom, &fact): (usize, &usize)| u32::from(state.holds(fact)) << atom;
        self.facts.iter().enumerate().map(bit).sum()
    }
}

impl<const WORDS: usize> Plan<WORDS> {
    /// From one start, under one model: how many facts held at most, and the end
    /// state or the number from 1 of the step at which the model stops.
    fn carry_out(
        &self,
        start: &State<WORDS>,
        rules: impl Fn(usize) -> Rules,
    ) -> (usize, Result<State<WORDS>, u32>) {
        let mut state = start.clone();
        let mut most = state.count;
        for (number, step) in (1u32..).zip(&self.steps) {
            let rules = rules(step.action);
            if !rules.applicable(step, &state) {
                return (most, Err(number));
            }
            rules.change(step, &mut state);
            most = most.max(state.count);
        }
        (most, Ok(state))
    }

    /// The number, from 1, of the first goal entry that is missed in `end`.
    fn missed(&self, end: &State<WORDS>) -> Option<u32> {
        let missed = |&(holds, fact): &(bool, usize)| end.holds(fact) != holds;
        self.goal.iter().position(missed).map(|index| index as u32 + 1)
    }
}
