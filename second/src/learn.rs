//! Learning the action model of a book: rows 11, 12 and 28, and the rule sheet.
//!
//! The records are walked once. What is held of an action is the mask of its
//! lifted atoms, made before the first record, and six masks more, met or joined
//! with those of each of its transitions. For row 28 alone the records that have steps
//! which did not go are walked again.

use crate::answer::{Answer, Refusal};
use crate::calls::Form;
use crate::change::Change;
use crate::form::{self, Front, Observer, Signature, Transition};
use crate::limits::{MOVE_LIMIT, RULES_LENGTH, SET_LENGTH};
use crate::mask::AtomMask;

/// The lifted atoms of one action, and of these the learned preconditions and
/// effects.
#[derive(Clone, Copy, Debug, PartialEq, Eq)]
pub struct Rules {
    pub atoms: AtomMask,
    pub pre_pos: AtomMask,
    pub pre_neg: AtomMask,
    pub add: AtomMask,
    pub delete: AtomMask,
}

/// A book that learns: its first sections and one [`Rules`] for each move.
pub struct ActionModel {
    pub front: Front,
    pub actions: Vec<Rules>,
}

impl ActionModel {
    /// Rows 1 to 12, 21, 24, 27 and 28.
    pub fn learn(book: &[u8], form: Form) -> Result<Self, Answer> {
        let mut trajectories = Trajectories::new();
        let front = form::walk(book, form, &mut trajectories)?;
        if let Some(step_at) = trajectories.unbound_change {
            return Err(Refusal::UnboundChange.at(step_at));
        }
        let observed = &trajectories.observed[..front.signature.moves.len()];
        if let Some(index) = observed.iter().position(Observed::conflict) {
            return Err(Refusal::EffectConflict.at(index + 1));
        }
        let actions: Vec<Rules> = observed.iter().map(Observed::rules).collect();
        if let Some(step_at) = trajectories.needs_met(book, form, &front, &actions) {
            return Err(Refusal::NeedsMet.at(step_at));
        }
        Ok(Self { front, actions })
    }
}

impl Rules {
    /// Whether the learned needs are met where just these of the atoms hold.
    fn are_met(&self, held: AtomMask) -> bool {
        self.pre_pos.without(held).is_empty() && self.pre_neg.and(held).is_empty()
    }
}

/// Rows 1 to 13, 21, 24, 27 and 28; on success the sheet is written and the place is
/// the step total.
pub fn learn(book: &[u8], form: Form, sheet: &mut [u8]) -> Answer {
    let model = match ActionModel::learn(book, form) {
        Ok(model) => model,
        Err(refusal) => return refusal,
    };
    if sheet.len() != RULES_LENGTH * model.actions.len() {
        return Refusal::Output.at(0);
    }
    for (part, rules) in sheet.chunks_exact_mut(RULES_LENGTH).zip(&model.actions) {
        let sets = [rules.pre_pos, rules.pre_neg, rules.add, rules.delete];
        for (bytes, set) in part.chunks_exact_mut(SET_LENGTH).zip(sets) {
            bytes.copy_from_slice(&set.bytes());
        }
    }
    Answer::success(model.front.steps)
}

/// What the transitions of one action have shown of its atoms. The masks of
/// values say nothing of other atoms.
#[derive(Clone, Copy)]
struct Observed {
    atoms: AtomMask,
    always_before: AtomMask,
    ever_before: AtomMask,
    always_after: AtomMask,
    ever_after: AtomMask,
    added: AtomMask,
    deleted: AtomMask,
}

impl Observed {
    /// Of an action never recorded: every atom is needed both ways.
    const NOTHING: Self = Self {
        atoms: AtomMask::EMPTY,
        always_before: AtomMask::FULL,
        ever_before: AtomMask::EMPTY,
        always_after: AtomMask::FULL,
        ever_after: AtomMask::EMPTY,
        added: AtomMask::EMPTY,
        deleted: AtomMask::EMPTY,
    };

    fn join(&mut self, change: &Change) {
        let before = change.kept.or(change.deleted);
        let after = change.kept.or(change.added);
        self.always_before = self.always_before.and(before);
        self.ever_before = self.ever_before.or(before);
        self.always_after = self.always_after.and(after);
        self.ever_after = self.ever_after.or(after);
        self.added = self.added.or(change.added);
        self.deleted = self.deleted.or(change.deleted);
    }

    /// Row 12: an atom was changed to one value and had the other after some step.
    fn conflict(&self) -> bool {
        !self.added.without(self.always_after).is_empty()
            || !self.deleted.and(self.ever_after).is_empty()
    }

    fn rules(&self) -> Rules {
        Rules {
            atoms: self.atoms,
            pre_pos: self.atoms.and(self.always_before),
            pre_neg: self.atoms.without(self.ever_before),
            add: self.added,
            delete: self.deleted,
        }
    }
}

struct Trajectories {
    /// Of each relation how many.
    places: Vec<usize>,
    observed: [Observed; MOVE_LIMIT],
    /// The first step that changed a fact which is none of its atoms.
    unbound_change: Option<usize>,
    /// How many records were walked to their end, and the bits of those, from 0, that
    /// have steps which did not go.
    walked: usize,
    inapplicable: u64,
}

impl Trajectories {
    fn new() -> Self {
        let observed = [Observed::NOTHING; MOVE_LIMIT];
        Self { places: Vec::new(), observed, unbound_change: None, walked: 0, inapplicable: 0 }
    }

    /// Row 28: the first step that did not go although all learned needs were met. It
    /// changed nothing, so that what it kept is what held before it.
    fn needs_met(
        &self,
        book: &[u8],
        form: Form,
        front: &Front,
        actions: &[Rules],
    ) -> Option<usize> {
        form::find_inapplicable(book, form, &front.header, self.inapplicable, |transition| {
            let rules = &actions[transition.action()];
            let change = Change::of(transition, rules.atoms, &self.places);
            change.is_some_and(|change| rules.are_met(change.kept))
        })
    }
}

impl Observer for Trajectories {
    fn begin(&mut self, signature: &Signature) {
        self.places = signature.relations.iter().map(|relation| relation.places).collect();
        for (observed, action) in self.observed.iter_mut().zip(&signature.moves) {
            observed.atoms = signature.atoms(action);
        }
    }

    fn observe(&mut self, transition: &Transition<'_>) {
        if !transition.went() {
            self.inapplicable |= 1 << self.walked;
            return;
        }
        // Row 11 stands before 12, so nothing after such a step matters.
        if self.unbound_change.is_some() {
            return;
        }
        let observed = &mut self.observed[usize::from(transition.step[0]) - 1];
        match Change::of(transition, observed.atoms, &self.places) {
            Some(change) if change.is_of(observed.atoms) => observed.join(&change),
            _ => self.unbound_change = Some(transition.step_at),
        }
    }

    fn end_record(&mut self) {
        self.walked += 1;
    }
}
