//! What one transition shows of its action, in either form of a book.

use crate::form::{States, Transition};
use crate::limits::{FACT_LENGTH, OBJECT_LIMIT, PARAMETER_LIMIT};
use crate::mask::{AtomMask, FactSet};

/// By the numbers of atoms: held throughout, added and deleted. Not each of these
/// need be an atom of the action: a parameter's object may be of a kind below the
/// parameter's, and suit more places.
pub struct Change {
    pub kept: AtomMask,
    pub added: AtomMask,
    pub deleted: AtomMask,
}

impl Change {
    const NONE: Self =
        Self { kept: AtomMask::EMPTY, added: AtomMask::EMPTY, deleted: AtomMask::EMPTY };

    /// `None` if a fact has changed whose objects are not all the step's. `atoms`
    /// are the action's; `places` says how many each relation has.
    pub fn of(transition: &Transition<'_>, atoms: AtomMask, places: &[usize]) -> Option<Self> {
        // Filled in place: copying what was just written in small parts stalls.
        let mut parameters = Parameters::NONE;
        parameters.bind(transition.step);
        match transition.states {
            States::Listed { before, after } => Self::of_lists(&parameters, before, after),
            States::Turned { turned, after } => {
                Self::of_turned(&parameters, turned, held(after, atoms, transition.step, places))
            }
        }
    }

    /// Merges the facts before and after, which are in the same order.
    fn of_lists(parameters: &Parameters, before: &[u8], after: &[u8]) -> Option<Self> {
        let mut change = Self::NONE;
        let (before, _) = before.as_chunks::<FACT_LENGTH>();
        let (after, _) = after.as_chunks::<FACT_LENGTH>();
        let (mut from, mut to) = (0, 0);
        while from < before.len() && to < after.len() {
            let (old, new) = (before[from], after[to]);
            if old == new {
                if let Some(atom) = parameters.atom(old) {
                    change.kept.insert(atom);
                }
                from += 1;
                to += 1;
            } else if old < new {
                change.deleted.insert(parameters.atom(old)?);
                from += 1;
            } else {
                change.added.insert(parameters.atom(new)?);
                to += 1;
            }
        }
        for &old in &before[from..] {
            change.deleted.insert(parameters.atom(old)?);
        }
        for &new in &after[to..] {
            change.added.insert(parameters.atom(new)?);
        }
        Some(change)
    }

    /// Of the action's atoms those in `held` hold after the step, so one that turned
    /// was added. For a fact that is none of them row 11 asks only whether it turned.
    fn of_turned(parameters: &Parameters, turned: &[u8], held: AtomMask) -> Option<Self> {
        let mut changed = AtomMask::EMPTY;
        let (turned, _) = turned.as_chunks::<FACT_LENGTH>();
        for &fact in turned {
            changed.insert(parameters.atom(fact)?);
        }
        let (added, deleted) = (held.and(changed), changed.without(held));
        Some(Self { kept: held.without(changed), added, deleted })
    }

    /// Whether all that changed is of these atoms.
    pub fn is_of(&self, atoms: AtomMask) -> bool {
        self.added.or(self.deleted).without(atoms).is_empty()
    }
}

/// Those of the atoms whose facts hold, with the step's objects put in for the
/// parameters. An unused place adds 0 to an atom's number and to a fact's.
fn held(state: &FactSet, atoms: AtomMask, step: &[u8], places: &[usize]) -> AtomMask {
    let mut held = AtomMask::EMPTY;
    let objects: [u8; PARAMETER_LIMIT] = std::array::from_fn(|n| step[n + 1].saturating_sub(1));
    for (relation, &places) in places.iter().enumerate() {
        if !atoms.has_relation(relation) {
            continue;
        }
        let used = |from: usize| if places > from { objects } else { [0; PARAMETER_LIMIT] };
        let (firsts, seconds) = (used(0), used(1));
        let any = seconds.iter().fold(0, |any, object| any | 1 << object);
        for (first, object) in firsts.into_iter().enumerate() {
            let row = state.held((OBJECT_LIMIT * relation) as u8 + object, any);
            // Few rows have a fact of the step's objects.
            if row != 0 {
                held.insert_seconds(relation, first, row, seconds);
            }
        }
    }
    held.and(atoms)
}

/// The way back from objects to parameters of one step. The binding is
/// injective, so each object has at most one parameter.
struct Parameters {
    /// By object number: the parameter's share of an atom's number in the
    /// second place, or [`UNBOUND`]. An unused place (object 0) adds 0.
    shares: [u16; OBJECT_LIMIT + 1],
}

/// Larger than any atom's number, even after the sum with another share.
const UNBOUND: u16 = 256;

impl Parameters {
    const NONE: Self = Self { shares: [UNBOUND; OBJECT_LIMIT + 1] };

    fn bind(&mut self, step: &[u8]) {
        for (parameter, &object) in (0..).zip(&step[1..]) {
            self.shares[usize::from(object)] = parameter;
        }
        // After the loop, in which an unused parameter has object 0.
        self.shares[0] = 0;
    }

    #[inline]
    fn atom(&self, [relation, first, second]: [u8; FACT_LENGTH]) -> Option<usize> {
        let first = self.shares[usize::from(first)];
        let second = self.shares[usize::from(second)];
        let number = 16 * (u16::from(relation) - 1) + 4 * first + second;
        (number < UNBOUND).then_some(usize::from(number))
    }
}
