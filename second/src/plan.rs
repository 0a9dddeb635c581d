//! The steps of a plan over the facts of its hall, by the learned action model.
//! They are grounded once for all starts.

use crate::answer::{Answer, Refusal};
use crate::form::Relation;
use crate::learn::{ActionModel, Rules};
use crate::limits::{OBJECT_LIMIT, PARAMETER_LIMIT, RELATION_LIMIT, STEP_LENGTH};
use crate::mask::{FactSet, Row};

pub struct GroundPlan {
    /// Those of all steps, one after another, and likewise the effects.
    needs: Vec<RowNeeds>,
    effects: Vec<RowEffects>,
    /// For each step where its needs and its effects end.
    ends: Vec<(usize, usize)>,
}

/// What a step needs of one row of a state.
struct RowNeeds {
    row: u8,
    pre_pos: Row,
    pre_neg: Row,
}

/// What a step does to one row of a state. Its objects differ, so that no row
/// comes twice.
struct RowEffects {
    row: u8,
    add: Row,
    delete: Row,
}

/// The rows that a step has needs of at most.
const STEP_ROWS: usize = RELATION_LIMIT * PARAMETER_LIMIT;

impl GroundPlan {
    /// `steps` are the bytes of an order's steps, of good form.
    #[must_use]
    pub fn of(steps: &[u8], model: &ActionModel) -> Self {
        let count = steps.len() / STEP_LENGTH;
        let mut plan = Self {
            needs: Vec::with_capacity(STEP_ROWS * count),
            effects: Vec::new(),
            ends: Vec::with_capacity(count),
        };
        for step in steps.chunks_exact(STEP_LENGTH) {
            let rules = &model.actions[usize::from(step[0]) - 1];
            plan.push(rules, &Binding::of(step), &model.front.signature.relations);
        }
        plan
    }

    fn push(&mut self, rules: &Rules, binding: &Binding, relations: &[Relation]) {
        for (index, relation) in relations.iter().enumerate() {
            if !rules.atoms.has_relation(index) {
                continue;
            }
            let facts = binding.second_objects(relation);
            for first in 0..PARAMETER_LIMIT {
                let row = (OBJECT_LIMIT * index + binding.first_object(relation, first)) as u8;
                let pre_pos = facts[rules.pre_pos.seconds(index, first)];
                let pre_neg = facts[rules.pre_neg.seconds(index, first)];
                if pre_pos | pre_neg != 0 {
                    self.needs.push(RowNeeds { row, pre_pos, pre_neg });
                }
                let add = facts[rules.add.seconds(index, first)];
                let delete = facts[rules.delete.seconds(index, first)];
                if add | delete != 0 {
                    self.effects.push(RowEffects { row, add, delete });
                }
            }
        }
        self.ends.push((self.needs.len(), self.effects.len()));
    }

    /// Row 19, step by step; answers the state at the plan's end.
    pub fn carry_out(&self, mut state: FactSet) -> Result<FactSet, Answer> {
        let mut from = (0, 0);
        for (index, &end) in self.ends.iter().enumerate() {
            if !applicable(&self.needs[from.0..end.0], &state) {
                return Err(Refusal::NeedUnmet.at(index + 1));
            }
            for effects in &self.effects[from.1..end.1] {
                state.insert_all(effects.row, effects.add);
                state.remove_all(effects.row, effects.delete);
            }
            from = end;
        }
        Ok(state)
    }
}

fn applicable(needs: &[RowNeeds], state: &FactSet) -> bool {
    needs.iter().all(|&RowNeeds { row, pre_pos, pre_neg }| {
        state.held(row, pre_pos) == pre_pos && state.held(row, pre_neg) == 0
    })
}

/// For each set of parameters as bits a set of second objects, likewise.
type SecondObjects = [Row; 1 << PARAMETER_LIMIT];

/// The objects of a step, put in for the parameters of its move.
struct Binding {
    /// From 0, as they stand in a fact's number.
    objects: [usize; PARAMETER_LIMIT],
    sets: SecondObjects,
}

impl Binding {
    fn of(step: &[u8]) -> Self {
        let objects = std::array::from_fn(|index| usize::from(step[index + 1].saturating_sub(1)));
        let mut sets = [0; 1 << PARAMETER_LIMIT];
        for (parameter, &object) in objects.iter().enumerate() {
            for set in 0..1 << parameter {
                sets[set | 1 << parameter] = sets[set] | 1 << object;
            }
        }
        Self { objects, sets }
    }

    /// An unused place adds 0 to an atom's number and to a fact's.
    fn first_object(&self, relation: &Relation, first: usize) -> usize {
        if relation.places > 0 {
            self.objects[first]
        } else {
            0
        }
    }

    /// As an unused place adds 0, its atoms have bit 0 alone, and so the facts.
    fn second_objects(&self, relation: &Relation) -> &SecondObjects {
        const UNUSED: SecondObjects = [0, 1, 0, 0, 0, 0, 0, 0, 0, 0, 0, 0, 0, 0, 0, 0];
        if relation.places > 1 {
            &self.sets
        } else {
            &UNUSED
        }
    }
}
