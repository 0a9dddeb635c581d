//! A plan executed by the learned rules from each start alone, on states that are
//! lists of facts; rows 19 and 20.

use super::learning::{Rule, Rules};
use super::{end_sheet, Defined};
use crate::answer::{Answer, Refusal};
use crate::gen::{Fact, OrderDraft, Step};

/// The first start that fails decides. The end state is written if there is no other
/// start.
pub(super) fn check(model: &[Rules], order: &OrderDraft) -> Defined {
    let mut ends = Vec::new();
    for (position, start) in (1..).zip(&order.starts) {
        match alone(model, order, start) {
            Err(refused) => return Defined::refused(refused.from_start(position)),
            Ok(end) => ends.push(end),
        }
    }
    let written = match &ends[..] {
        [end] => Some(end_sheet(end)),
        _ => None,
    };
    Defined { answer: Answer::success(order.steps.len()), written }
}

/// The end state from one start, or why the plan fails.
fn alone(model: &[Rules], order: &OrderDraft, start: &[Fact]) -> Result<Vec<Fact>, Answer> {
    let mut state = start.to_vec();
    for (number, step) in (1..).zip(&order.steps) {
        let rules = &model[usize::from(step[0]) - 1];
        if !rules.iter().all(|rule| rule.is_met(step, &state)) {
            return Err(Refusal::NeedUnmet.at(number));
        }
        state = after(rules, step, &state);
    }
    match order.goal.iter().position(|(holds, fact)| (*holds == 1) != state.contains(fact)) {
        Some(index) => Err(Refusal::GoalMissed.at(index + 1)),
        None => Ok(state),
    }
}

impl Rule {
    /// Whether what is needed of the atom is so in this state.
    pub(super) fn is_met(&self, step: &Step, state: &[Fact]) -> bool {
        let holds = state.contains(&self.atom.fact(step));
        (holds || !self.pre_pos) && !(holds && self.pre_neg)
    }
}

/// The added facts then hold, the removed ones do not, and all others stay.
fn after(rules: &[Rule], step: &Step, state: &[Fact]) -> Vec<Fact> {
    let facts = |is_of: fn(&Rule) -> bool| -> Vec<Fact> {
        rules.iter().filter(|rule| is_of(rule)).map(|rule| rule.atom.fact(step)).collect()
    };
    let (added, removed) = (facts(|rule| rule.add), facts(|rule| rule.delete));
    let stays = |fact: &&Fact| !added.contains(fact) && !removed.contains(fact);
    state.iter().filter(stays).chain(&added).copied().collect()
}
