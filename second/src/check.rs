//! Checking a plan from each of its starts: rows 13 to 20, and 22.

use crate::answer::{Answer, Refusal};
use crate::calls::Form;
use crate::form::Order;
use crate::learn::ActionModel;
use crate::limits::{END_SHEET_LENGTH, GOAL_LENGTH, STEP_LENGTH};
use crate::mask::{fact_number, FactSet};
use crate::plan::GroundPlan;

/// Every row; on a pass the place is the plan's step count. With one start the
/// end sheet is then written.
pub fn check(book: &[u8], form: Form, order: &[u8], end_sheet: &mut [u8]) -> Answer {
    let model = match ActionModel::learn(book, form) {
        Ok(model) => model,
        Err(refusal) => return refusal,
    };
    let Ok(end_sheet) = <&mut [u8; END_SHEET_LENGTH]>::try_from(end_sheet) else {
        return Refusal::Output.at(0);
    };
    let order = match Order::read(order, &model.front.signature) {
        Ok(order) => order,
        Err(refusal) => return refusal,
    };
    let plan = GroundPlan::of(order.steps, &model);
    let mut end = FactSet::EMPTY;
    for (index, start) in order.starts().enumerate() {
        end = match passes(&plan, start, order.goal) {
            Ok(end) => end,
            Err(refusal) => return refusal.from_start(index + 1),
        };
    }
    // Several starts have no one end state.
    if order.start_count == 1 {
        end.write(end_sheet);
    }
    Answer::success(order.steps.len() / STEP_LENGTH)
}

/// Rows 19 and 20 for one start alone; answers the end state.
fn passes(plan: &GroundPlan, start: &[u8], goal: &[u8]) -> Result<FactSet, Answer> {
    let end = plan.carry_out(FactSet::of(start))?;
    match missed_entry(goal, &end) {
        Some(entry) => Err(Refusal::GoalMissed.at(entry)),
        None => Ok(end),
    }
}

/// Row 20: the number, from 1, of the first entry that is false.
fn missed_entry(goal: &[u8], end: &FactSet) -> Option<usize> {
    goal.chunks_exact(GOAL_LENGTH)
        .position(|entry| {
            (entry[0] == 1) != end.contains(fact_number(entry[1], entry[2], entry[3]))
        })
        .map(|index| index + 1)
}
