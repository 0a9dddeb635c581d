//! Two rows of the table met in one order, or by an order and its end sheet: the
//! answer is the first. The orders are M2's with a few bytes changed.

use crate::answer::{Answer, Refusal};
use crate::calls::Job::Check;
use crate::limits::END_SHEET_LENGTH;
use crate::vectors::hall::{
    changed, m2, order, small_hall, AT_4, ROLL_2_3, ROLL_3_4, START, START_2_CLEAR,
};
use crate::vectors::paper::check;
use crate::vectors::Vector;

pub fn all() -> Vec<Vector> {
    let mut vectors = headers_to_starts();
    vectors.extend(goals_and_steps());
    vectors.extend(outputs());
    vectors
}

/// Where the parts of M2's order stand; the start's count is 2 before its facts.
const O_OBJECTS: usize = 16;
const O_START: usize = 22;
const O_GOAL: usize = 31;
const O_STEPS: usize = 35;

/// M2's order with these bytes put into it.
fn m2_with(name: &str, changes: &[(usize, &[u8])], answer: Answer) -> Vector {
    check(name, small_hall().bytes(), changed(m2().bytes(), changes), answer)
}

/// The answer is 14, 15 or 16.
fn headers_to_starts() -> Vec<Vector> {
    vec![
        m2_with("14 before 15", &[(15, &[36]), (O_OBJECTS, &[0])], Refusal::OrderHeader.at(0)),
        m2_with("14 before 18", &[(7, &[3]), (O_STEPS, &[2])], Refusal::OrderHeader.at(0)),
        m2_with("15: the first of two", &[(O_OBJECTS + 1, &[0, 3])], {
            Refusal::OrderObject.at(O_OBJECTS + 1)
        }),
        m2_with("15 before 16", &[(O_OBJECTS + 1, &[0]), (O_START, &[0, 0, 0])], {
            Refusal::OrderObject.at(O_OBJECTS + 1)
        }),
        m2_with("16: the first of two", &[(O_START + 3, &[3]), (O_START + 6, &[4])], {
            Refusal::Start.at(O_START + 3)
        }),
        m2_with("16 before 17", &[(O_START + 3, &[3]), (O_GOAL, &[2])], {
            Refusal::Start.at(O_START + 3)
        }),
    ]
}

/// The answer is 17 or 18.
fn goals_and_steps() -> Vec<Vector> {
    let two_goals = order(&START, &[(2, [1, 1, 2]), (2, AT_4)], &[]).bytes();
    let stops = order(&START_2_CLEAR, &[], &[ROLL_2_3, [1, 1, 3, 3, 0]]);
    let second_step = stops.layout().steps + 5;
    vec![
        check(
            "17: the first of two",
            small_hall().bytes(),
            two_goals,
            Refusal::GoalEntry.at(O_GOAL),
        ),
        m2_with("17 before 18", &[(O_GOAL, &[2]), (O_STEPS, &[2])], Refusal::GoalEntry.at(O_GOAL)),
        m2_with("18: the first of two", &[(O_STEPS, &[2]), (O_STEPS + 5, &[0])], {
            Refusal::PlanStep.at(O_STEPS)
        }),
        check(
            "18 of step 2 before 19 of step 1",
            small_hall().bytes(),
            stops.bytes(),
            Refusal::PlanStep.at(second_step),
        ),
        m2_with("18 before 20", &[(O_GOAL, &[0]), (O_STEPS + 5, &[1, 1, 4, 4])], {
            Refusal::PlanStep.at(O_STEPS + 5)
        }),
    ]
}

/// Row 13 before each later row; 14 is among the outputs.
fn outputs() -> Vec<Vector> {
    let before = |row: u32, order: Vec<u8>| {
        Vector::new(
            format!("13 before {row}"),
            &[Check],
            small_hall().bytes(),
            Refusal::Output.at(0),
        )
        .order(order)
        .output(END_SHEET_LENGTH - 1)
    };
    let wrong = |at: usize| changed(m2().bytes(), &[(at, &[9])]);
    vec![
        before(15, wrong(O_OBJECTS)),
        before(16, wrong(O_START)),
        before(17, wrong(O_GOAL)),
        before(18, wrong(O_STEPS)),
        before(19, order(&START, &[], &[ROLL_3_4]).bytes()),
        before(20, order(&START, &[(1, AT_4)], &[]).bytes()),
    ]
}
