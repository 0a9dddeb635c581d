//! Plans from several starts, by hand, on the small hall: which start decides,
//! its position, and an end sheet that is left alone.
//!
//! Bank 1 rolls from spot 2 by spot 3 to spot 4. Nothing moves bank 5, which the
//! goal wants at spot 2 and not at spot 4.

use crate::answer::{Answer, Refusal};
use crate::gen::{Fact, OrderDraft};
use crate::limits::START_LIMIT;
use crate::vectors::hall::{empty_end, end_sheet, filed, small_hall, with, ROLL_2_3, ROLL_3_4};
use crate::vectors::paper::check;
use crate::vectors::Vector;

type Start = &'static [Fact];

const PASSES: Start = &[[1, 1, 2], [1, 5, 2], [2, 3, 0], [2, 4, 0]];
/// Bank 5 is at spot 3 too, which nothing asks for.
const PASSES_TOO: Start = &[[1, 1, 2], [1, 5, 2], [1, 5, 3], [2, 3, 0], [2, 4, 0]];
/// Spot 2 is clear.
const STOPS_AT_1: Start = &[[1, 1, 2], [1, 5, 2], [2, 2, 0], [2, 3, 0], [2, 4, 0]];
/// Spot 4 is not clear.
const STOPS_AT_2: Start = &[[1, 1, 2], [1, 5, 2], [2, 3, 0]];
/// Bank 5 is not at spot 2.
const MISSES_2: Start = &[[1, 1, 2], [2, 3, 0], [2, 4, 0]];
/// Bank 5 is at spot 4 too.
const MISSES_3: Start = &[[1, 1, 2], [1, 5, 2], [1, 5, 4], [2, 3, 0], [2, 4, 0]];
/// Nothing holds, so that bank 1 is nowhere.
const EMPTY: Start = &[];

fn order(starts: &[Start]) -> OrderDraft {
    OrderDraft {
        objects: vec![1, 2, 2, 2, 1],
        starts: starts.iter().map(|start| start.to_vec()).collect(),
        goal: vec![(1, [1, 1, 4]), (1, [1, 5, 2]), (0, [1, 5, 4])],
        steps: vec![ROLL_2_3, ROLL_3_4],
    }
}

fn plan(name: &str, starts: &[Start], answer: Answer) -> Vector {
    let name = format!("starts: {name}");
    check(&name, small_hall().bytes(), order(starts).bytes(), answer)
}

fn stops(step: usize, position: usize) -> Answer {
    Refusal::NeedUnmet.at(step).from_start(position)
}

fn misses(entry: usize, position: usize) -> Answer {
    Refusal::GoalMissed.at(entry).from_start(position)
}

pub fn all() -> Vec<Vector> {
    let mut vectors = passes();
    vectors.extend(first_that_fails());
    vectors.extend(each_position());
    vectors.extend(without_steps());
    vectors.extend(outputs());
    vectors
}

/// With more than one start no byte of the end sheet is written.
fn passes() -> Vec<Vector> {
    let pass = Answer::success(2);
    let end = [[1, 1, 4], [1, 5, 2], [2, 2, 0], [2, 3, 0]];
    vec![
        plan("one passes", &[PASSES], pass).after(end_sheet(&end)),
        plan("two pass", &[PASSES, PASSES_TOO], pass),
        plan("two equal ones pass", &[PASSES, PASSES], pass),
        plan("three pass, the last as the first", &[PASSES, PASSES_TOO, PASSES], pass),
        plan("15 pass", &[PASSES; START_LIMIT - 1], pass),
        plan("16 equal ones pass", &[PASSES; START_LIMIT], pass),
        plan("16 pass in pairs", &[PASSES, PASSES_TOO].repeat(START_LIMIT / 2), pass),
    ]
}

fn first_that_fails() -> Vec<Vector> {
    vec![
        plan("the second stops, at step 1", &[PASSES, STOPS_AT_1], stops(1, 2)),
        plan("the second stops, at step 2", &[PASSES, STOPS_AT_2], stops(2, 2)),
        plan("the second misses", &[PASSES, MISSES_2], misses(2, 2)),
        plan("the first alone stops, at step 1", &[STOPS_AT_1, PASSES], stops(1, 1)),
        plan("the first alone stops, at step 2", &[STOPS_AT_2, PASSES, PASSES], stops(2, 1)),
        plan("the first alone misses", &[MISSES_3, PASSES], misses(3, 1)),
        plan("the second of three stops", &[PASSES, STOPS_AT_2, PASSES_TOO], stops(2, 2)),
        plan("the second of three misses", &[PASSES, MISSES_3, PASSES], misses(3, 2)),
        plan("20 before 19 at step 1", &[MISSES_2, STOPS_AT_1], misses(2, 1)),
        plan("20 of entry 3 before 19", &[MISSES_3, EMPTY], misses(3, 1)),
        plan("20 of the second before 19", &[PASSES, MISSES_2, STOPS_AT_1], misses(2, 2)),
        plan("19 before 20", &[STOPS_AT_2, MISSES_2], stops(2, 1)),
        plan("both stop, the first later", &[STOPS_AT_2, STOPS_AT_1], stops(2, 1)),
        plan("both stop, the first earlier", &[STOPS_AT_1, STOPS_AT_2], stops(1, 1)),
        plan("both miss, the first a later entry", &[MISSES_3, MISSES_2], misses(3, 1)),
        plan("both miss, the first an earlier entry", &[MISSES_2, MISSES_3], misses(2, 1)),
        plan("all stop", &[STOPS_AT_2; START_LIMIT], stops(2, 1)),
        plan("all but the first stop", &[&[PASSES][..], &[STOPS_AT_1; 15]].concat(), stops(1, 2)),
        plan("a start of no facts", &[EMPTY], stops(1, 1)),
        plan("a start of no facts first", &[EMPTY, PASSES], stops(1, 1)),
        plan("a start of no facts last", &[PASSES, PASSES_TOO, EMPTY], stops(1, 3)),
    ]
}

/// Of 16 starts just one fails.
fn each_position() -> Vec<Vector> {
    let fails = [(STOPS_AT_2, stops(2, 0)), (MISSES_3, misses(3, 0)), (EMPTY, stops(1, 0))];
    (1..=START_LIMIT)
        .map(|position| {
            let (start, answer) = fails[position % fails.len()];
            let mut starts = [PASSES; START_LIMIT];
            starts[position - 1] = start;
            let name = format!("of 16 number {position} alone fails");
            plan(&name, &starts, answer.from_start(position))
        })
        .collect()
}

/// The goal alone decides, and no step may hide what a start begins as.
fn without_steps() -> Vec<Vector> {
    let plan = |name, starts: &[Start], goal: &[(u8, Fact)], answer| {
        let order = OrderDraft { goal: goal.to_vec(), steps: Vec::new(), ..order(starts) };
        check(name, small_hall().bytes(), order.bytes(), answer)
    };
    let (clear_2, at_2) = ([2, 2, 0], [1, 1, 2]);
    let pass = Answer::success(0);
    let starts = [STOPS_AT_1, STOPS_AT_2];
    vec![
        plan("starts: of no facts, no goal and no steps", &[EMPTY, EMPTY], &[], pass),
        plan("starts: no steps, both meet the goal", &starts, &[(1, at_2)], pass),
        plan("starts: no steps, the second lacks a fact", &starts, &[(1, clear_2)], misses(1, 2)),
        plan("starts: no steps, the first has a fact", &starts, &[(0, clear_2)], misses(1, 1)),
        plan("starts: no steps, the second has a fact", &[EMPTY, PASSES], &[(0, at_2)], {
            misses(1, 2)
        }),
    ]
}

/// The length of the end sheet is asked for all the same, and a book that does
/// not learn is refused before.
fn outputs() -> Vec<Vector> {
    let two = [PASSES, PASSES_TOO];
    let mut vectors: Vec<Vector> = [0, 511, 513, 1024]
        .map(|length| {
            let name = format!("two pass, 13 with {length} bytes");
            plan(&name, &two, Refusal::Output.at(0)).output(length)
        })
        .to_vec();
    let conflict = with([filed(), empty_end()]).bytes();
    vectors.extend([
        plan("13 before 19", &[PASSES, STOPS_AT_1], Refusal::Output.at(0)).output(511),
        plan("13 before 20", &[PASSES, MISSES_2], Refusal::Output.at(0)).output(0),
        check("starts: 12 before 19", conflict, order(&[PASSES, STOPS_AT_1]).bytes(), {
            Refusal::EffectConflict.at(1)
        }),
    ]);
    vectors
}
