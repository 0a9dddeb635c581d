//! How many starts there are, and where they end, by hand: rows 22 and 14, and
//! orders at the limit of both. The orders are M2's with a few bytes changed.

use crate::answer::{Answer, Refusal};
use crate::gen::plan::order::at_the_limits;
use crate::gen::{Fact, OrderDraft};
use crate::limits::{FACT_LIMIT, START_LIMIT};
use crate::vectors::hall::{changed, empty_end, filed, m2, small_hall, with, START};
use crate::vectors::paper::check;
use crate::vectors::Vector;

pub fn all() -> Vec<Vector> {
    let mut vectors = counts();
    vectors.extend(beside_other_rows());
    vectors.extend(goal_offsets());
    vectors.extend(at_every_limit());
    vectors
}

fn refused(name: &str, order: Vec<u8>, answer: Answer) -> Vector {
    check(name, small_hall().bytes(), order, answer)
}

fn count() -> Answer {
    Refusal::StartCount.at(0)
}

fn counts() -> Vec<Vector> {
    let of = |starts: usize| OrderDraft { starts: vec![START.to_vec(); starts], ..m2() };
    // By their last byte 0, 1 or 16, or below 0 with a sign.
    let mut vectors: Vec<Vector> = [0u16, 17, 18, 255, 256, 257, 272, 32_769, 65_535]
        .map(|number| {
            let order = changed(m2().bytes(), &[(2, &number.to_be_bytes())]);
            refused(&format!("22: {number} starts counted"), order, count())
        })
        .to_vec();
    vectors.extend([
        refused("22: no start, laid out in full", of(0).bytes(), count()),
        refused("22: 17 starts, laid out in full", of(17).bytes(), count()),
        refused("limit: 16 starts", of(START_LIMIT).bytes(), Answer::success(2)),
        refused("22: no start, no goal and no steps", OrderDraft::default().bytes(), count()),
    ]);
    vectors
}

/// 22 stands between the counts and the offsets of 14.
fn beside_other_rows() -> Vec<Vector> {
    let case = |name: &str, starts: u16, changes: &[(usize, &[u8])], answer| {
        let order = changed(m2().bytes(), &[(2, &starts.to_be_bytes())]);
        refused(name, changed(order, changes), answer)
    };
    let header = Refusal::OrderHeader.at(0);
    let none = || changed(m2().bytes(), &[(3, &[0])]);
    let conflict = with([filed(), empty_end()]).bytes();
    let mut vectors = vec![
        case("14 before 22: 17 objects", 0, &[(1, &[17])], header),
        case("14 before 22: 65 entries", 17, &[(5, &[65])], header),
        case("14 before 22: 65 steps", 65_535, &[(7, &[65])], header),
        refused("14 before 22: 15 bytes", none()[..15].to_vec(), header),
        refused("14 before 22: 4 bytes", none()[..4].to_vec(), header),
        refused("22 before 14: 16 bytes", none()[..16].to_vec(), count()),
        refused("22 before 14: a byte behind the steps", [&none()[..], &[0]].concat(), count()),
        refused("22 before 14: the last step cut off", none()[..40].to_vec(), count()),
        case("22 before 15", 17, &[(16, &[0])], count()),
        case("22 before 16", 0, &[(22, &[3])], count()),
        case("22 before 17", 17, &[(31, &[2])], count()),
        case("22 before 18", 0, &[(35, &[2])], count()),
        refused("13 before 22", none(), Refusal::Output.at(0)).output(511),
        check("12 before 22", conflict, none(), Refusal::EffectConflict.at(1)),
    ];
    // Each offset one off, and the goal's before the start's.
    for (field, wrong) in [(9, 17), (11, 21), (13, 32), (13, 19), (13, 0), (15, 36)] {
        for starts in [0, 17] {
            let name = format!("22 before 14: {starts} starts, byte {field} is {wrong}");
            vectors.push(case(&name, starts, &[(field, &[wrong])], count()));
        }
    }
    vectors
}

/// An order that is laid out in full but for where the goal stands.
fn goal_offsets() -> Vec<Vector> {
    let header = Refusal::OrderHeader.at(0);
    let before = |goal: u8, steps: usize| {
        let mut order = m2().bytes();
        order.truncate(16 + 4);
        order.resize(usize::from(goal) + 4 + 5 * steps, 0);
        changed(order, &[(7, &[steps as u8]), (13, &[goal, 0, goal + 4])])
    };
    let mut vectors: Vec<Vector> = [19, 18, 17, 16, 15, 1, 0]
        .map(|goal| refused(&format!("14: goal offset {goal}"), before(goal, 4), header))
        .to_vec();
    // M2's goal and steps, one byte too early, where the last object stands; and
    // directly behind the objects, so that the starts have no byte.
    let m2 = m2().bytes();
    let goal_at = |goal: u8| {
        let order = [&m2[..usize::from(goal)], &m2[31..]].concat();
        changed(order, &[(13, &[goal, 0, goal + 4])])
    };
    // 65,535 and 4 are 3 in two bytes.
    let wrapped = changed(m2[..18].to_vec(), &[(7, &[3]), (12, &[0xff, 0xff, 0, 3])]);
    vectors.extend([
        refused("14: goal offset one before the start's", goal_at(19), header),
        refused("14: goal offset 65,535", wrapped, header),
        refused("16: goal offset the start's", goal_at(20), Refusal::Start.at(20)),
    ]);
    vectors
}

/// 16 objects, 16 starts of 256 facts, 64 entries and 64 steps: 12,928 bytes.
fn at_every_limit() -> Vec<Vector> {
    let plan = at_the_limits();
    let full = OrderDraft { starts: vec![plan.order.starts[0].clone(); START_LIMIT], ..plan.order };
    let (layout, length) = (full.layout(), full.bytes().len());
    assert_eq!(length, 12_928, "the longest order");
    let case = |name: &str, change: &dyn Fn(&mut OrderDraft), answer| {
        let mut order = full.clone();
        change(&mut order);
        check(name, plan.book.bytes(), order.bytes(), answer)
    };
    let last = START_LIMIT - 1;
    let fact_256 = layout.goal - 3;
    vec![
        case("limit: 16 starts of 256 facts", &|_| {}, Answer::success(64)),
        case("20: entry 64, start 16", &|order| without(&mut order.starts[last], [1, 4, 16]), {
            Refusal::GoalMissed.at(64).from_start(16)
        }),
        case("20: entry 1, start 9 of 16", &|order| without(&mut order.starts[8], [1, 1, 1]), {
            Refusal::GoalMissed.at(1).from_start(9)
        }),
        case("16: fact 256 of start 16", &|order| order.starts[last][FACT_LIMIT - 1][2] = 15, {
            Refusal::Start.at(fact_256)
        }),
        case("16: 257 facts in start 16", &|order| order.starts[last].push([1, 16, 16]), {
            Refusal::Start.at(layout.starts[last])
        }),
        case("17: behind 16 starts", &|order| order.goal[63].0 = 2, {
            Refusal::GoalEntry.at(layout.steps - 4)
        }),
        case("18: behind 16 starts", &|order| order.steps[63][0] = 2, {
            Refusal::PlanStep.at(length - 5)
        }),
    ]
}

fn without(start: &mut Vec<Fact>, fact: Fact) {
    start.retain(|&held| held != fact);
}
