//! The largest numbers that the limits leave: places, step totals, bound facts,
//! parameters, and the last of 64 steps, 64 entries and 256 facts.

use crate::answer::{Answer, Refusal};
use crate::calls::Job::{self, Learn, LookOver};
use crate::gen::extreme::fullbook;
use crate::gen::plan::order::at_the_limits;
use crate::gen::{BookDraft, OrderDraft, RecordDraft, Rng};
use crate::limits::{BOOK_LIMIT, RULES_LENGTH};
use crate::vectors::hall::{end_sheet, filed, one_fact, sheet, story, unbound, with};
use crate::vectors::paper::{check, missed};
use crate::vectors::Vector;

pub fn all() -> Vec<Vector> {
    let mut vectors = places();
    vectors.extend(totals());
    vectors.extend(four_parameters());
    vectors.extend(last_of_an_order());
    vectors
}

fn places() -> Vec<Vector> {
    let mut last_fact = fullbook::of_length(BOOK_LIMIT, &mut Rng::new(5));
    last_fact[BOOK_LIMIT - 3] = 2;
    let ten = || with(vec![filed(); 10]);
    let mut unsorted = ten();
    unsorted.records[9].states[1].swap(0, 1);
    let last_state = unsorted.layout().records[9].states[1];
    let mut changes = ten();
    changes.records[9] = unbound();
    let last_step = changes.layout().records[9].steps[0];
    vec![
        Vector::new("8: the last of 60,000 bytes", &Job::OF_BOTH_FORMS, last_fact, {
            Refusal::State.at(BOOK_LIMIT - 3)
        }),
        Vector::new("8: at a place over 255", &Job::OF_BOTH_FORMS, unsorted.bytes(), {
            Refusal::State.at(last_state + 5)
        }),
        Vector::new("11: at a place over 255", &[Learn, Job::Check], changes.bytes(), {
            Refusal::UnboundChange.at(last_step)
        }),
    ]
}

/// 64 records of 64 steps each, of a move that needs and changes nothing.
fn totals() -> Vec<Vector> {
    let record = RecordDraft {
        objects: Vec::new(),
        states: vec![Vec::new(); 65],
        steps: vec![[1, 0, 0, 0, 0]; 64],
    };
    let book = BookDraft { moves: vec![[0; 6]], records: vec![record; 64], ..BookDraft::default() };
    // The fact holds before each of the other move's 3 steps, and stays.
    let holds = story(&[true; 4], &[32; 3]);
    let mut moves = vec![[&[0][..], &[0], &[], &[]]; 31];
    moves.push([&[0], &[], &[], &[]]);
    vec![
        Vector::new("limit: 4,096 steps", &[LookOver], book.bytes(), Answer::success(4096)),
        Vector::new("limit: 4,096 steps learned", &[Learn], book.bytes(), Answer::success(4096))
            .output(RULES_LENGTH)
            .after(sheet(&[[&[], &[], &[], &[]]])),
        Vector::new(
            "limit: a sheet for 32 moves",
            &[Learn],
            one_fact(32, [holds]).bytes(),
            Answer::success(3),
        )
        .output(32 * RULES_LENGTH)
        .after(sheet(&moves)),
        Vector::new("13: a sheet for one move of two", &[Learn], one_fact(2, []).bytes(), {
            Refusal::Output.at(0)
        })
        .output(RULES_LENGTH),
    ]
}

/// Parameters 1 to 4, of one kind, in both places of 16 relations.
fn four_parameters() -> Vec<Vector> {
    let unrecorded = BookDraft {
        kinds: 1,
        relations: vec![[2, 1, 1, 0]; 16],
        moves: vec![[4, 1, 1, 1, 1, 0]],
        ..BookDraft::default()
    };
    let all: Vec<usize> = (0..256).collect();
    // 16(4, 3) appears and 16(3, 4) vanishes; of the record's 16 objects the
    // step has 16, 14, 12 and 10 in this order.
    let recorded = BookDraft {
        records: vec![RecordDraft {
            objects: vec![1; 16],
            states: vec![vec![[16, 12, 10]], vec![[16, 10, 12]]],
            steps: vec![[1, 16, 14, 12, 10]],
        }],
        ..unrecorded.clone()
    };
    let (gone, new) = (16 * 15 + 4 * 2 + 3, 16 * 15 + 4 * 3 + 2);
    let absent: Vec<usize> = (0..256).filter(|&n| n != gone).collect();
    let plan = OrderDraft {
        objects: vec![1; 16],
        starts: vec![vec![[16, 15, 16]]],
        goal: vec![(0, [16, 15, 16]), (1, [16, 16, 15])],
        steps: vec![[1, 1, 2, 15, 16]],
    };
    vec![
        Vector::new("learned: 256 bound facts", &[Learn], unrecorded.bytes(), Answer::success(0))
            .output(RULES_LENGTH)
            .after(sheet(&[[&all, &all, &[], &[]]])),
        Vector::new("learned: parameters 3 and 4", &[Learn], recorded.bytes(), Answer::success(1))
            .output(RULES_LENGTH)
            .after(sheet(&[[&[gone], &absent, &[new], &[gone]]])),
        check("passes: objects 15 and 16", recorded.bytes(), plan.bytes(), Answer::success(1))
            .after(end_sheet(&[[16, 16, 15]])),
    ]
}

/// An order with every count at its limit, and a fault at the end of a section.
fn last_of_an_order() -> Vec<Vector> {
    let case = |name: &str, change: fn(&mut OrderDraft), answer: fn(&OrderDraft) -> Answer| {
        let mut plan = at_the_limits();
        change(&mut plan.order);
        let answer = answer(&plan.order);
        check(name, plan.book.bytes(), plan.order.bytes(), answer)
    };
    vec![
        case("15: object 16", |order| order.objects[15] = 2, |_| Refusal::OrderObject.at(31)),
        case(
            "16: fact 256",
            |order| order.starts[0][255][2] = 15,
            |order| Refusal::Start.at(order.layout().goal - 3),
        ),
        case(
            "17: entry 64",
            |order| order.goal[63].0 = 2,
            |order| Refusal::GoalEntry.at(order.layout().steps - 4),
        ),
        case(
            "18: step 64",
            |order| order.steps[63][0] = 2,
            |order| Refusal::PlanStep.at(order.bytes().len() - 5),
        ),
        case("20: entry 64", |order| order.goal[63].0 = 0, |_| missed(64)),
    ]
}
