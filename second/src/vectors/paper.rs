//! The paper's marked cases, the examples of docs/DECISIONS.md, and the limits.

use super::hall::{
    changed, empty_end, end_sheet, filed, m2, one_fact, order, sheet, small_hall, story,
    unrecorded, with, AT_2, AT_4, HEAD, OBJECTS, ROLL_2_3, ROLL_3_4, START, START_2_CLEAR, STEP,
};
use super::Vector;
use crate::answer::{Answer, Refusal};
use crate::calls::Form;
use crate::calls::Job::{self, Add, Check, Learn, LookOver};
use crate::gen::extreme::fullbook;
use crate::gen::plan::order::at_the_limits;
use crate::gen::{extreme, BookDraft, OrderDraft, RecordDraft, Rng};
use crate::limits::{END_SHEET_LENGTH, FACT_LIMIT};

/// A check with an end sheet of the right length.
pub fn check(name: &str, book: Vec<u8>, order: Vec<u8>, answer: Answer) -> Vector {
    Vector::new(name, &[Check], book, answer).order(order).output(END_SHEET_LENGTH)
}

/// 19 at this step, from the only start or the first.
pub fn unmet(step: usize) -> Answer {
    Refusal::NeedUnmet.at(step).from_start(1)
}

/// 20 at this entry, likewise.
pub fn missed(entry: usize) -> Answer {
    Refusal::GoalMissed.at(entry).from_start(1)
}

/// A book that learns this sheet, with an output of its length.
pub fn learn(name: impl Into<String>, book: &BookDraft, sheet: Vec<u8>) -> Vector {
    Vector::new(name, &[Learn], book.bytes(), Answer::success(book.steps()))
        .output(sheet.len())
        .after(sheet)
}

/// The needs and effects that M1 lists, by the numbers of the bound facts: 1
/// and 2 are "bank at spot" of parameters 1 2 and 1 3, 20 and 24 "spot clear"
/// of parameters 2 and 3.
pub fn m1_sheet() -> Vec<u8> {
    sheet(&[[&[1, 24], &[2, 20], &[2, 20], &[1, 24]]])
}

pub fn marked() -> Vec<Vector> {
    let mut vectors = one_record();
    vectors.extend(no_record());
    vectors.extend(refused());
    vectors.push(m6_added());
    vectors.extend(m6_rolls());
    vectors
}

/// M1 to M5: the small hall, and plans by its one record.
fn one_record() -> Vec<Vector> {
    let hall = || small_hall().bytes();
    let goal = [(1, AT_4)];
    let ended = [AT_4, [2, 2, 0], [2, 3, 0]];
    vec![
        Vector::new("M1 looked over", &[LookOver], hall(), Answer::success(1)),
        learn("M1 learned", &small_hall(), m1_sheet()),
        check("M2", hall(), m2().bytes(), Answer::success(2)).after(end_sheet(&ended)),
        check("M3", hall(), order(&START_2_CLEAR, &goal, &[ROLL_2_3, ROLL_3_4]).bytes(), unmet(1)),
        check("M4", hall(), order(&START, &[(1, AT_2)], &[]).bytes(), Answer::success(0))
            .after(end_sheet(&START)),
        check("M5", hall(), order(&START, &goal, &[]).bytes(), missed(1)),
    ]
}

/// M6 and M7: nothing was filed of a move.
fn no_record() -> Vec<Vector> {
    let bare = BookDraft { moves: vec![[0; 6]], ..BookDraft::default() };
    let bare_order = OrderDraft {
        starts: vec![Vec::new()],
        steps: vec![[1, 0, 0, 0, 0]],
        ..OrderDraft::default()
    };
    vec![
        learn("M6 learned", &unrecorded(), sheet(&[[&[1, 2, 20, 24], &[1, 2, 20, 24], &[], &[]]])),
        check("M7", bare.bytes(), bare_order.bytes(), Answer::success(1)).after(end_sheet(&[])),
    ]
}

/// M8 to M10, and that M9's record is added all the same.
fn refused() -> Vec<Vector> {
    let hall = || small_hall().bytes();
    let twice = |goal: &[_]| order(&START, goal, &[[1, 1, 2, 2, 0]]).bytes();
    let conflict = with([filed(), empty_end()]).bytes();
    vec![
        check("M8", hall(), twice(&[]), Refusal::PlanStep.at(31)),
        check("M8 with a goal", hall(), twice(&[(1, AT_4)]), Refusal::PlanStep.at(35)),
        Vector::new("M9", &[Learn, Check], conflict.clone(), Refusal::EffectConflict.at(1))
            .order(m2().bytes())
            .output(END_SHEET_LENGTH),
        Vector::new("M9 added", &[Add], hall(), Answer::success(80))
            .record(empty_end().bytes())
            .output(80)
            .after(conflict),
        Vector::new("M10", &Job::OF_BOTH_FORMS, hall()[..15].to_vec(), Refusal::Length.at(0)),
    ]
}

/// M6's book with the record added is M1's.
fn m6_added() -> Vector {
    Vector::new("record added to M6", &[Add], unrecorded().bytes(), Answer::success(58))
        .record(filed().bytes())
        .output(58)
        .after(small_hall().bytes())
}

/// M6: no roll goes.
fn m6_rolls() -> impl Iterator<Item = Vector> {
    [ROLL_2_3, ROLL_3_4, [1, 1, 4, 2, 0]].into_iter().map(|roll| {
        let name = format!("M6 roll {} {} {}", roll[1], roll[2], roll[3]);
        let order = order(&START, &[], &[roll]).bytes();
        check(&name, unrecorded().bytes(), order, unmet(1))
    })
}

/// One example of each point in which the paper could be read two ways.
pub fn decisions() -> Vec<Vector> {
    let mut vectors = places();
    vectors.extend(facts());
    vectors
}

/// D1 to D4: which fault of a record is met, and where.
fn places() -> Vec<Vector> {
    let every =
        |name: &str, book: Vec<u8>, answer| Vector::new(name, &Job::OF_BOTH_FORMS, book, answer);
    let announced = |book: &BookDraft, records: u8| changed(book.bytes(), &[(7, &[records])]);
    let one = announced(&unrecorded(), 1);
    let cut_object = changed(small_hall().bytes(), &[(HEAD + 3, &[4])]);
    let mut two_faults = small_hall();
    two_faults.records[0].steps[0][0] = 2;
    two_faults.records[0].states[1].swap(0, 1);
    let two = announced(&small_hall(), 2);
    vec![
        every("D1 a record announced, no byte for it", one, Refusal::Record.at(HEAD)),
        every("D2 the first object cut", cut_object, Refusal::Object.at(OBJECTS)),
        every("D3 faults in file order", two_faults.bytes(), Refusal::Step.at(STEP)),
        every("D4 two records announced, one filed", two, Refusal::Record.at(58)),
    ]
}

/// D5, D6 and D9: a fact in both places, twice in a goal, and held after two steps.
fn facts() -> Vec<Vector> {
    let both_places = BookDraft {
        kinds: 1,
        relations: vec![[2, 1, 1, 0]],
        moves: vec![[0; 6]],
        records: vec![RecordDraft {
            objects: vec![1],
            states: vec![vec![[1, 1, 1]]; 2],
            steps: vec![[1, 0, 0, 0, 0]],
        }],
        ..BookDraft::default()
    };
    let twice = order(&START, &[(1, AT_2), (0, AT_2)], &[]);
    // Held after each step, and changed by one of them.
    let held = one_fact(1, [story(&[false, true, true], &[1, 1])]);
    vec![
        Vector::new(
            "D5 a fact of one object in both places",
            &[LookOver],
            both_places.bytes(),
            Answer::success(1),
        ),
        check(
            "D6 a goal fact with 1 and with 0",
            small_hall().bytes(),
            twice.bytes(),
            Refusal::GoalEntry.at(twice.layout().goal + 4),
        ),
        learn("D9 held after and changed agree", &held, sheet(&[[&[], &[], &[0], &[]]])),
    ]
}

/// Every count and length at its limit and one beyond it.
pub fn limits() -> Vec<Vector> {
    let mut vectors: Vec<Vector> = (0..extreme::COUNT)
        .map(|index| {
            let case = extreme::case(Form::Full, index, &mut Rng::new(index as u64));
            let answer = case.aimed.expect("an extreme case is aimed");
            let jobs: &[Job] = if answer.number == 0 { &[LookOver] } else { &Job::OF_BOTH_FORMS };
            Vector::new(format!("limit: {}", case.label.what), jobs, case.book, answer)
        })
        .collect();

    // 16 · 16 facts of one relation fill the first 32 bytes of the end sheet.
    let plan = at_the_limits();
    let steps = plan.order.steps.len();
    let mut full = end_sheet(&[]);
    full[..FACT_LIMIT / 8].fill(0xff);
    let name = "limit: order of 16 objects, 256 facts, 64 entries, 64 steps";
    vectors.push(
        check(name, plan.book.bytes(), plan.order.bytes(), Answer::success(steps)).after(full),
    );

    // A new length of 60,000 and of 60,001.
    let record = story(&[false; 2], &[1]);
    for length in [60_000, 60_001] {
        let book = fullbook::of_length(length - record.length(), &mut Rng::new(5));
        let add = |answer| {
            Vector::new(format!("limit: {length} bytes by adding"), &[Add], book.clone(), answer)
                .record(record.bytes())
                .output(length)
        };
        vectors.push(match length {
            60_000 => {
                let records = usize::from(book[7]) + 1;
                let new = super::added(&book, &record.bytes(), records);
                add(Answer::success(length)).after(new)
            }
            _ => add(Refusal::Length.at(0)),
        });
    }
    vectors
}
