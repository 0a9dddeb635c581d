//! Steps that did not go in each call: 28 before 13 and the rows of an order, plans that
//! are checked as if these steps were absent, records added, and books converted.

use super::{barred, tried, unbarred, CLEAR_3, NOT_ROLLED};
use crate::answer::{Answer, Refusal};
use crate::calls::Form;
use crate::calls::Job::{Add, Check, Learn};
use crate::gen::{BookDraft, RecordDraft};
use crate::limits::{END_SHEET_LENGTH, RULES_LENGTH};
use crate::vectors::hall::{
    end_sheet, failing_orders, filed, m2, order, small_hall, story, with, AT_2, AT_4, ROLL_2_3,
    ROLL_3_4, START, START_2_CLEAR, STAYS_OUT,
};
use crate::vectors::paper::{check, missed, unmet};
use crate::vectors::short::converting::converted;
use crate::vectors::Vector;

pub fn all(form: Form) -> Vec<Vector> {
    let mut vectors = outputs(form);
    vectors.extend(before_orders(form));
    vectors.extend(plan_steps(form));
    vectors.extend(plans(form));
    vectors.extend(additions(form));
    vectors.iter_mut().for_each(|vector| vector.form = form.number());
    vectors.extend(conversions(form));
    vectors
}

/// The small hall, with the roll that is barred by none or by a need.
fn hall(form: Form, record: RecordDraft) -> BookDraft {
    with([filed(), record]).in_form(form)
}

/// 28 at the step of the second record.
fn met(book: &BookDraft) -> Answer {
    Refusal::NeedsMet.at(book.layout().records[1].steps[0])
}

/// 28 before 13, and nothing is written.
fn outputs(form: Form) -> Vec<Vector> {
    let book = hall(form, unbarred());
    let mut vectors = Vec::new();
    for (job, right) in [(Learn, RULES_LENGTH), (Check, END_SHEET_LENGTH)] {
        for lent in [right, right - 1, right + 1, 0] {
            let name = format!("28, {} with an output of {lent} bytes", job.name());
            let vector = Vector::new(name, &[job], book.bytes(), met(&book));
            vectors.push(vector.order(m2().bytes()).output(lent));
        }
    }
    let (name, book) = ("13, the roll barred", hall(form, barred()).bytes());
    let longer = RULES_LENGTH + 1;
    vectors.push(Vector::new(name, &[Learn], book, Refusal::Output.at(0)).output(longer));
    vectors
}

/// 28 before the rows of an order, and before 19 and 20.
fn before_orders(form: Form) -> Vec<Vector> {
    let book = hall(form, unbarred());
    failing_orders()
        .map(|(row, order)| check(&format!("28 before {row}"), book.bytes(), order, met(&book)))
        .into()
}

/// In an order no move is so large, whether the step would go or not.
fn plan_steps(form: Form) -> Vec<Vector> {
    let book = hall(form, barred());
    let plan = |name: &str, steps: &[_], answer| {
        check(name, book.bytes(), order(&START, &[], steps).bytes(), answer)
    };
    let last = [160, 0, 0, 0, 0];
    let moves = BookDraft { moves: vec![[0; 6]; 32], ..BookDraft::default() };
    vec![
        plan("18: 129", &[NOT_ROLLED], Refusal::PlanStep.at(31)),
        plan("18: 129, of a roll that would not go", &[[129, 1, 3, 2, 0]], {
            Refusal::PlanStep.at(31)
        }),
        plan("18: 129, the second step", &[ROLL_2_3, [129, 1, 3, 4, 0]], Refusal::PlanStep.at(36)),
        plan("18: 128", &[[128, 1, 2, 3, 0]], Refusal::PlanStep.at(31)),
        plan("18: 130", &[[130, 1, 2, 3, 0]], Refusal::PlanStep.at(31)),
        plan("18: 255", &[[255, 1, 2, 3, 0]], Refusal::PlanStep.at(31)),
        check(
            "18: 160 of 32 moves",
            moves.in_form(form).bytes(),
            {
                let order = order(&[], &[], &[last]);
                crate::gen::OrderDraft { objects: Vec::new(), ..order }.bytes()
            },
            Refusal::PlanStep.at(18),
        ),
    ]
}

/// Verdicts by a book in whose second record the roll did not go: a need was unmet.
fn plans(form: Form) -> Vec<Vector> {
    let book = hall(form, barred()).bytes();
    let unrecorded = with([barred()]).in_form(form).bytes();
    let rolls = [ROLL_2_3, ROLL_3_4];
    let goal = [(1, AT_4)];
    let ended = end_sheet(&[AT_4, [2, 2, 0], CLEAR_3]);
    vec![
        check("M2", book.clone(), m2().bytes(), Answer::success(2)).after(ended),
        check("M3", book.clone(), order(&START_2_CLEAR, &goal, &rolls).bytes(), unmet(1)),
        check("M4", book.clone(), order(&START, &[(1, AT_2)], &[]).bytes(), Answer::success(0))
            .after(end_sheet(&START)),
        check("M5", book.clone(), order(&START, &goal, &[]).bytes(), missed(1)),
        check("the roll as it was tried", book, order(&[AT_2], &[], &[ROLL_2_3]).bytes(), unmet(1)),
        check(
            "M6, the roll as it was tried",
            unrecorded.clone(),
            order(&[AT_2], &[], &[ROLL_2_3]).bytes(),
            unmet(1),
        ),
        check("M6, another roll", unrecorded, order(&START, &[], &rolls).bytes(), unmet(1)),
    ]
}

/// The record is looked over in the new book, and 28 is left to learning.
fn additions(form: Form) -> Vec<Vector> {
    let old = small_hall().in_form(form);
    let of_form = |record: RecordDraft| with([record]).in_form(form).records.swap_remove(0);
    let good = |name: &str, old: &BookDraft, record: RecordDraft| {
        let (record, mut new) = (of_form(record), old.clone());
        new.records.push(record.clone());
        Vector::new(name, &[Add], old.bytes(), Answer::success(new.length()))
            .record(record.bytes())
            .output(new.length())
            .after(new.bytes())
    };
    let mut vectors = vec![
        good("added, a need unmet", &old, barred()),
        good("added, all needs met", &old, unbarred()),
        good("added to such a book", &hall(form, barred()), filed()),
        good("added to a book of 28", &hall(form, unbarred()), tried(&[])),
    ];
    let differs =
        of_form(RecordDraft { states: vec![vec![AT_2], vec![AT_2, CLEAR_3]], ..barred() });
    let at = |draft: &RecordDraft| draft.states[0].len() * 3 + 4 + 3 + 2;
    let step_at = old.length() + at(&differs);
    let none = of_form(RecordDraft { steps: vec![[128, 1, 2, 3, 0]], ..barred() });
    for (name, record, answer) in [
        ("27 of the record", differs.bytes(), Refusal::StatesDiffer.at(step_at)),
        ("9 of the record", none.bytes(), Refusal::Step.at(old.length() + at(&none))),
    ] {
        let length = old.length() + record.len();
        for lent in [length, length - 1] {
            let name = format!("added: {name}, output of {lent} bytes");
            let vector = Vector::new(name, &[Add], old.bytes(), answer).output(lent);
            vectors.push(vector.record(record.clone()));
        }
    }
    vectors
}

/// The 128 is kept; the state after such a step is written, or the list of no facts.
fn conversions(form: Form) -> Vec<Vector> {
    let among = RecordDraft {
        states: [0, 0, 1, 1].map(|state| filed().states[state].clone()).into(),
        steps: vec![[129, 1, 3, 2, 0], ROLL_2_3, NOT_ROLLED],
        ..filed()
    };
    let idle = crate::vectors::hall::one_fact(2, [story(STAYS_OUT, &[130])]);
    [
        ("a need unmet", hall(form, barred())),
        ("28 is left to learning", hall(form, unbarred())),
        ("among the steps of the record", with([among]).in_form(form)),
        ("no fact", idle.in_form(form)),
    ]
    .map(|(name, draft)| converted(name, &draft, draft.twin().length() + 2))
    .into()
}
