//! Kinds under kinds, by hand: plans with wagons, and records of wagons added.

use super::wagon::{rolls, with};
use crate::answer::{Answer, Refusal};
use crate::calls::Job::{Add, Check};
use crate::gen::{BookDraft, Fact, OrderDraft, RecordDraft, Step};
use crate::limits::{BOOK_LIMIT, END_SHEET_LENGTH};
use crate::vectors::hall::{changed, end_sheet, filed, with_parents};
use crate::vectors::paper::{check, missed, unmet};
use crate::vectors::Vector;

pub fn all() -> Vec<Vector> {
    let mut vectors = passes();
    vectors.extend(couples());
    vectors.extend(malformed());
    vectors.extend(stops_and_misses());
    vectors.extend(added());
    vectors.extend(not_added());
    vectors
}

/// Object 1 is of this kind, 2 to 4 are spots, 5 is a wagon.
fn order(kind: u8, start: &[Fact], goal: &[(u8, Fact)], steps: &[Step]) -> OrderDraft {
    OrderDraft {
        objects: vec![kind, 2, 2, 2, 3],
        starts: vec![start.to_vec()],
        goal: goal.to_vec(),
        steps: steps.to_vec(),
    }
}

const ROLLS: [Step; 2] = [[1, 1, 2, 3, 0], [1, 1, 3, 4, 0]];
/// At spot 2, spots 3 and 4 clear, and both wagons loaded.
const START: [Fact; 5] = [[1, 1, 2], [2, 3, 0], [2, 4, 0], [3, 1, 0], [3, 5, 0]];
const END: [Fact; 5] = [[1, 1, 4], [2, 2, 0], [2, 3, 0], [3, 1, 0], [3, 5, 0]];

/// M2 with a wagon, by the roll of an object of each kind. What is said of the
/// wagon alone is needed by no roll, and stays.
fn passes() -> Vec<Vector> {
    let mut vectors = Vec::new();
    for (taught, by) in [(1, "a bank"), (3, "a wagon"), (4, "a tank wagon")] {
        for (kind, what) in [(3, "a wagon"), (4, "a tank wagon")] {
            let goal = [(1, [1, 1, 4]), (1, [3, 1, 0])];
            let name = format!("passes: {what} rolls as {by} did");
            let book = with([rolls(taught, &[], &[])]).bytes();
            vectors.push(
                check(&name, book, order(kind, &START, &goal, &ROLLS).bytes(), Answer::success(2))
                    .after(end_sheet(&END)),
            );
        }
    }
    let loaded = [[3, 1, 0]];
    let book = with([rolls(3, &loaded, &loaded)]).bytes();
    let bank = order(1, &START[..3], &[(1, [1, 1, 4])], &ROLLS).bytes();
    let empty = order(3, &START[..3], &[(0, [3, 1, 0])], &ROLLS).bytes();
    vectors.push(
        check("passes: a bank rolls as a loaded wagon did", book.clone(), bank, {
            Answer::success(2)
        })
        .after(end_sheet(&END[..3])),
    );
    vectors.push(
        check("passes: an empty wagon rolls as a loaded one did", book, empty, {
            Answer::success(2)
        })
        .after(end_sheet(&END[..3])),
    );
    vectors
}

/// Wagon 1, given for the bank, is coupled to tank wagon 2, which is loaded.
fn coupled() -> BookDraft {
    with([RecordDraft {
        objects: vec![3, 4],
        states: vec![vec![[3, 1, 0], [3, 2, 0]], vec![[3, 1, 0], [3, 2, 0], [4, 1, 2]]],
        steps: vec![[3, 1, 2, 0, 0]],
    }])
}

/// The plan's move 3 needs parameter 2 to be loaded, and parameter 1 not.
fn couples() -> Vec<Vector> {
    let plan = |name, kind, start: &[Fact], answer| {
        let step = [3, 1, 5, 0, 0];
        let order = order(kind, start, &[(1, [4, 1, 5])], &[step]).bytes();
        check(name, coupled().bytes(), order, answer)
    };
    let (loaded, both) = ([3, 5, 0], [[3, 1, 0], [3, 5, 0]]);
    let pass = Answer::success(1);
    let unmet = unmet(1);
    vec![
        plan("passes: a bank is coupled to a wagon", 1, &[loaded], pass)
            .after(end_sheet(&[loaded, [4, 1, 5]])),
        plan("passes: an empty tank wagon is coupled to a wagon", 4, &[loaded], pass)
            .after(end_sheet(&[loaded, [4, 1, 5]])),
        plan("passes: coupled to itself, as it was", 4, &[both[0], both[1], [4, 1, 1]], pass)
            .after(end_sheet(&[both[0], both[1], [4, 1, 1], [4, 1, 5]])),
        plan("19: the wagon is not loaded", 3, &[[3, 1, 0]], unmet),
        plan("19: the wagon is coupled to itself", 3, &[loaded, [4, 5, 5]], unmet),
    ]
}

fn plan(name: &str, order: OrderDraft, answer: Answer) -> Vector {
    let name = format!("{}: {name}", answer.number);
    check(&name, with([rolls(3, &[], &[])]).bytes(), order.bytes(), answer)
}

const ROLL: Step = ROLLS[0];

/// Rows 15 to 18.
fn malformed() -> Vec<Vector> {
    // The start's count stands at 21.
    let start = |at: usize| Refusal::Start.at(23 + 3 * at);
    let goal = |at: usize| Refusal::GoalEntry.at(23 + 4 * at);
    let step = |at: usize| Refusal::PlanStep.at(23 + 5 * at);
    let steps = |kind, steps: &[Step]| order(kind, &[], &[], steps);
    vec![
        plan("a kind over the count", steps(5, &[]), Refusal::OrderObject.at(16)),
        plan("a loaded bank", order(1, &START, &[], &[]), start(3)),
        plan("a wagon that is clear", order(3, &[[1, 1, 2], [2, 1, 0]], &[], &[]), start(1)),
        plan("a bank to be loaded", order(1, &[], &[(1, [3, 1, 0])], &[]), goal(0)),
        plan(
            "a wagon coupled to a bank",
            order(1, &[], &[(0, [1, 1, 2]), (0, [4, 5, 1])], &[]),
            goal(1),
        ),
        plan("a bank is loaded", steps(1, &[ROLL, [2, 1, 0, 0, 0]]), step(1)),
        plan("a wagon is coupled to a bank", steps(1, &[[3, 5, 1, 0, 0]]), step(0)),
        plan("a wagon is coupled to itself", steps(3, &[[3, 1, 1, 0, 0]]), step(0)),
        plan("a wagon rolls to a wagon", steps(3, &[[1, 1, 2, 5, 0]]), step(0)),
        plan("a spot rolls", steps(2, &[ROLL]), step(0)),
    ]
}

/// Rows 19 and 20.
fn stops_and_misses() -> Vec<Vector> {
    let (unmet, missed) = (unmet(1), missed(2));
    let not_there = order(3, &[[2, 3, 0], [3, 1, 0]], &[], &[ROLL]);
    let clear_below = order(4, &[[1, 1, 2], [2, 2, 0], [2, 3, 0]], &[], &[ROLL]);
    let loaded = order(3, &START, &[(1, [1, 1, 4]), (0, [3, 1, 0])], &ROLLS);
    let empty = order(3, &START[..3], &[(1, [1, 1, 4]), (1, [3, 1, 0])], &ROLLS);
    vec![
        plan("a wagon not at its spot", not_there, unmet),
        plan("a wagon on a clear spot", clear_below, unmet),
        plan("a loaded wagon stays so", loaded, missed),
        plan("an empty wagon stays so", empty, missed),
    ]
}

fn add(name: &str, book: &[u8], record: &[u8], answer: Answer) -> Vector {
    Vector::new(name, &[Add], book.to_vec(), answer)
        .record(record.to_vec())
        .output(book.len() + record.len())
}

/// The parents stay where they are, and so do the offsets behind them.
fn added() -> Vec<Vector> {
    let adds = |name, old: &BookDraft, record: RecordDraft| {
        let mut new = old.clone();
        new.records.push(record.clone());
        let answer = Answer::success(new.length());
        add(name, &old.bytes(), &record.bytes(), answer).after(new.bytes())
    };
    let lost = rolls(3, &[[3, 1, 0]], &[]);
    vec![
        adds("added: a wagon to a book with parents", &with([]), rolls(3, &[], &[])),
        adds("added: a tank wagon behind a bank", &with([rolls(1, &[], &[])]), {
            rolls(4, &[[3, 1, 0]], &[[3, 1, 0]])
        }),
        adds("added: a wagon that would be 11", &with([]), lost),
        adds("added: to parents of 0", &with_parents(&[0, 0]), filed()),
        adds("added: to a spot below a bank", &with_parents(&[0, 1]), filed()),
    ]
}

fn not_added() -> Vec<Vector> {
    let book = with([rolls(3, &[], &[])]).bytes();
    let end = book.len();
    let wrong = changed(book.clone(), &[(17, &[2])]);
    let loaded = rolls(1, &[[3, 1, 0]], &[]).bytes();
    let bank_coupled =
        RecordDraft { objects: vec![1, 3], states: vec![vec![]; 2], steps: vec![[3, 2, 1, 0, 0]] };
    let twice = RecordDraft { steps: vec![[3, 2, 2, 0, 0]], ..bank_coupled.clone() };
    let good = rolls(3, &[], &[]).bytes();
    let parent = Refusal::Parent.at(17);
    vec![
        // The third fact of the first state.
        add("8: a loaded bank added", &book, &loaded, Refusal::State.at(end + 9 + 6)),
        add("9: a wagon coupled to a bank added", &book, &bank_coupled.bytes(), {
            Refusal::Step.at(end + 8)
        }),
        add("10: a wagon coupled to itself added", &book, &twice.bytes(), {
            Refusal::ObjectTwice.at(end + 8)
        }),
        add(
            "adding: 21 of the old book before 1 of the new length",
            &wrong,
            &vec![0; BOOK_LIMIT],
            parent,
        ),
        add("adding: 21 of the old book before 6 of the record", &wrong, &[17, 0, 0, 4], parent),
        add("adding: 21 before 13", &wrong, &good, parent).output(end + good.len() - 1),
        add("13: an output one byte short, with parents", &book, &good, Refusal::Output.at(0))
            .output(end + good.len() - 1),
        Vector::new("21 before 14", &[Check], wrong.clone(), parent).output(END_SHEET_LENGTH),
        Vector::new("21 before 19", &[Check], wrong, parent)
            .order(order(3, &[], &[], &[[1, 1, 2, 3, 0]]).bytes())
            .output(END_SHEET_LENGTH),
    ]
}
