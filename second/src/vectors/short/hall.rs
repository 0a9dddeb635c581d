//! The paper's small hall as a short book, worked out by hand, and what a call is
//! told of it: 0 of a full book, any other number of a short one.

use crate::answer::{Answer, Refusal};
use crate::calls::Form;
use crate::calls::Job::{self, Add, Check, Learn, LookOver, ToFull, ToShort};
use crate::gen::{BookDraft, OrderDraft, RecordDraft};
use crate::limits::{END_SHEET_LENGTH, RULES_LENGTH};
use crate::vectors::hall::{
    changed, end_sheet, filed, m2, order, sheet, small_hall, unrecorded, with, AT_2, AT_4,
    ROLL_2_3, ROLL_3_4, START, START_2_CLEAR,
};
use crate::vectors::paper::{check, m1_sheet, missed, unmet};
use crate::vectors::Vector;

/// Numbers of a short book: in one byte, or two, or with a sign some are 0 or less.
const FORMS: [u32; 7] = [1, 2, 255, 256, 0x1_0000, 0x8000_0000, u32::MAX];

/// The filed roll: bank 1 leaves spot 2 for spot 3; spot 2 is cleared, spot 3 not.
pub fn turned() -> RecordDraft {
    RecordDraft {
        states: vec![vec![[1, 1, 2], [2, 3, 0]], vec![[1, 1, 2], [1, 1, 3], [2, 2, 0], [2, 3, 0]]],
        ..filed()
    }
}

/// The filed roll after which nothing holds: what held turns.
fn all_turned() -> RecordDraft {
    RecordDraft { states: vec![filed().states[0].clone(); 2], ..filed() }
}

pub fn short_with(records: impl IntoIterator<Item = RecordDraft>) -> BookDraft {
    BookDraft { form: Form::Short, ..with(records) }
}

/// 64 bytes; the count of its one list stands at 50.
pub fn short_hall() -> BookDraft {
    short_with([turned()])
}

pub fn all() -> Vec<Vector> {
    let mut vectors = marked();
    vectors.extend(told());
    vectors.extend(read_otherwise());
    vectors.extend(orders());
    vectors.extend(starts());
    vectors.extend(converted());
    vectors.iter_mut().for_each(|vector| vector.name.insert_str(0, "short hall: "));
    vectors
}

/// Of a short book.
fn short(vector: Vector) -> Vector {
    vector.form(1)
}

fn short_check(name: &str, order: &OrderDraft, answer: Answer) -> Vector {
    short(check(name, short_hall().bytes(), order.bytes(), answer))
}

/// The marked cases with this book.
fn marked() -> Vec<Vector> {
    let hall = || short_hall().bytes();
    let (goal, rolls) = ([(1, AT_4)], [ROLL_2_3, ROLL_3_4]);
    let conflict = short_with([turned(), all_turned()]);
    let ended = end_sheet(&[AT_4, [2, 2, 0], [2, 3, 0]]);
    let vectors = vec![
        Vector::new("M1 looked over", &[LookOver], hall(), Answer::success(1)),
        Vector::new("M1 learned", &[Learn], hall(), Answer::success(1))
            .output(RULES_LENGTH)
            .after(m1_sheet()),
        short_check("M2", &m2(), Answer::success(2)).after(ended),
        short_check("M3", &order(&START_2_CLEAR, &goal, &rolls), unmet(1)),
        short_check("M4", &order(&START, &[(1, AT_2)], &[]), Answer::success(0))
            .after(end_sheet(&START)),
        short_check("M5", &order(&START, &goal, &[]), missed(1)),
        Vector::new("M6 learned", &[Learn], unrecorded().bytes(), Answer::success(0))
            .output(RULES_LENGTH)
            .after(sheet(&[[&[1, 2, 20, 24], &[1, 2, 20, 24], &[], &[]]])),
        short_check("M8", &order(&START, &[], &[[1, 1, 2, 2, 0]]), Refusal::PlanStep.at(31)),
        Vector::new("M9", &[Learn, Check], conflict.bytes(), Refusal::EffectConflict.at(1))
            .order(m2().bytes())
            .output(END_SHEET_LENGTH),
        Vector::new("M9 added", &[Add], hall(), Answer::success(conflict.length()))
            .record(all_turned().bytes())
            .output(conflict.length())
            .after(conflict.bytes()),
        Vector::new("M10", &Job::OF_BOTH_FORMS, hall()[..15].to_vec(), Refusal::Length.at(0)),
        Vector::new("added to M6", &[Add], unrecorded().bytes(), Answer::success(64))
            .record(turned().bytes())
            .output(64)
            .after(hall()),
    ];
    vectors.into_iter().map(short).collect()
}

/// Every number but 0 is a short book's.
fn told() -> Vec<Vector> {
    let ended = || end_sheet(&[AT_4, [2, 2, 0], [2, 3, 0]]);
    let of_form = |form: u32| {
        let learned = format!("learned, form {form}");
        [
            Vector::new(learned, &[Learn], short_hall().bytes(), Answer::success(1))
                .output(RULES_LENGTH)
                .after(m1_sheet()),
            short_check(&format!("checked, form {form}"), &m2(), Answer::success(2)).after(ended()),
        ]
        .map(|vector| vector.form(form))
    };
    FORMS.into_iter().flat_map(of_form).collect()
}

/// Each form of the book read as the other: spot 3 is still clear and the bank still
/// at spot 2, so that nothing was removed, and a second roll does not go.
fn read_otherwise() -> Vec<Vector> {
    let mut vectors = Vec::new();
    for (name, book, form) in [("full", small_hall(), 1), ("short", short_hall(), 0)] {
        let (learned, checked) = (format!("{name}, read otherwise"), format!("{name}, checked so"));
        vectors.push(
            Vector::new(learned, &[Learn], book.bytes(), Answer::success(1))
                .form(form)
                .output(RULES_LENGTH)
                .after(sheet(&[[&[1, 24], &[2, 20], &[2, 20], &[]]])),
        );
        vectors.push(check(&checked, book.bytes(), m2().bytes(), unmet(2)).form(form));
    }
    vectors
}

/// The rows of an order, which is written alike for either form.
fn orders() -> Vec<Vector> {
    let m2 = || m2().bytes();
    let changed = |at: usize, new: u8| changed(m2(), &[(at, &[new])]);
    let case = |name: &str, order: Vec<u8>, answer| {
        short(check(name, short_hall().bytes(), order, answer))
    };
    let mut output = case("13", m2(), Refusal::Output.at(0));
    output.output = END_SHEET_LENGTH - 1;
    vec![
        output,
        case("14", m2()[..15].to_vec(), Refusal::OrderHeader.at(0)),
        case("15", changed(16, 0), Refusal::OrderObject.at(16)),
        case("16", changed(22, 0), Refusal::Start.at(22)),
        // A start is a state, of 256 facts at most; 257 may turn in a book.
        case("16: count 257", changed(20, 1), Refusal::Start.at(20)),
        case("17", changed(31, 2), Refusal::GoalEntry.at(31)),
        case("18", changed(35, 2), Refusal::PlanStep.at(35)),
        case("22", changed(3, 0), Refusal::StartCount.at(0)),
    ]
}

/// Each start is a state by itself: nothing turns from one to the next.
fn starts() -> Vec<Vector> {
    let of = |name: &str, starts: &[&[[u8; 3]]], answer| {
        let starts = starts.iter().map(|start| start.to_vec()).collect();
        short_check(name, &OrderDraft { starts, ..m2() }, answer)
    };
    let lacking = &START[..2];
    vec![
        of("two equal starts", &[&START, &START], Answer::success(2)),
        of("the second start stops", &[&START, lacking], unmet(2).from_start(2)),
        of("a start beside one that would complete it", &[&[[2, 4, 0]], &START], unmet(1)),
    ]
}

/// There and back, with an output of the right length, longer, and short.
fn converted() -> Vec<Vector> {
    let (full, short) = (small_hall().bytes(), short_hall().bytes());
    let mut vectors = Vec::new();
    for (job, from, to) in [(ToShort, &full, &short), (ToFull, &short, &full)] {
        let case = |lent: usize, answer: Answer| {
            let name = format!("{}, output of {lent} bytes", job.name());
            Vector::new(name, &[job], from.clone(), answer).output(lent)
        };
        for lent in [to.len(), to.len() + 1, 512, 65_536, 65_536 + to.len()] {
            vectors.push(case(lent, Answer::success(to.len())).after(to.clone()));
        }
        for lent in [0, 1, 14, 30, to.len() - 1] {
            vectors.push(case(lent, Refusal::Output.at(0)));
        }
    }
    vectors
}
