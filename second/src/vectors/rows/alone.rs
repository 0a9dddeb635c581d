//! Rows 11 to 13, 19 and 20, and learning and checking that succeed, worked out
//! by hand on the small hall and on a hall with one fact.

use crate::answer::{Answer, Refusal};
use crate::calls::Job::{Add, Check, Learn};
use crate::gen::{BookDraft, Fact, OrderDraft, RecordDraft};
use crate::limits::{END_SHEET_LENGTH, RULES_LENGTH};
use crate::vectors::hall::{
    empty_end, end_sheet, filed, one_fact, order, sheet, small_hall, story, unbound, with, AT_2,
    AT_4, DOWN, ROLL_2_3, ROLL_3_4, START, START_2_CLEAR, STAYS, STAYS_OUT, UP,
};
use crate::vectors::paper::{check, learn, m1_sheet, missed, unmet};
use crate::vectors::Vector;

const CLEAR_4: Fact = [2, 4, 0];

/// The filed record with a fourth object, a spot, and these states.
fn four(before: &[Fact], after: &[Fact]) -> RecordDraft {
    RecordDraft {
        objects: vec![1, 2, 2, 2],
        states: vec![before.to_vec(), after.to_vec()],
        ..filed()
    }
}

/// Rows 11 and 12, and books that learn.
pub fn learning() -> Vec<Vector> {
    let mut vectors = unbound_changes();
    vectors.extend(unbound_in_one_place());
    vectors.extend(unbound_and_other_steps());
    vectors.extend(unbound_among_others());
    vectors.extend(conflicts());
    vectors.extend(learned());
    vectors
}

fn refused(name: &str, book: &BookDraft, answer: Answer) -> Vector {
    Vector::new(name, &[Learn, Check], book.bytes(), answer)
}

/// Row 11 at the step of this record.
fn unbound_at(name: &str, book: &BookDraft, record: usize) -> Vector {
    refused(name, book, Refusal::UnboundChange.at(step_at(book, record)))
}

fn step_at(book: &BookDraft, record: usize) -> usize {
    book.layout().records[record].steps[0]
}

/// The filed step, but spot 4, which is no parameter, is clear before it alone.
fn vanishes() -> RecordDraft {
    let mut record = RecordDraft { objects: vec![1, 2, 2, 2], ..filed() };
    record.states[0].push(CLEAR_4);
    record
}

fn unbound_changes() -> Vec<Vector> {
    vec![
        unbound_at("11: a fact of no parameter appears", &with([unbound()]), 0),
        unbound_at("11: a fact of no parameter vanishes", &with([vanishes()]), 0),
    ]
}

/// A third relation of two banks: bound only where bank 1 fills both places.
fn unbound_in_one_place() -> Vec<Vector> {
    let beside = |fact: Fact| {
        let mut record = RecordDraft { objects: vec![1, 2, 2, 1], ..filed() };
        record.states[1].push(fact);
        let mut book = with([record]);
        book.relations.push([2, 1, 1, 0]);
        book
    };
    vec![
        unbound_at("11: one object of two is no parameter", &beside([3, 1, 4]), 0),
        learn(
            "11 not met: one parameter in both places",
            &beside([3, 1, 1]),
            sheet(&[[&[1, 24], &[2, 20, 32], &[2, 20, 32], &[1, 24]]]),
        ),
    ]
}

/// Which of several steps, and which row, is the answer.
fn unbound_and_other_steps() -> Vec<Vector> {
    let mut form_too = with([vanishes(), filed()]);
    form_too.records[1].steps[0] = [1, 1, 2, 2, 0];
    let twice_at = step_at(&form_too, 1);
    vec![
        unbound_at("11: the first of two such steps", &with([filed(), unbound(), vanishes()]), 1),
        unbound_at("11 before 12", &with([filed(), empty_end(), vanishes()]), 2),
        refused("10 in a later record before 11", &form_too, Refusal::ObjectTwice.at(twice_at)),
    ]
}

/// Bank 1 rolls from spot 3 to spot 4, and spot 2, which is no parameter, is
/// cleared or not. Its fact stands between facts that change as they may.
fn unbound_among_others() -> Vec<Vector> {
    let case = |name, before: &[Fact], after: &[Fact]| {
        let record = RecordDraft { steps: vec![ROLL_3_4], ..four(before, after) };
        unbound_at(name, &with([record]), 0)
    };
    let clear_2 = [2, 2, 0];
    vec![
        case("11: a fact appears among others", &[[1, 1, 3], CLEAR_4], &[AT_4, clear_2, [2, 3, 0]]),
        case(
            "11: a fact vanishes among others",
            &[[1, 1, 3], clear_2, CLEAR_4],
            &[AT_4, [2, 3, 0]],
        ),
    ]
}

/// Row 12 at move `number` of so many. A record is told by whether the fact holds in
/// each of its states and by the move of all its steps.
fn conflict(name: &str, moves: usize, records: &[(&[bool], u8)], number: usize) -> Vector {
    let record = |&(states, by): &(&[bool], u8)| story(states, &vec![by; states.len() - 1]);
    let book = one_fact(moves, records.iter().map(record));
    refused(name, &book, Refusal::EffectConflict.at(number))
}

fn conflicts() -> Vec<Vector> {
    let up_once = [(UP, 1), (STAYS_OUT, 1)];
    vec![
        conflict("12: changed to hold, and not held after another", 1, &up_once, 1),
        conflict("12: the other record first", 1, &[(STAYS_OUT, 1), (UP, 1)], 1),
        conflict("12: changed not to hold, and held after another", 1, &[(DOWN, 1), (STAYS, 1)], 1),
        conflict("12: changed both ways", 1, &[(UP, 1), (DOWN, 1)], 1),
        conflict("12: in one record", 1, &[(&[false, true, false], 1)], 1),
        conflict(
            "12: the smallest such move",
            4,
            &[(UP, 4), (DOWN, 4), (UP, 2), (STAYS_OUT, 2), (STAYS, 1)],
            2,
        ),
        conflict("12 before 13 and 14", 1, &up_once, 1).order(vec![9]).output(7),
    ]
}

fn learned() -> Vec<Vector> {
    let renumbered = with([filed().renumbered(&[3, 1, 2])]);
    // Spot 2 is clear before as well: clear of the first spot is needed no more.
    let more = with([filed(), four(&START_2_CLEAR[..3], &[[1, 1, 3], [2, 2, 0]])]);
    let both = one_fact(1, [story(&[true, true], &[1]), story(&[false, false], &[1])]);
    let two_moves = one_fact(2, [story(&[false, true, false], &[1, 2])]);
    vec![
        learn("learned: spots renumbered", &renumbered, m1_sheet()),
        learn(
            "learned: a second record drops a need",
            &more,
            sheet(&[[&[1, 24], &[2], &[2, 20], &[1, 24]]]),
        ),
        learn("learned: held after is no effect", &both, sheet(&[[&[], &[], &[], &[]]])),
        learn(
            "learned: two moves",
            &two_moves,
            sheet(&[[&[], &[0], &[0], &[]], [&[0], &[], &[], &[0]]]),
        ),
        learn("learned: no moves", &one_fact(0, []), Vec::new()),
        check(
            "M3's plan passes by two records",
            more.bytes(),
            order(&START_2_CLEAR, &[(1, AT_4)], &[ROLL_2_3, ROLL_3_4]).bytes(),
            Answer::success(2),
        )
        .after(end_sheet(&[AT_4, [2, 2, 0], [2, 3, 0]])),
    ]
}

/// Row 13, for each call that is lent an output.
pub fn outputs() -> Vec<Vector> {
    let hall = || small_hall().bytes();
    let plan = || order(&START, &[(1, AT_4)], &[ROLL_2_3, ROLL_3_4]).bytes();
    let wrong = |name: String, job, book, length| {
        Vector::new(name, &[job], book, Refusal::Output.at(0)).output(length)
    };
    let mut vectors = Vec::new();
    for length in [0, RULES_LENGTH - 1, RULES_LENGTH + 1, 2 * RULES_LENGTH] {
        vectors.push(wrong(format!("13: sheet of {length} bytes"), Learn, hall(), length));
    }
    vectors.push(wrong("13: a sheet for no moves".into(), Learn, one_fact(0, []).bytes(), 1));
    for length in [0, END_SHEET_LENGTH - 1, END_SHEET_LENGTH + 1] {
        let name = format!("13: end sheet of {length} bytes");
        vectors.push(wrong(name, Check, hall(), length).order(plan()));
    }
    vectors.push(wrong("13 before 14".into(), Check, hall(), 511).order(vec![0; 15]));
    let add = |name: &str, length| {
        let book = with([]).bytes();
        wrong(name.into(), Add, book, length).record(filed().bytes())
    };
    vectors.push(add("13: output one byte short", 57));
    vectors.push(add("13: no output", 0));
    let mut longer = add("added: bytes beyond the new book stay", 64).after(hall());
    longer.answer = Answer::success(58);
    vectors.push(longer);
    vectors
}

/// Rows 19 and 20, and plans that pass.
pub fn plans() -> Vec<Vector> {
    let plan = |name, start: &[Fact], goal: &[(u8, Fact)], steps: &[_], answer| {
        check(name, small_hall().bytes(), order(start, goal, steps).bytes(), answer)
    };
    let rolls = [ROLL_2_3, ROLL_3_4];
    let at_4 = [(1, AT_4)];
    let no_clear_3 = [AT_2, CLEAR_4];
    let ended = [AT_4, [2, 2, 0], [2, 3, 0]];
    vec![
        plan("19: a fact needed to hold does not", &no_clear_3, &at_4, &rolls, unmet(1)),
        plan("19: a fact needed not to hold does", &START_2_CLEAR, &at_4, &[ROLL_2_3], unmet(1)),
        plan("19: at step 2", &START, &at_4, &[ROLL_2_3, [1, 1, 2, 4, 0]], unmet(2)),
        plan("19 before 20", &START, &[(1, AT_2)], &[ROLL_2_3, ROLL_2_3], unmet(2)),
        plan("20: an entry of 1", &START, &[(1, AT_2)], &rolls, missed(1)),
        plan("20: an entry of 0", &START, &[(0, AT_4)], &rolls, missed(1)),
        plan("20: the second entry", &START, &[(0, AT_2), (0, AT_4)], &rolls, missed(2)),
        plan("20: the first of two", &START, &[(1, AT_2), (0, AT_4)], &rolls, missed(1)),
        plan(
            "passes: entries of 1 and 0",
            &START,
            &[(0, AT_2), (1, AT_4), (1, [2, 2, 0]), (0, CLEAR_4)],
            &rolls,
            Answer::success(2),
        )
        .after(end_sheet(&ended)),
        plan("passes: no goal", &START, &[], &rolls, Answer::success(2)).after(end_sheet(&ended)),
        plan("passes: there and back", &START, &[(1, AT_2)], &[ROLL_2_3, [1, 1, 3, 2, 0]], {
            Answer::success(2)
        })
        .after(end_sheet(&START)),
        plan("passes: nothing at all", &[], &[], &[], Answer::success(0)).after(end_sheet(&[])),
    ]
}

/// Relation 1 has no places, relation 2 has one. Move 1 has no parameters and
/// adds the fact of relation 1; move 2 needs it and adds 2(x) of its parameter.
pub fn plans_without_places() -> Vec<Vector> {
    let fact = [1, 0, 0];
    let (turn, put) = ([1, 0, 0, 0, 0], |object| [2, object, 0, 0, 0]);
    let book = BookDraft {
        kinds: 1,
        relations: vec![[0; 4], [1, 1, 0, 0]],
        moves: vec![[0; 6], [1, 1, 0, 0, 0, 0]],
        records: vec![RecordDraft {
            objects: vec![1],
            states: vec![Vec::new(), vec![fact], vec![fact, [2, 1, 0]]],
            steps: vec![turn, put(1)],
        }],
        ..BookDraft::default()
    };
    let plan = |name, goal: &[(u8, Fact)], steps: &[_], answer| {
        let (goal, steps) = (goal.to_vec(), steps.to_vec());
        let order = OrderDraft { objects: vec![1; 3], starts: vec![Vec::new()], goal, steps };
        check(name, book.bytes(), order.bytes(), answer)
    };
    let both = [(1, fact), (1, [2, 3, 0])];
    vec![
        plan("passes: a fact of no places", &both, &[turn, put(3)], Answer::success(2))
            .after(end_sheet(&[fact, [2, 3, 0]])),
        plan("19: a fact of no places is needed", &[], &[put(3)], unmet(1)),
        plan("19: a fact of no places is needed not to hold", &[], &[turn, turn], unmet(2)),
        plan("20: a fact of no places", &[(0, fact)], &[turn], missed(1)),
    ]
}
