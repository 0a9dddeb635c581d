//! What is learned beside steps that did not go, and row 28: all learned needs were met
//! before one, learned from the whole book. It stands behind 11 and 12.

use super::{barred, tried, unbarred, CLEAR_2, CLEAR_3, NOT_ROLLED};
use crate::answer::{Answer, Refusal};
use crate::calls::Form;
use crate::calls::Job::{Check, Learn, LookOver};
use crate::gen::extreme::fullbook::first_facts;
use crate::gen::{BookDraft, Fact, RecordDraft, Step};
use crate::limits::RULES_LENGTH;
use crate::vectors::hall::{
    empty_end, filed, one_fact, sheet, story, unbound, with, AT_2, DOWN, ROLL_2_3, STAYS,
    STAYS_OUT, UP,
};
use crate::vectors::kinds::wagon;
use crate::vectors::paper::m1_sheet;
use crate::vectors::sequence::permuted::{stays_clear, stays_taken};
use crate::vectors::Vector;

/// What a full book comes to. A step is told by its record and its number there, from 0.
enum Said {
    Learned(Vec<u8>),
    Unbound(usize, usize),
    Conflict(usize),
    NeedsMet(usize, usize),
}
use Said::{Conflict, Learned, NeedsMet, Unbound};

type Case = (&'static str, BookDraft, Said);

pub fn all(form: Form) -> Vec<Vector> {
    let mut cases = taught_nothing();
    cases.extend(never_recorded());
    cases.extend(needs_met());
    cases.extend(no_needs());
    cases.extend(whole_book());
    cases.extend(first_of_several());
    cases.extend(rows_before());
    cases.extend(many_records());
    let mut vectors: Vec<Vector> =
        cases.into_iter().flat_map(|case| answered(form, case)).collect();
    vectors.extend(far(form));
    vectors
}

/// Looking over counts every filed step, and stands before 11, 12 and 28.
fn answered(form: Form, (name, book, said): Case) -> [Vector; 2] {
    let book = book.in_form(form);
    let steps = |record: usize| book.layout().records.swap_remove(record).steps;
    let refused = |answer| Vector::new(name, &[Learn, Check], book.bytes(), answer);
    let total = Answer::success(book.steps());
    let learned = match said {
        Learned(sheet) => {
            Vector::new(name, &[Learn], book.bytes(), total).output(sheet.len()).after(sheet)
        }
        Unbound(record, step) => refused(Refusal::UnboundChange.at(steps(record)[step])),
        Conflict(number) => refused(Refusal::EffectConflict.at(number)),
        NeedsMet(record, step) => refused(Refusal::NeedsMet.at(steps(record)[step])),
    };
    let looked = Vector::new(format!("{name}, looked over"), &[LookOver], book.bytes(), total);
    [looked, learned].map(|vector| vector.form(form.number()))
}

/// With a need unmet, to hold or not to hold, all is learned as without the step: the bank
/// still at spot 2 is no 12, and a spot that is clear or taken drops no need.
fn taught_nothing() -> Vec<Case> {
    let case = |name, state: &[Fact]| (name, with([filed(), tried(state)]), Learned(m1_sheet()));
    // Tried back, rolled, and tried again in one record.
    let among = RecordDraft {
        states: [0, 0, 1, 1].map(|state| filed().states[state].clone()).into(),
        steps: vec![[129, 1, 3, 2, 0], ROLL_2_3, NOT_ROLLED],
        ..filed()
    };
    let tried_twice = RecordDraft {
        states: vec![vec![AT_2]; 3],
        steps: vec![NOT_ROLLED, [129, 1, 3, 2, 0]],
        ..filed()
    };
    vec![
        case("a spot needed clear is not", &[AT_2]),
        case("a bank needed at a spot is not", &[CLEAR_3]),
        case("a spot needed taken is clear", &[AT_2, CLEAR_2, CLEAR_3]),
        case("a bank needed elsewhere is there", &[AT_2, [1, 1, 3], CLEAR_3]),
        case("no fact at all", &[]),
        case("every fact", &[AT_2, [1, 1, 3], CLEAR_2, CLEAR_3]),
        ("the record of the step first", with([barred(), filed()]), Learned(m1_sheet())),
        ("among the steps of the record", with([among]), Learned(m1_sheet())),
        ("two in one record", with([filed(), tried_twice]), Learned(m1_sheet())),
        (
            "of two moves the other one",
            one_fact(2, [story(&[false, true, true, false, false], &[1, 129, 2, 130])]),
            Learned(sheet(&[[&[], &[0], &[0], &[]], [&[0], &[], &[], &[0]]])),
        ),
    ]
}

/// A move of which no step went is one never recorded, and a record of such steps alone is
/// no record without steps.
fn never_recorded() -> Vec<Case> {
    let all: &[usize] = &[1, 2, 20, 24];
    let unrecorded = || Learned(sheet(&[[all, all, &[], &[]]]));
    let both = || sheet(&[[&[0], &[0], &[], &[]], [&[], &[0], &[0], &[]]]);
    vec![
        ("never recorded, a need unmet", with([barred()]), unrecorded()),
        ("never recorded, as the roll that went elsewhere", with([unbarred()]), unrecorded()),
        ("never recorded, in two states", with([tried(&[]), unbarred()]), unrecorded()),
        (
            "never recorded, beside a move that is",
            one_fact(2, [story(&[false, false, true, true], &[129, 2, 129])]),
            Learned(both()),
        ),
    ]
}

/// All of the four needs, and facts that are no bound facts of the step.
fn needs_met() -> Vec<Case> {
    let mut idle = unbarred();
    idle.objects.push(2);
    idle.states.iter_mut().for_each(|state| state.push([2, 4, 0]));
    // In one record, right before the step that went.
    let before = RecordDraft {
        states: [0, 0, 1].map(|state| filed().states[state].clone()).into(),
        steps: vec![NOT_ROLLED, ROLL_2_3],
        ..filed()
    };
    // Rolled back, the bank is as at first.
    let behind = RecordDraft {
        states: [0, 1, 0, 0].map(|state| filed().states[state].clone()).into(),
        steps: vec![ROLL_2_3, [1, 1, 3, 2, 0], NOT_ROLLED],
        ..filed()
    };
    // The bank is a wagon, which may be loaded: no bound fact of a roll.
    let wagon = |loaded: bool| {
        let mut record = wagon::rolls(3, &[], &[]);
        record.states[1] = record.states[0].clone();
        record.steps[0] = NOT_ROLLED;
        if loaded {
            record.states.iter_mut().for_each(|state| state.push([3, 1, 0]));
        }
        wagon::with([wagon::rolls(3, &[], &[]), record])
    };
    vec![
        ("all needs met", with([filed(), unbarred()]), NeedsMet(1, 0)),
        ("all needs met, before it is learned", with([unbarred(), filed()]), NeedsMet(0, 0)),
        ("all needs met beside an idle spot", with([filed(), idle]), NeedsMet(1, 0)),
        ("all needs met before the step that went", with([before]), NeedsMet(0, 0)),
        ("all needs met at the end of a record", with([behind]), NeedsMet(0, 2)),
        ("all needs met by a wagon", wagon(false), NeedsMet(1, 0)),
        ("all needs met by a loaded wagon", wagon(true), NeedsMet(1, 0)),
        (
            "all needs met: held before each",
            one_fact(1, [story(DOWN, &[1]), story(STAYS, &[129])]),
            NeedsMet(1, 0),
        ),
        (
            "all needs met: held before none",
            one_fact(1, [story(UP, &[1]), story(STAYS_OUT, &[129])]),
            NeedsMet(1, 0),
        ),
        (
            "a need to hold unmet, and no other",
            one_fact(1, [story(STAYS, &[1]), story(STAYS_OUT, &[129])]),
            Learned(sheet(&[[&[0], &[], &[], &[]]])),
        ),
        (
            "a need not to hold unmet, and no other",
            one_fact(1, [story(STAYS_OUT, &[1]), story(STAYS, &[129])]),
            Learned(sheet(&[[&[], &[0], &[], &[]]])),
        ),
        (
            "all needs of the second move met",
            one_fact(2, [story(&[false, true, true, true], &[1, 129, 130])]),
            Learned(sheet(&[[&[], &[0], &[0], &[]], [&[0], &[0], &[], &[]]])),
        ),
    ]
}

/// No list can bar a move that has no bound facts, or none that is needed.
fn no_needs() -> Vec<Case> {
    let bare = |steps: &[u8]| BookDraft {
        moves: vec![[0; 6]],
        records: vec![story(&vec![false; steps.len() + 1], steps)],
        ..BookDraft::default()
    };
    let free = [story(STAYS, &[1]), story(STAYS_OUT, &[1])];
    let tried_free =
        |state: &[bool]| one_fact(1, [free[0].clone(), free[1].clone(), story(state, &[129])]);
    let mut others = with([RecordDraft { steps: vec![[130, 0, 0, 0, 0]], ..barred() }]);
    others.moves.push([0; 6]);
    vec![
        ("no bound facts, never recorded", bare(&[129]), NeedsMet(0, 0)),
        ("no bound facts, recorded", bare(&[1, 129]), NeedsMet(0, 1)),
        ("no bound facts of relations that there are", others, NeedsMet(0, 0)),
        ("no needs, the fact holds", tried_free(STAYS), NeedsMet(2, 0)),
        ("no needs, the fact does not hold", tried_free(STAYS_OUT), NeedsMet(2, 0)),
    ]
}

/// A step is asked about once all records were walked: a later one may drop the need that
/// was unmet.
fn whole_book() -> Vec<Case> {
    let clear = || tried(&[AT_2, CLEAR_2, CLEAR_3]);
    let dropped = sheet(&[[&[1, 24], &[2], &[2, 20], &[1, 24]]]);
    vec![
        ("a need not to hold dropped", with([filed(), clear(), stays_clear()]), NeedsMet(1, 0)),
        ("a need not to hold dropped before", with([stays_clear(), filed(), clear()]), {
            NeedsMet(2, 0)
        }),
        ("a need to hold dropped", with([filed(), barred(), stays_taken()]), NeedsMet(1, 0)),
        ("another need dropped", with([filed(), barred(), stays_clear()]), Learned(dropped)),
    ]
}

/// The first such step in the file, whichever needs or moves.
fn first_of_several() -> Vec<Case> {
    // The bank is at spot 2, so that a roll from spot 3 is barred.
    let tried_twice = |steps: [Step; 2]| {
        let record = RecordDraft {
            states: vec![filed().states[0].clone(); 3],
            steps: steps.to_vec(),
            ..filed()
        };
        with([filed(), record])
    };
    let back = [129, 1, 3, 2, 0];
    let of_moves = one_fact(2, [story(UP, &[2]), story(UP, &[1]), story(STAYS_OUT, &[130])]);
    let mut by_move = of_moves.clone();
    by_move.records.push(story(STAYS_OUT, &[129]));
    vec![
        ("the second of two is met", with([filed(), barred(), unbarred()]), NeedsMet(2, 0)),
        ("the first of two is met", with([filed(), unbarred(), barred()]), NeedsMet(1, 0)),
        ("both are met", with([unbarred(), filed(), unbarred()]), NeedsMet(0, 0)),
        ("both of one record are met", tried_twice([NOT_ROLLED; 2]), NeedsMet(1, 0)),
        ("the second of one record is met", tried_twice([back, NOT_ROLLED]), NeedsMet(1, 1)),
        ("the first of one record is met", tried_twice([NOT_ROLLED, back]), NeedsMet(1, 0)),
        ("the first in the file, not of the first move", by_move, NeedsMet(2, 0)),
    ]
}

/// 11 and 12 before 28; neither is met at a step that did not go.
fn rows_before() -> Vec<Case> {
    let conflict = [story(UP, &[1]), story(STAYS_OUT, &[1])];
    let of_other = one_fact(2, [conflict[0].clone(), conflict[1].clone(), story(UP, &[2])]);
    let mut behind = of_other.clone();
    behind.records.push(story(STAYS_OUT, &[130]));
    vec![
        ("11 before 28", with([unbarred(), unbound()]), Unbound(1, 0)),
        ("11 before 28, in file order too", with([unbound(), unbarred()]), Unbound(0, 0)),
        ("12 before 28", with([filed(), empty_end(), unbarred()]), Conflict(1)),
        ("12 of another move before 28", behind, Conflict(1)),
        ("11 before 12 and 28", with([unbarred(), filed(), empty_end(), unbound()]), {
            Unbound(3, 0)
        }),
    ]
}

/// The record that has the step may be any of 64, and the step any of 64.
fn many_records() -> Vec<Case> {
    let late = |count: usize| {
        let mut records = vec![story(STAYS, &[1]); count];
        records.push(story(STAYS, &[129]));
        one_fact(1, records)
    };
    let mut steps = vec![1; 63];
    steps.push(129);
    let last = one_fact(1, [story(&[true; 65], &steps)]);
    vec![
        ("in the 64th record", late(63), NeedsMet(63, 0)),
        ("in the 33rd record", late(32), NeedsMet(32, 0)),
        ("in the 17th record", late(16), NeedsMet(16, 0)),
        ("in the 9th record", late(8), NeedsMet(8, 0)),
        ("the 64th step", last, NeedsMet(0, 63)),
    ]
}

/// Places that one byte, or two with a sign, do not hold, behind records in which nothing
/// changes. The move has no bound facts.
fn far(form: Form) -> Vec<Vector> {
    let idle = RecordDraft {
        objects: vec![1; 16],
        states: vec![first_facts(16, 250); 2],
        steps: vec![[1, 0, 0, 0, 0]],
    };
    let many = if form == Form::Full { 26 } else { 52 };
    [1, many]
        .map(|count| {
            let mut records = vec![idle.clone(); count];
            records.push(story(STAYS_OUT, &[129]));
            let book = BookDraft {
                kinds: 1,
                relations: vec![[2, 1, 1, 0]],
                moves: vec![[0; 6]],
                records,
                ..BookDraft::default()
            }
            .in_form(form);
            let answer = Refusal::NeedsMet.at(book.layout().records[count].steps[0]);
            let name = format!("28 behind {count} long records");
            Vector::new(name, &[Learn, Check], book.bytes(), answer)
                .form(form.number())
                .output(RULES_LENGTH)
        })
        .into()
}
