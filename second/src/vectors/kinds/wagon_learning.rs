//! Kinds under kinds, by hand: what is learned from the wagons of `wagon`, and
//! row 11 by a fact whose objects are all the step's.

use super::wagon::{rolls, with};
use crate::answer::Refusal;
use crate::calls::Job::{Check, Learn};
use crate::gen::{Fact, RecordDraft};
use crate::vectors::hall::sheet;
use crate::vectors::paper::learn;
use crate::vectors::Vector;

pub fn all() -> Vec<Vector> {
    let mut vectors = learned();
    vectors.extend(learned_by_wagons());
    vectors.extend(unbound());
    vectors
}

const LOADED: Fact = [3, 1, 0];
const TO_ITSELF: Fact = [4, 1, 1];

/// The four sets of bound facts, by their numbers n.
type Sets<'a> = [&'a [usize]; 4];

/// 1 and 2 are "bank at spot", 20 and 24 "spot clear"; a bank's parameter makes
/// none of relations 3 and 4.
const ROLL: Sets<'static> = [&[1, 24], &[2, 20], &[2, 20], &[1, 24]];
/// 32 is "wagon loaded", 48 "coupled" to itself: the wagon's kind suits both.
const LOAD_UNRECORDED: Sets<'static> = [&[32, 48], &[32, 48], &[], &[]];
/// Of the wagon, parameter 2, "loaded" is 36, "bank coupled to it" 49 and "it
/// coupled to itself" 53.
const COUPLE_UNRECORDED: Sets<'static> = [&[36, 49, 53], &[36, 49, 53], &[], &[]];

fn rolled() -> Vec<u8> {
    sheet(&[ROLL, LOAD_UNRECORDED, COUPLE_UNRECORDED])
}

/// A roll by an object of each kind, whatever else is said of it.
fn learned() -> Vec<Vector> {
    let unrecorded: Sets = [&[1, 2, 20, 24], &[1, 2, 20, 24], &[], &[]];
    let both = [LOADED, TO_ITSELF];
    let three = with([rolls(3, &both, &both), rolls(1, &[], &[]), rolls(4, &[LOADED], &[LOADED])]);
    vec![
        learn("learned: wagons, no record", &with([]), {
            sheet(&[unrecorded, LOAD_UNRECORDED, COUPLE_UNRECORDED])
        }),
        learn("learned: a bank rolls", &with([rolls(1, &[], &[])]), rolled()),
        learn("learned: a wagon rolls", &with([rolls(3, &[], &[])]), rolled()),
        learn("learned: a tank wagon rolls", &with([rolls(4, &[], &[])]), rolled()),
        learn("learned: a loaded wagon rolls", &with([rolls(3, &both, &both)]), rolled()),
        learn("learned: a wagon, a bank and a tank wagon roll", &three, rolled()),
    ]
}

/// Moves 2 and 3, of wagons. In the second record wagon 1 is given for the bank:
/// what is said of it as a wagon is not bound.
fn learned_by_wagons() -> Vec<Vector> {
    let loads = RecordDraft {
        objects: vec![4],
        states: vec![vec![], vec![LOADED], vec![LOADED, TO_ITSELF]],
        steps: vec![[2, 1, 0, 0, 0]; 2],
    };
    let loaded = [[3, 1, 0], [3, 2, 0]];
    let couples = RecordDraft {
        objects: vec![3, 4],
        states: vec![loaded.to_vec(), [&loaded[..], &[[4, 1, 2], [4, 2, 2]]].concat()],
        steps: vec![[3, 1, 2, 0, 0]],
    };
    let unrecorded: Sets = [&[1, 2, 20, 24], &[1, 2, 20, 24], &[], &[]];
    vec![
        // After the second step 1 is coupled to itself, after the first not.
        Vector::new(
            "12: a tank wagon for a wagon",
            &[Learn, Check],
            with([loads.clone()]).bytes(),
            Refusal::EffectConflict.at(2),
        ),
        learn("learned: a tank wagon is loaded", &with([first_step(&loads)]), {
            sheet(&[unrecorded, [&[], &[32, 48], &[32], &[]], COUPLE_UNRECORDED])
        }),
        learn("learned: a wagon coupled to a tank wagon", &with([couples]), {
            sheet(&[unrecorded, LOAD_UNRECORDED, [&[36], &[49, 53], &[49, 53], &[]]])
        }),
    ]
}

fn first_step(record: &RecordDraft) -> RecordDraft {
    RecordDraft {
        objects: record.objects.clone(),
        states: record.states[..2].to_vec(),
        steps: record.steps[..1].to_vec(),
    }
}

/// Row 11 by a fact all of whose objects are the step's.
fn unbound() -> Vec<Vector> {
    let refused = |name: &str, records: &[RecordDraft], at: usize| {
        let book = with(records.to_vec());
        let answer = Refusal::UnboundChange.at(book.layout().records[at].steps[0]);
        Vector::new(format!("11: {name}"), &[Learn, Check], book.bytes(), answer)
    };
    // Wagons 1 and 2; move 3 couples 1, given for a bank, to 2.
    let couples = |before: &[Fact], after: &[Fact]| RecordDraft {
        objects: vec![3, 3],
        states: vec![before.to_vec(), after.to_vec()],
        steps: vec![[3, 1, 2, 0, 0]],
    };
    let both = [rolls(3, &[LOADED], &[]), rolls(3, &[], &[LOADED])];
    vec![
        refused("a rolling wagon is unloaded", &[rolls(3, &[LOADED], &[])], 0),
        refused("a rolling wagon is loaded", &[rolls(3, &[], &[LOADED])], 0),
        refused("a rolling tank wagon is loaded", &[rolls(4, &[], &[LOADED])], 0),
        refused("a rolling wagon is coupled to itself", &[rolls(3, &[], &[TO_ITSELF])], 0),
        refused("the first of two rolling wagons", &both, 0),
        refused("the second wagon of two rolls", &[rolls(1, &[], &[]), both[1].clone()], 1),
        refused("a wagon given for a bank is loaded", &[couples(&[], &[[3, 1, 0]])], 0),
        refused("coupled the other way", &[couples(&[], &[[4, 1, 2], [4, 2, 1]])], 0),
        refused("a wagon given for a bank, to itself", &[couples(&[[4, 1, 1]], &[])], 0),
    ]
}
