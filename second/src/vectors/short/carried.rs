//! Facts that stay from step to step, by hand: in a short book nothing says so but
//! what holds before. The books are full; their short twins are in `twins`.

use crate::gen::{BookDraft, RecordDraft};
use crate::vectors::hall::{one_fact, sheet, story, unrecorded};
use crate::vectors::paper::{learn, m1_sheet};
use crate::vectors::Vector;

pub fn all() -> Vec<Vector> {
    let in_turn = story(&[false, true, true, false, false], &[2, 1, 3, 1]);
    vec![
        learn(
            "learned: nothing holds in the middle",
            &one_fact(1, [story(&[true, false, false], &[1, 1])]),
            sheet(&[[&[], &[], &[], &[0]]]),
        ),
        learn(
            "learned: a fact stays after each of two moves",
            &one_fact(3, [in_turn]),
            sheet(&[[&[], &[], &[], &[]], [&[], &[0], &[0], &[]], [&[0], &[], &[], &[0]]]),
        ),
        learn("learned: the first object idle", &idle_first(), m1_sheet()),
        learn(
            "learned: four parameters, the first object idle",
            &idle_of_five(),
            sheet(&[[&[0], &[4, 8, 12], &[4], &[]]]),
        ),
        learn(
            "learned: a fact of no places stays",
            &without_places(),
            sheet(&[[&[0], &[16], &[16], &[]]]),
        ),
        learn(
            "learned: object 16 for parameter 4",
            &last_parameter(),
            sheet(&[[&[3, 7, 15], &[0, 1, 2, 4, 5, 6, 8, 9, 10, 11, 12, 13, 14], &[11], &[7]]]),
        ),
    ]
}

/// The small hall's roll by objects 2, 3 and 4; object 1, a spot, has no part in it.
fn idle_first() -> BookDraft {
    let record = RecordDraft {
        objects: vec![2, 1, 2, 2],
        states: vec![vec![[1, 2, 3], [2, 4, 0]], vec![[1, 2, 4], [2, 3, 0]]],
        steps: vec![[1, 2, 3, 4, 0]],
    };
    BookDraft { records: vec![record], ..unrecorded() }
}

/// A relation of one place. Of objects 2 to 5, all of the step's, the first has it
/// throughout and the second gets it.
fn idle_of_five() -> BookDraft {
    BookDraft {
        kinds: 1,
        relations: vec![[1, 1, 0, 0]],
        moves: vec![[4, 1, 1, 1, 1, 0]],
        records: vec![RecordDraft {
            objects: vec![1; 5],
            states: vec![vec![[1, 2, 0]], vec![[1, 2, 0], [1, 3, 0]]],
            steps: vec![[1, 2, 3, 4, 5]],
        }],
        ..BookDraft::default()
    }
}

/// Relation 1 has no places, relation 2 has one. The move adds 2(x) of its parameter,
/// which is object 2.
fn without_places() -> BookDraft {
    let before = vec![[1, 0, 0], [2, 1, 0]];
    let after = [&before[..], &[[2, 2, 0]]].concat();
    BookDraft {
        kinds: 1,
        relations: vec![[0; 4], [1, 1, 0, 0]],
        moves: vec![[1, 1, 0, 0, 0, 0]],
        records: vec![RecordDraft {
            objects: vec![1; 2],
            states: vec![before, after],
            steps: vec![[1, 2, 0, 0, 0]],
        }],
        ..BookDraft::default()
    }
}

/// Parameters 1 to 4 are objects 1, 2, 3 and 16. Of the facts with the last in the
/// second place those of parameters 1 and 4 stay, that of 2 vanishes, 3's appears.
fn last_parameter() -> BookDraft {
    let facts = |first: u8| vec![[1, 1, 16], [1, first, 16], [1, 16, 16]];
    BookDraft {
        kinds: 1,
        relations: vec![[2, 1, 1, 0]],
        moves: vec![[4, 1, 1, 1, 1, 0]],
        records: vec![RecordDraft {
            objects: vec![1; 16],
            states: vec![facts(2), facts(3)],
            steps: vec![[1, 1, 2, 3, 16]],
        }],
        ..BookDraft::default()
    }
}
