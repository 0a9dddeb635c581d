//! The small hall of the paper and what is built from it.

pub use crate::definition::end_sheet;
use crate::gen::{BookDraft, Fact, OrderDraft, RecordDraft, Step};
use crate::limits::{RULES_LENGTH, SET_LENGTH};

/// Kind 1 is a bank, 2 a spot; relation 1 "bank at spot", 2 "spot clear"; move
/// 1 rolls a bank from spot to spot. No record.
pub fn unrecorded() -> BookDraft {
    BookDraft {
        kinds: 2,
        relations: vec![[2, 1, 2, 0], [1, 2, 0, 0]],
        moves: vec![[3, 1, 2, 2, 0, 0]],
        ..BookDraft::default()
    }
}

/// The paper's one record: bank 1 rolls from spot 2 to spot 3.
pub fn filed() -> RecordDraft {
    RecordDraft {
        objects: vec![1, 2, 2],
        states: vec![vec![[1, 1, 2], [2, 3, 0]], vec![[1, 1, 3], [2, 2, 0]]],
        steps: vec![[1, 1, 2, 3, 0]],
    }
}

pub fn with(records: impl IntoIterator<Item = RecordDraft>) -> BookDraft {
    BookDraft { records: records.into_iter().collect(), ..unrecorded() }
}

pub fn small_hall() -> BookDraft {
    with([filed()])
}

/// The small hall, whose two kinds have these parents.
pub fn with_parents(parents: &[u8]) -> BookDraft {
    BookDraft { parents: parents.to_vec(), ..small_hall() }
}

/// Where the parts of the small hall stand.
pub const RELATIONS: usize = 16;
pub const MOVE: usize = 24;
pub const HEAD: usize = 30;
pub const OBJECTS: usize = 34;
pub const STATE: usize = 37;
pub const STEP: usize = 45;
pub const AFTER: usize = 50;

/// Bytes with others put in their place.
pub fn changed(mut bytes: Vec<u8>, changes: &[(usize, &[u8])]) -> Vec<u8> {
    for &(at, new) in changes {
        bytes[at..at + new.len()].copy_from_slice(new);
    }
    bytes
}

/// A fourth object, a spot, is clear after the filed step and was not before.
pub fn unbound() -> RecordDraft {
    RecordDraft {
        objects: vec![1, 2, 2, 2],
        states: vec![vec![[1, 1, 2], [2, 3, 0]], vec![[1, 1, 3], [2, 2, 0], [2, 4, 0]]],
        ..filed()
    }
}

/// The filed record with an empty last state: M9's second.
pub fn empty_end() -> RecordDraft {
    let mut record = filed();
    record.states[1].clear();
    record
}

/// The filed roll with no fact before it or after it, which is the same in both forms.
pub fn still() -> RecordDraft {
    RecordDraft { states: vec![Vec::new(); 2], ..filed() }
}

/// The filed record as it is handed in if the form is left empty.
pub fn without_steps() -> RecordDraft {
    RecordDraft { states: vec![filed().states[0].clone()], steps: Vec::new(), ..filed() }
}

/// The marked cases' hall has bank 1 and spots 2, 3, 4.
pub fn order(start: &[Fact], goal: &[(u8, Fact)], steps: &[Step]) -> OrderDraft {
    OrderDraft {
        objects: vec![1, 2, 2, 2],
        starts: vec![start.to_vec()],
        goal: goal.to_vec(),
        steps: steps.to_vec(),
    }
}

/// Bank at 2, spots 3 and 4 clear.
pub const START: [Fact; 3] = [[1, 1, 2], [2, 3, 0], [2, 4, 0]];
/// The same with spot 2 clear as well.
pub const START_2_CLEAR: [Fact; 4] = [[1, 1, 2], [2, 2, 0], [2, 3, 0], [2, 4, 0]];
pub const AT_2: Fact = [1, 1, 2];
pub const AT_4: Fact = [1, 1, 4];
pub const ROLL_2_3: Step = [1, 1, 2, 3, 0];
pub const ROLL_3_4: Step = [1, 1, 3, 4, 0];

/// M2's order, which passes. Its objects stand at 16, the start's count at 20, its
/// facts at 22, the goal at 31 and the two steps at 35.
pub fn m2() -> OrderDraft {
    order(&START, &[(1, AT_4)], &[ROLL_2_3, ROLL_3_4])
}

/// M2's order with a fault of each row that checking has behind the lent output, and the
/// row's number.
pub fn failing_orders() -> [(&'static str, Vec<u8>); 8] {
    let m2 = || m2().bytes();
    let changed = |at: usize, new: &[u8]| changed(m2(), &[(at, new)]);
    [
        ("14", m2()[..15].to_vec()),
        ("22", changed(3, &[0])),
        ("15", changed(16, &[0])),
        ("16", changed(22, &[0])),
        ("17", changed(31, &[2])),
        ("18", changed(35, &[2])),
        // The roll from a spot at which the bank is not; the bank at a third spot.
        ("19", changed(37, &[4])),
        ("20", changed(34, &[3])),
    ]
}

/// One relation and `moves` moves, all without places; the fact is `F`.
pub fn one_fact(moves: usize, records: impl IntoIterator<Item = RecordDraft>) -> BookDraft {
    BookDraft {
        relations: vec![[0; 4]],
        moves: vec![[0; 6]; moves],
        records: records.into_iter().collect(),
        ..BookDraft::default()
    }
}

/// Whether the fact of [`one_fact`] holds in each state, and the moves between.
pub fn story(states: &[bool], moves: &[u8]) -> RecordDraft {
    let state = |&holds: &bool| if holds { vec![[1, 0, 0]] } else { Vec::new() };
    RecordDraft {
        objects: Vec::new(),
        states: states.iter().map(state).collect(),
        steps: moves.iter().map(|&number| [number, 0, 0, 0, 0]).collect(),
    }
}

/// Whether this fact holds before a step and after it.
pub const UP: &[bool] = &[false, true];
pub const DOWN: &[bool] = &[true, false];
pub const STAYS: &[bool] = &[true, true];
pub const STAYS_OUT: &[bool] = &[false, false];

/// A rule sheet: for each move four sets of bound facts by their numbers n.
pub fn sheet(moves: &[[&[usize]; 4]]) -> Vec<u8> {
    let mut bytes = vec![0; RULES_LENGTH * moves.len()];
    for (part, sets) in bytes.chunks_exact_mut(RULES_LENGTH).zip(moves) {
        for (set, numbers) in part.chunks_exact_mut(SET_LENGTH).zip(sets) {
            for n in *numbers {
                set[n / 8] |= 1 << (n % 8);
            }
        }
    }
    bytes
}
