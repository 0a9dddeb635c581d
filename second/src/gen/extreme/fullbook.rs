//! Books of any given length, up to the limit, and those that are timed.

use std::collections::BTreeSet;

use crate::gen::draft::{not_gone, BookDraft, Fact, RecordDraft};
use crate::gen::rng::Rng;

/// The `count` first facts of relation 1 over `objects` objects of one kind.
pub fn first_facts(objects: usize, count: usize) -> Vec<Fact> {
    (0..count).map(|n| [1, (n / objects) as u8 + 1, (n % objects) as u8 + 1]).collect()
}

/// A book of good form, but perhaps for its length, of exactly `length` bytes,
/// which is at least 700 and fits in the header's end. Its form may be either.
pub fn of_length(length: usize, rng: &mut Rng) -> Vec<u8> {
    draft_of_length(length, rng).bytes()
}

/// Read as a full book, all states of a record are equal; as a short one, all facts
/// turn with each step. The other form of either is shorter.
pub fn draft_of_length(length: usize, rng: &mut Rng) -> BookDraft {
    const FACTS: usize = 150;
    let mut draft = BookDraft {
        kinds: 1,
        relations: vec![[2, 1, 1, 0]],
        moves: vec![[0; 6]],
        ..BookDraft::default()
    };
    // Each record takes 6 + 16 + 3·150 bytes, and 457 for each step. What is left is
    // then filled by a few records of one step, of fitting objects and facts.
    let state = || first_facts(16, FACTS);
    while length - draft.length() > 1500 {
        let room = (length - draft.length() - 1000) / 457;
        let steps = room.min(rng.range(40, 64));
        draft.records.push(RecordDraft {
            objects: vec![1; 16],
            states: (0..=steps).map(|_| state()).collect(),
            steps: vec![[1, 0, 0, 0, 0]; steps],
        });
    }
    while length > draft.length() {
        let rest = length - draft.length();
        let share = if rest > 500 { rest / 2 } else { rest };
        // The objects that leave a multiple of 6 for the facts of two states.
        let objects = (11..=16).find(|o| (share - 13 - o) % 6 == 0).expect("one of six in a row");
        let facts = first_facts(objects, (share - 13 - objects) / 6);
        draft.records.push(RecordDraft {
            objects: vec![1; objects],
            states: vec![facts; 2],
            steps: vec![[1, 0, 0, 0, 0]],
        });
    }
    debug_assert_eq!(draft.length(), length);
    draft
}

/// 59,741 bytes: 2 records of 16 objects, 77 states of 256 facts each. Moves 1
/// and 2 carry a pair of objects between relations 1 and 2.
pub fn dense(rng: &mut Rng) -> BookDraft {
    let mut draft = BookDraft {
        kinds: 1,
        relations: vec![[2, 1, 1, 0]; 2],
        moves: vec![[4, 1, 1, 1, 1, 0]; 2],
        ..BookDraft::default()
    };
    for states in [39, 38] {
        let mut record = RecordDraft { objects: vec![1; 16], ..RecordDraft::default() };
        // Of each pair, one relation holds at most, and 256 facts in all.
        let mut state: BTreeSet<Fact> = first_facts(16, 256)
            .into_iter()
            .map(|[_, first, second]| [1 + u8::from(rng.chance(50)), first, second])
            .collect();
        record.states.push(state.iter().copied().collect());
        while record.states.len() < states {
            let mut objects: Vec<u8> = (1..=16).collect();
            rng.shuffle(&mut objects);
            let action = if state.contains(&[1, objects[0], objects[1]]) { 1 } else { 2 };
            state.remove(&[action, objects[0], objects[1]]);
            state.insert([3 - action, objects[0], objects[1]]);
            record.steps.push([action, objects[0], objects[1], objects[2], objects[3]]);
            record.states.push(state.iter().copied().collect());
        }
        draft.records.push(record);
    }
    draft
}

/// 55,076 bytes in 4,096 steps: 64 records of 16 objects and 64 steps, with 2
/// facts in each state. A bank rolls to a clear spot, by move 1 or move 2.
pub fn many_steps(rng: &mut Rng) -> BookDraft {
    rolling(64, |_| true, rng)
}

/// 51,636 bytes in 3,840 steps: the same in 60 records, but every third roll did not go,
/// since the bank was not at the spot that it should leave. Its short twin has 59,556.
pub fn every_third_not_gone(rng: &mut Rng) -> BookDraft {
    rolling(60, |number| number % 3 < 2, rng)
}

/// `goes` tells which of the 64 steps of a record went.
fn rolling(records: usize, goes: fn(usize) -> bool, rng: &mut Rng) -> BookDraft {
    let mut draft = BookDraft {
        kinds: 2,
        relations: vec![[2, 1, 2, 0], [1, 2, 0, 0]],
        moves: vec![[3, 1, 2, 2, 0, 0], [4, 1, 2, 2, 2, 0]],
        ..BookDraft::default()
    };
    for _ in 0..records {
        // Object 1 is the bank, the others are spots.
        let mut objects = vec![2; 16];
        objects[0] = 1;
        let mut spots: Vec<u8> = (2..=16).collect();
        rng.shuffle(&mut spots);
        let (mut here, mut clear, other) = (spots[0], spots[1], spots[2]);
        let mut record = RecordDraft { objects, ..RecordDraft::default() };
        record.states.push(vec![[1, 1, here], [2, clear, 0]]);
        for number in 0..64 {
            let action = rng.range(1, 2) as u8;
            let spare = if action == 2 { other } else { 0 };
            if goes(number) {
                record.steps.push([action, 1, here, clear, spare]);
                std::mem::swap(&mut here, &mut clear);
            } else {
                record.steps.push(not_gone([action, 1, clear, here, spare]));
            }
            record.states.push(vec![[1, 1, here], [2, clear, 0]]);
        }
        draft.records.push(record);
    }
    draft
}

/// 19,932 bytes: 32 moves with 256 bound facts each, in 2 records of 64 steps,
/// with 48 facts in each state. Two moves for each relation carry a pair of
/// objects from it to the next one.
pub fn many_atoms(rng: &mut Rng) -> BookDraft {
    let mut draft = BookDraft {
        kinds: 1,
        relations: vec![[2, 1, 1, 0]; 16],
        moves: vec![[4, 1, 1, 1, 1, 0]; 32],
        ..BookDraft::default()
    };
    for _ in 0..2 {
        let mut record = RecordDraft { objects: vec![1; 16], ..RecordDraft::default() };
        let mut state = pairs_of_each(3, rng);
        record.states.push(state.iter().copied().collect());
        for action in (1..=32u8).cycle().take(64) {
            let from = action.div_ceil(2);
            let to = from % 16 + 1;
            let free = |&&[relation, first, second]: &&Fact| {
                relation == from && !state.contains(&[to, first, second])
            };
            let free: Vec<Fact> = state.iter().filter(free).copied().collect();
            let &[_, first, second] = rng.pick(&free).expect("a pair to carry");
            state.remove(&[from, first, second]);
            state.insert([to, first, second]);
            let mut others: Vec<u8> = (1..=16).filter(|&o| o != first && o != second).collect();
            rng.shuffle(&mut others);
            record.steps.push([action, first, second, others[0], others[1]]);
            record.states.push(state.iter().copied().collect());
        }
        draft.records.push(record);
    }
    draft
}

/// Of each of 16 relations as many facts, of two different objects of 16.
fn pairs_of_each(count: usize, rng: &mut Rng) -> BTreeSet<Fact> {
    let mut facts = BTreeSet::new();
    for relation in 1..=16 {
        while facts.len() < count * usize::from(relation) {
            let (first, second) = (rng.range(1, 16) as u8, rng.range(1, 16) as u8);
            if first != second {
                facts.insert([relation, first, second]);
            }
        }
    }
    facts
}
