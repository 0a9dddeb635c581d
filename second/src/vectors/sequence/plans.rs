//! Plans checked by books with their records in every sequence, by hand, in both forms:
//! the same verdict, with its step or entry, its start and its end sheet.

use super::permuted::{fact, hall, stays_clear, stays_taken, Sequence};
use crate::answer::Answer;
use crate::gen::{Fact, OrderDraft, Step};
use crate::vectors::hall::{
    end_sheet, filed, order, sheet, AT_2, AT_4, DOWN, ROLL_2_3, ROLL_3_4, STAYS, STAYS_OUT, UP,
};
use crate::vectors::paper::{check, missed, unmet};
use crate::vectors::Vector;

pub fn all() -> Vec<Vector> {
    let (b, c) = (('B', stays_clear()), ('C', stays_taken()));
    let apart = hall("each effect in one record", [b.clone(), c.clone()]);
    let rolls = hall("rolls", [('A', filed()), b, c]);
    let (one, two): (&[u8], &[u8]) = (&[1], &[2]);
    let in_turn: [(char, &[bool], &[u8]); 3] =
        [('A', &[false, true, false], &[1, 2]), ('B', STAYS, one), ('C', STAYS_OUT, two)];
    let in_turn = fact("two moves in turn", 2, &in_turn);
    let between = [('A', UP, one), ('B', DOWN, two), ('C', STAYS, one)];
    let between = fact("another move between", 2, &between);
    let mut vectors: Vec<Vector> = rolls.sequences().iter().flat_map(rolled).collect();
    for sequence in apart.sequences() {
        vectors.extend(rolled(&sequence));
        vectors.extend(refused(&sequence));
    }
    vectors.extend(in_turn.sequences().iter().flat_map(turned));
    vectors.extend(between.sequences().iter().map(stopped));
    vectors
}

fn checked(sequence: &Sequence, name: &str, order: &OrderDraft, answer: Answer) -> Vector {
    let name = format!("{}, {name}", sequence.name);
    check(&name, sequence.book.bytes(), order.bytes(), answer).form(sequence.book.form.number())
}

/// Spots 2 and 4 are clear. By A alone spot 2 would be needed taken, and spot 3 clear.
const LEFT: [Fact; 3] = [AT_2, [2, 2, 0], [2, 4, 0]];
const ROLLS: [Step; 2] = [ROLL_2_3, ROLL_3_4];

/// At spot 4, which is taken, and spot 3 cleared or not.
fn goal(cleared: u8) -> [(u8, Fact); 3] {
    [(1, AT_4), (cleared, [2, 3, 0]), (0, [2, 4, 0])]
}

/// A roll needs the bank where it starts and not where it goes. It clears the one spot,
/// which B does not show, and takes the other, which C does not show.
fn rolled(sequence: &Sequence) -> [Vector; 2] {
    let ended = end_sheet(&[AT_4, [2, 2, 0], [2, 3, 0]]);
    let passes = order(&LEFT, &goal(1), &ROLLS);
    [
        sequence.learn(&sheet(&[[&[1], &[2], &[2, 20], &[1, 24]]])),
        checked(sequence, "passes", &passes, Answer::success(2)).after(ended),
    ]
}

fn refused(sequence: &Sequence) -> [Vector; 3] {
    let misses = order(&LEFT, &goal(0), &ROLLS);
    let stops = order(&LEFT, &[], &[ROLL_2_3, [1, 1, 2, 4, 0]]);
    let mut two = order(&LEFT, &goal(1), &ROLLS);
    two.starts.push(vec![AT_2, [1, 1, 3]]);
    [
        checked(sequence, "20", &misses, missed(2)),
        checked(sequence, "19", &stops, unmet(2)),
        checked(sequence, "two starts", &two, unmet(1).from_start(2)),
    ]
}

const FACT: Fact = [1, 0, 0];

fn plan(start: &[Fact], goal: &[(u8, Fact)], moves: &[u8]) -> OrderDraft {
    OrderDraft {
        objects: Vec::new(),
        starts: vec![start.to_vec()],
        goal: goal.to_vec(),
        steps: moves.iter().map(|&number| [number, 0, 0, 0, 0]).collect(),
    }
}

/// Move 1 adds the fact and move 2 removes it, as A alone shows; neither needs it or
/// needs it not to hold, as B and C show.
fn turned(sequence: &Sequence) -> [Vector; 2] {
    let passes = plan(&[], &[(1, FACT)], &[2, 1, 1]);
    [
        sequence.learn(&sheet(&[[&[], &[], &[0], &[]], [&[], &[], &[], &[0]]])),
        checked(sequence, "passes", &passes, Answer::success(3)).after(end_sheet(&[FACT])),
    ]
}

/// Move 1 adds the fact and needs nothing, as A and C show; move 2 needs and removes it.
fn stopped(sequence: &Sequence) -> Vector {
    checked(sequence, "19", &plan(&[FACT], &[], &[1, 2, 2]), unmet(3))
}
