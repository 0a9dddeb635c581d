//! Books with their records in every sequence, by hand, in both forms: what is learned
//! and refused does not depend on it, but for the place of 11. Plans are checked by
//! such books in `plans`.
//!
//! The letters of a vector's name say in which sequence the records stand.

use super::plans;
use crate::answer::{Answer, Refusal};
use crate::calls::Form;
use crate::calls::Job::{Check, Learn, LookOver};
use crate::gen::{BookDraft, Fact, RecordDraft};
use crate::vectors::hall::{
    filed, one_fact, sheet, story, unbound, unrecorded, AT_2, DOWN, ROLL_2_3, ROLL_3_4, STAYS,
    STAYS_OUT, UP,
};
use crate::vectors::paper::m1_sheet;
use crate::vectors::Vector;

/// A record and its letter, which equal records share.
type Lettered = (char, RecordDraft);

/// The first sections of a book, and its records in no sequence yet.
pub struct Filed {
    name: &'static str,
    front: BookDraft,
    records: Vec<Lettered>,
}

/// A book of these records in one sequence and form, by which it is named.
pub struct Sequence {
    pub name: String,
    letters: Vec<char>,
    pub book: BookDraft,
}

pub fn all() -> Vec<Vector> {
    let mut vectors = learned();
    vectors.extend(plans::all());
    vectors.extend(conflicts());
    vectors.extend(unbound_changes());
    vectors
}

impl Filed {
    /// Every sequence once, in the order of the letters, full and then short.
    pub fn sequences(&self) -> Vec<Sequence> {
        let mut all = arrangements(&self.records);
        all.sort_by_key(|records| letters(records));
        all.dedup_by_key(|records| letters(records));
        let of_form = |form: Form| all.iter().map(move |records| self.sequence(form, records));
        Form::BOTH.into_iter().flat_map(of_form).collect()
    }

    fn sequence(&self, form: Form, records: &[Lettered]) -> Sequence {
        let letters = letters(records);
        let sequence: String = letters.iter().collect();
        let name = format!("sequence, {}: {} {sequence}", form.name(), self.name);
        let records = records.iter().map(|(_, record)| record.clone()).collect();
        let book = BookDraft { records, ..self.front.clone() }.in_form(form);
        Sequence { name, letters, book }
    }

    fn each(&self, vector: impl Fn(&Sequence) -> Vector) -> Vec<Vector> {
        self.sequences().iter().map(vector).collect()
    }

    /// 12 at this move, whatever the sequence.
    fn conflicts(&self, number: usize) -> Vec<Vector> {
        self.each(|sequence| sequence.refused(Refusal::EffectConflict.at(number)))
    }

    /// 11 at the step of the first of these records, by their letters, that the sequence
    /// comes to; their steps are numbered from 0.
    fn unbound(&self, steps: &[(char, usize)]) -> Vec<Vector> {
        self.each(|sequence| {
            let step = |(index, letter): (usize, &char)| {
                steps.iter().find(|(of, _)| of == letter).map(|&(_, step)| (index, step))
            };
            let first = sequence.letters.iter().enumerate().find_map(step);
            let (record, step) = first.expect("a record has such a step");
            let place = sequence.book.layout().records[record].steps[step];
            sequence.refused(Refusal::UnboundChange.at(place))
        })
    }
}

impl Sequence {
    pub fn learn(&self, sheet: &[u8]) -> Vector {
        let (book, answer) = (&self.book, Answer::success(self.book.steps()));
        Vector::new(self.name.clone(), &[Learn], book.bytes(), answer)
            .form(book.form.number())
            .output(sheet.len())
            .after(sheet.to_vec())
    }

    fn refused(&self, answer: Answer) -> Vector {
        Vector::new(self.name.clone(), &[Learn, Check], self.book.bytes(), answer)
            .form(self.book.form.number())
    }
}

fn letters(records: &[Lettered]) -> Vec<char> {
    records.iter().map(|&(letter, _)| letter).collect()
}

fn arrangements(records: &[Lettered]) -> Vec<Vec<Lettered>> {
    if records.is_empty() {
        return vec![Vec::new()];
    }
    let with_first = |first: usize| {
        let mut rest = records.to_vec();
        let taken = rest.remove(first);
        arrangements(&rest).into_iter().map(move |rest| [vec![taken.clone()], rest].concat())
    };
    (0..records.len()).flat_map(with_first).collect()
}

/// Records of the small hall.
pub fn hall(name: &'static str, records: impl Into<Vec<Lettered>>) -> Filed {
    Filed { name, front: unrecorded(), records: records.into() }
}

/// Records of one fact and so many moves: whether it holds in each state, and the moves.
pub fn fact(name: &'static str, moves: usize, records: &[(char, &[bool], &[u8])]) -> Filed {
    let record = |&(letter, states, moves): &(char, &[bool], &[u8])| (letter, story(states, moves));
    Filed { name, front: one_fact(moves, []), records: records.iter().map(record).collect() }
}

/// The filed roll with spot 2 clear before it as well: no step shows here that it is
/// cleared, nor that it must not be clear.
pub fn stays_clear() -> RecordDraft {
    let mut record = filed();
    record.states[0].insert(1, [2, 2, 0]);
    record
}

/// The filed roll with spot 3 not clear before it either: no step shows here that it is
/// taken, nor that it must be clear.
pub fn stays_taken() -> RecordDraft {
    let mut record = filed();
    record.states[0] = vec![AT_2];
    record
}

/// Of the bound facts 1 and 2 are "bank at spot" of parameters 1 2 and 1 3, 20 and 24
/// "spot clear" of parameters 2 and 3.
fn learned() -> Vec<Vector> {
    let (a, b, c) = (('A', filed()), ('B', stays_clear()), ('C', stays_taken()));
    let clear = sheet(&[[&[1, 24], &[2], &[2, 20], &[1, 24]]]);
    let taken = sheet(&[[&[1], &[2, 20], &[2, 20], &[1, 24]]]);
    let mut stays = hall("a spot that stays clear", [a.clone(), b.clone()]);
    let mut vectors = stays.each(|sequence| sequence.learn(&clear));
    // The same with parents that say nothing.
    (stays.name, stays.front.parents) = ("a spot that stays clear, parents", vec![0, 0]);
    vectors.extend(stays.each(|sequence| sequence.learn(&clear)));
    let stays = hall("a spot that stays taken", [a.clone(), c]);
    vectors.extend(stays.each(|sequence| sequence.learn(&taken)));
    let alone = hall("one record twice and no other", [a.clone(), a.clone()]);
    vectors.extend(alone.each(|sequence| sequence.learn(&m1_sheet())));
    let twice = hall("one record twice", [a.clone(), a, b]);
    vectors.extend(twice.sequences().iter().flat_map(|sequence| {
        let name = format!("{}, looked over", sequence.name);
        let looked = Vector::new(name, &[LookOver], sequence.book.bytes(), Answer::success(3));
        [looked.form(sequence.book.form.number()), sequence.learn(&clear)]
    }));
    vectors
}

/// Row 12: between any two of the records, and of the moves the smallest.
fn conflicts() -> Vec<Vector> {
    let one: &[u8] = &[1];
    let pair = |name, first, second| fact(name, 1, &[('A', first, one), ('B', second, one)]);
    let mut vectors = pair("12, removed and held", DOWN, STAYS).conflicts(1);
    vectors.extend(pair("12, added and removed", UP, DOWN).conflicts(1));
    let third = [('A', UP, one), ('B', STAYS, one), ('C', STAYS_OUT, one)];
    vectors.extend(fact("12, a third agrees with both", 1, &third).conflicts(1));
    // B disagrees with the second step of A, by move 2, and C with the first, by move 3.
    let two_moves: [(char, &[bool], &[u8]); 3] =
        [('A', &[false, true, true], &[3, 2]), ('B', DOWN, &[2]), ('C', DOWN, &[3])];
    vectors.extend(fact("12 of two moves", 3, &two_moves).conflicts(2));
    vectors
}

/// Two rolls. With the second, spot 2, which is no parameter of it, is clear no more.
fn vanishes_later() -> RecordDraft {
    RecordDraft {
        objects: vec![1, 2, 2, 2],
        states: vec![
            vec![AT_2, [2, 3, 0], [2, 4, 0]],
            vec![[1, 1, 3], [2, 2, 0], [2, 4, 0]],
            vec![[1, 1, 4], [2, 3, 0]],
        ],
        steps: vec![ROLL_2_3, ROLL_3_4],
    }
}

/// The one fact, and marks of objects, which are bound facts of no move.
fn marks(name: &'static str, records: impl Into<Vec<Lettered>>) -> Filed {
    let mut front = BookDraft { kinds: 1, ..one_fact(1, []) };
    front.relations.push([1, 1, 0, 0]);
    Filed { name, front, records: records.into() }
}

/// So many objects, with these marks before the step and after it.
fn marked(objects: usize, states: [&[Fact]; 2]) -> RecordDraft {
    RecordDraft {
        objects: vec![1; objects],
        states: states.map(<[Fact]>::to_vec).into(),
        steps: vec![[1, 0, 0, 0, 0]],
    }
}

/// Row 11, at the first such step of each sequence, and before row 12.
fn unbound_changes() -> Vec<Vector> {
    let (a, b) = (('A', filed()), ('B', unbound()));
    let mut vectors = hall("11 in one record", [a.clone(), b.clone()]).unbound(&[('B', 0)]);
    let twice = hall("11 in equal records", [a, b.clone(), b.clone()]);
    vectors.extend(twice.unbound(&[('B', 0)]));
    let later = hall("11 of a second step", [b, ('C', vanishes_later())]);
    vectors.extend(later.unbound(&[('B', 0), ('C', 1)]));
    let (a, b) = (('A', story(UP, &[1])), ('B', marked(1, [&[], &[[2, 1, 0]]])));
    let c = ('C', marked(2, [&[[2, 1, 0]], &[]]));
    let two = marks("11 in two records", [a.clone(), b.clone(), c]);
    vectors.extend(two.unbound(&[('B', 0), ('C', 0)]));
    let both = marks("11 before 12", [a, b, ('C', story(STAYS_OUT, &[1]))]);
    vectors.extend(both.unbound(&[('B', 0)]));
    vectors
}
