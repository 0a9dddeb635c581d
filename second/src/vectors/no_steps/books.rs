//! Row 24: a record without steps, in books of both forms. It is met at the record's
//! head behind all of its 6, and before what stands behind the head.
//!
//! The books are the small hall's with a few bytes changed; up to its list after the
//! step, at 50, a short one has the same bytes as a full one. What only adding,
//! learning, checking and converting meet is in `calls`.

use crate::answer::{Answer, Refusal};
use crate::calls::Form;
use crate::gen::{BookDraft, RecordDraft};
use crate::limits::BOOK_LIMIT;
use crate::vectors::hall::{
    changed, filed, small_hall, still, unrecorded, with, without_steps, AFTER, HEAD, MOVE, OBJECTS,
    RELATIONS, STATE, STEP,
};
use crate::vectors::short::converted_lengths::of_length;
use crate::vectors::{added, jobs, Vector};

/// At the one record of the small hall.
pub const MET: Answer = Refusal::NoSteps.at(HEAD);

pub fn all() -> Vec<Vector> {
    let of_form = |form: Form| {
        let mut cases = alone();
        cases.extend(behind_the_head(form));
        cases.extend(heads());
        cases.extend(fronts(form));
        cases.extend(among_others(form));
        cases.extend(far(form));
        cases.into_iter().map(move |(name, book, answer)| {
            let name = format!("no steps, {}: {name}", form.name());
            Vector::new(name, &jobs(form), book, answer).form(form.number())
        })
    };
    Form::BOTH.into_iter().flat_map(of_form).collect()
}

type Case = (String, Vec<u8>, Answer);

fn case(name: &str, book: Vec<u8>, answer: Answer) -> Case {
    (name.into(), book, answer)
}

/// The small hall of this form without steps by its step count, which is all that is
/// changed but for these bytes.
fn counted(form: Form, changes: &[(usize, &[u8])]) -> Vec<u8> {
    changed(changed(small_hall().in_form(form).bytes(), &[(HEAD + 1, &[0])]), changes)
}

/// The bytes behind the first sections of the small hall, as its one record.
fn of_bytes(record: &[u8]) -> Vec<u8> {
    added(&unrecorded().bytes(), record, 1)
}

/// Without steps, objects and facts: 6 bytes.
pub fn bare() -> RecordDraft {
    RecordDraft { states: vec![Vec::new()], ..RecordDraft::default() }
}

/// Records of no fault but this one, or with nothing that could be another.
fn alone() -> Vec<Case> {
    let objects = RecordDraft { objects: vec![2; 16], ..bare() };
    [
        ("a hall and its state", without_steps().bytes()),
        ("objects and no fact", objects.bytes()),
        ("no objects and no fact", bare().bytes()),
        ("the head alone", vec![0, 0, 0, 4]),
    ]
    .map(|(name, record)| case(name, of_bytes(&record), MET))
    .into()
}

/// 24 before rows 7 to 10 and both tails.
fn behind_the_head(form: Form) -> Vec<Case> {
    let counted = |changes: &[(usize, &[u8])]| counted(form, changes);
    // A byte behind the record, or in it, or one of each.
    let left = [without_steps().bytes(), vec![0]].concat();
    let both = [&left[..], &[0]].concat();
    let length = left.len() as u8;
    vec![
        case("its step and both states left in", counted(&[]), MET),
        case("before 7: kind 0", counted(&[(OBJECTS, &[0])]), MET),
        case("before 7: no such kind", counted(&[(OBJECTS + 2, &[3])]), MET),
        case("before 7: an object cut", of_bytes(&[3, 0, 0, 4]), MET),
        case("before 7: the last object cut", of_bytes(&[2, 0, 0, 5, 1]), MET),
        case("before 8: no state", of_bytes(&[1, 0, 0, 5, 1]), MET),
        case("before 8: half a count", of_bytes(&[1, 0, 0, 6, 1, 0]), MET),
        case("before 8: count 257", counted(&[(STATE, &[1, 1])]), MET),
        case("before 8: a wrong fact", counted(&[(STATE + 2, &[3])]), MET),
        case("before 8: a fact cut", of_bytes(&[0, 0, 0, 7, 0, 1, 2]), MET),
        case("before 9", counted(&[(STEP, &[2])]), MET),
        case("before 10", counted(&[(STEP + 3, &[2])]), MET),
        case("before 8 of the last state", counted(&[(AFTER, &[2, 1])]), MET),
        case(
            "before 6 of the record's tail",
            changed(of_bytes(&left), &[(HEAD + 3, &[length])]),
            MET,
        ),
        case("before 6 of the book's tail", of_bytes(&left), MET),
        case("before 6 of both tails", changed(of_bytes(&both), &[(HEAD + 3, &[length])]), MET),
    ]
}

/// 6 of the head before 24: each of its conditions.
fn heads() -> Vec<Case> {
    let head = Refusal::Record.at(HEAD);
    let length = without_steps().length() as u8;
    let wrong = |at: usize, new: &[u8]| of_bytes(&changed(without_steps().bytes(), &[(at, new)]));
    vec![
        case("behind 6: a head of one byte", of_bytes(&[0]), head),
        case("behind 6: a head of two bytes", of_bytes(&[0, 0]), head),
        case("behind 6: a head of three bytes", of_bytes(&[0, 0, 0]), head),
        case("behind 6: 17 objects", wrong(0, &[17]), head),
        case("behind 6: 255 objects", wrong(0, &[255]), head),
        case("behind 6: length 0", wrong(2, &[0, 0]), head),
        case("behind 6: length 3", wrong(2, &[0, 3]), head),
        case("behind 6: length one past the end", wrong(3, &[length + 1]), head),
        case("behind 6: length 65,535", wrong(2, &[255, 255]), head),
        case("behind 6: the head alone, length 3", of_bytes(&[0, 0, 0, 3]), head),
        case("behind 6: the head alone, length 5", of_bytes(&[0, 0, 0, 5]), head),
        case("behind 6: the head alone, 17 objects", of_bytes(&[17, 0, 0, 4]), head),
    ]
}

/// The rows of the first sections before 24.
fn fronts(form: Form) -> Vec<Case> {
    let counted = |changes: &[(usize, &[u8])]| counted(form, changes);
    let parents = BookDraft { parents: vec![0, 2], ..with([without_steps()]) };
    vec![
        case("behind 1", last(form, BOOK_LIMIT - 5), Refusal::Length.at(0)),
        case("behind 2", counted(&[(1, &[9])]), Refusal::HeaderCounts.at(0)),
        case("behind 3", counted(&[(9, &[17])]), Refusal::HeaderOffsets.at(0)),
        case("behind 21", parents.bytes(), Refusal::Parent.at(17)),
        case("behind 4", counted(&[(RELATIONS, &[3])]), Refusal::Relation.at(RELATIONS)),
        case("behind 5", counted(&[(MOVE, &[5])]), Refusal::Move.at(MOVE)),
    ]
}

/// Records are walked in file order, each to its end.
fn among_others(form: Form) -> Vec<Case> {
    let good = || with([filed()]).in_form(form).records.swap_remove(0);
    let of = |records: &[RecordDraft]| {
        let draft = BookDraft { form, ..with(records.to_vec()) };
        let offsets: Vec<usize> = draft.layout().records.iter().map(|record| record.at).collect();
        (draft.bytes(), offsets)
    };
    let (none, two) = (without_steps(), of(&[good(), without_steps()]));
    let after = |at: usize, new: &[u8], answer: Answer, name: &str| {
        case(name, changed(two.0.clone(), &[(at, new)]), answer)
    };
    let named = |name: &str, records: &[RecordDraft], index: usize| {
        let (book, offsets) = of(records);
        case(name, book, Refusal::NoSteps.at(offsets[index]))
    };
    let mut next = of(&[none.clone(), good()]);
    next.0[HEAD + without_steps().length()] = 17;
    // The first record's length takes in the second one, which is then its tail.
    let taken_in = (two.0.len() - HEAD) as u8;
    vec![
        named("the second of two records", &[good(), none.clone()], 1),
        named("the first of two records", &[none.clone(), good()], 0),
        named("both of two records", &[none.clone(), none.clone()], 0),
        named("the second of three records", &[good(), none.clone(), good()], 1),
        named("the last of 64 records", &[vec![still(); 63], vec![none]].concat(), 63),
        after(HEAD, &[17], Refusal::Record.at(HEAD), "behind a record that is 6"),
        after(OBJECTS, &[0], Refusal::Object.at(OBJECTS), "behind a record that is 7"),
        after(STATE, &[1, 1], Refusal::State.at(STATE), "behind a record that is 8"),
        after(STEP, &[2], Refusal::Step.at(STEP), "behind a record that is 9"),
        after(STEP + 3, &[2], Refusal::ObjectTwice.at(STEP), "behind a record that is 10"),
        after(AFTER + 2, &[9], Refusal::State.at(AFTER + 2), "behind a last state that is 8"),
        after(HEAD + 3, &[taken_in], Refusal::Record.at(HEAD), "in a record's tail"),
        after(7, &[1], Refusal::Record.at(two.1[1]), "in the book's tail"),
        case("before a record that is 6", next.0, MET),
    ]
}

/// Places that one byte, or two with a sign, do not hold.
fn far(form: Form) -> Vec<Case> {
    [300, 40_000, BOOK_LIMIT - 6]
        .map(|length| {
            case(&format!("at {length}"), last(form, length), Refusal::NoSteps.at(length))
        })
        .into()
}

/// A book of this length, and behind it a record of no steps, objects and facts.
fn last(form: Form, length: usize) -> Vec<u8> {
    let old = of_length(form, length);
    added(&old.bytes(), &bare().bytes(), old.records.len() + 1)
}
