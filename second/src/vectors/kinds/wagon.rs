//! Kinds under kinds, by hand, on a hall with wagons: facts and steps that suit
//! and that do not.
//!
//! Kind 1 is a bank, 2 a spot, 3 a wagon, which is a bank, and 4 a tank wagon,
//! which is a wagon. Relation 1 "bank at spot", 2 "spot clear", 3 "wagon loaded",
//! 4 "bank coupled to wagon". Move 1 rolls a bank from spot to spot, move 2 loads
//! a wagon, move 3 couples a bank to a wagon.

use crate::answer::{Answer, Refusal};
use crate::calls::Job::{self, LookOver};
use crate::gen::{BookDraft, Fact, RecordDraft, Step};
use crate::vectors::hall::filed;
use crate::vectors::Vector;

pub fn all() -> Vec<Vector> {
    let mut vectors = facts();
    vectors.extend(steps());
    vectors
}

pub fn with(records: impl IntoIterator<Item = RecordDraft>) -> BookDraft {
    BookDraft {
        kinds: 4,
        parents: vec![0, 0, 1, 3],
        relations: vec![[2, 1, 2, 0], [1, 2, 0, 0], [1, 3, 0, 0], [2, 1, 3, 0]],
        moves: vec![[3, 1, 2, 2, 0, 0], [1, 3, 0, 0, 0, 0], [2, 1, 3, 0, 0, 0]],
        records: records.into_iter().collect(),
        ..BookDraft::default()
    }
}

/// The paper's record with an object of this kind for the bank, and facts that
/// hold before and after.
pub fn rolls(kind: u8, before: &[Fact], after: &[Fact]) -> RecordDraft {
    let mut record = filed();
    record.objects[0] = kind;
    record.states[0].extend(before);
    record.states[1].extend(after);
    record
}

/// A bank, a wagon, a tank wagon, a spot and another wagon.
const OBJECTS: [u8; 5] = [1, 3, 4, 2, 3];

/// One record with these facts throughout and these steps.
fn book(facts: &[Fact], steps: &[Step]) -> BookDraft {
    with([RecordDraft {
        objects: OBJECTS.to_vec(),
        states: vec![facts.to_vec(); steps.len() + 1],
        steps: steps.to_vec(),
    }])
}

const LOAD_2: Step = [2, 2, 0, 0, 0];

fn facts() -> Vec<Vector> {
    let suiting = [
        [1, 1, 4],
        [1, 2, 4],
        [1, 3, 4],
        [2, 4, 0],
        [3, 2, 0],
        [3, 3, 0],
        [4, 1, 2],
        [4, 1, 3],
        [4, 2, 2],
        [4, 2, 3],
        [4, 3, 2],
        [4, 3, 3],
    ];
    let wrong = |name: &str, fact| {
        let book = book(&[fact], &[LOAD_2]);
        let answer = Refusal::State.at(book.layout().records[0].states[0] + 2);
        Vector::new(format!("8: {name}"), &Job::OF_BOTH_FORMS, book.bytes(), answer)
    };
    vec![
        Vector::new(
            "wagons: every fact that suits",
            &[LookOver],
            book(&suiting, &[LOAD_2]).bytes(),
            Answer::success(1),
        ),
        wrong("a bank where a wagon is named", [3, 1, 0]),
        wrong("a bank where a wagon is named, second place", [4, 2, 1]),
        wrong("a bank in both places, a wagon named in the second", [4, 1, 1]),
        wrong("a spot where a wagon is named", [3, 4, 0]),
        wrong("a wagon where a spot is named", [2, 2, 0]),
        wrong("a tank wagon where a spot is named, second place", [1, 1, 3]),
        wrong("a spot where a bank is named", [1, 4, 4]),
    ]
}

fn steps() -> Vec<Vector> {
    let suiting = [
        LOAD_2,
        [2, 3, 0, 0, 0],
        [3, 1, 2, 0, 0],
        [3, 1, 3, 0, 0],
        [3, 2, 3, 0, 0],
        [3, 3, 2, 0, 0],
        [3, 2, 5, 0, 0],
    ];
    let wrong = |name: &str, step, refusal: Refusal| {
        let book = book(&[], &[LOAD_2, step]);
        let answer = refusal.at(book.layout().records[0].steps[1]);
        Vector::new(format!("{}: {name}", answer.number), &Job::OF_BOTH_FORMS, book.bytes(), answer)
    };
    let (step, twice) = (Refusal::Step, Refusal::ObjectTwice);
    vec![
        Vector::new(
            "wagons: every step that suits",
            &[LookOver],
            book(&[], &suiting).bytes(),
            Answer::success(suiting.len()),
        ),
        wrong("a bank for a wagon", [2, 1, 0, 0, 0], step),
        wrong("a bank for a wagon, second object", [3, 2, 1, 0, 0], step),
        wrong("a spot for a wagon", [2, 4, 0, 0, 0], step),
        wrong("a wagon for a spot", [1, 1, 4, 2, 0], step),
        wrong("one bank for a bank and a wagon", [3, 1, 1, 0, 0], step),
        wrong("one wagon for a bank and a wagon", [3, 2, 2, 0, 0], twice),
        wrong("one tank wagon for a bank and a wagon", [3, 3, 3, 0, 0], twice),
    ]
}
