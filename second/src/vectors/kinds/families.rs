//! Kinds under kinds, by hand: the small hall with parents, kinds under one
//! parent, and a chain of all kinds that there are.

use crate::answer::{Answer, Refusal};
use crate::calls::Job;
use crate::gen::{BookDraft, Fact, OrderDraft, RecordDraft, Step};
use crate::vectors::hall::{end_sheet, m2, sheet, with_parents as hall};
use crate::vectors::paper::{check, learn, m1_sheet, unmet};
use crate::vectors::Vector;

pub fn all() -> Vec<Vector> {
    let mut vectors = small_halls();
    vectors.extend(siblings());
    vectors.extend((1..=8).map(chain));
    vectors.extend(plans());
    vectors
}

/// The small hall's bytes with parents.
fn small_halls() -> Vec<Vector> {
    // "Bank at spot" then has a spot in its first place too.
    let spots: [&[usize]; 4] = [&[1, 24], &[2, 5, 6, 9, 10, 20], &[2, 20], &[1, 24]];
    vec![
        learn("learned: parents of 0", &hall(&[0, 0]), m1_sheet()),
        learn("learned: a spot below a bank", &hall(&[0, 1]), sheet(&[spots])),
    ]
}

/// Kinds 2 and 3 lie below kind 1. Relation 1 is over two of kind 1, relation 2
/// over one of kind 2; the move takes one of kind 2 and one of kind 3.
fn siblings() -> Vec<Vector> {
    let book = |facts: &[Fact], step: Step| BookDraft {
        kinds: 3,
        parents: vec![0, 1, 1],
        relations: vec![[2, 1, 1, 0], [1, 2, 0, 0]],
        moves: vec![[2, 2, 3, 0, 0, 0]],
        records: vec![RecordDraft {
            objects: vec![2, 3, 2, 3],
            states: vec![facts.to_vec(); 2],
            steps: vec![step],
        }],
        ..BookDraft::default()
    };
    let step = [1, 1, 2, 0, 0];
    let wrong = |name, facts: &[Fact], step, refusal| {
        let book = book(facts, step);
        let layout = &book.layout().records[0];
        let place = if facts.is_empty() { layout.steps[0] } else { layout.states[0] + 2 };
        Vector::new(name, &Job::OF_BOTH_FORMS, book.bytes(), Refusal::at(refusal, place))
    };
    vec![
        // Of relation 2 parameter 1 alone makes a bound fact, which never held.
        learn("learned: both places above the parameters", &book(&[[1, 1, 2], [1, 3, 4]], step), {
            sheet(&[[&[1], &[0, 4, 5, 16], &[], &[]]])
        }),
        wrong("8: a kind below the same parent", &[[2, 2, 0]], step, Refusal::State),
        wrong("9: a kind below the same parent", &[], [1, 1, 3, 0, 0], Refusal::Step),
        wrong("9: kinds below the same parent, turned", &[], [1, 2, 1, 0, 0], Refusal::Step),
    ]
}

/// Each kind is the parent of the next. Relation k is over kind k, and move 1
/// takes an object of this kind, which loses the fact of relation 1. Its kind
/// suits those up to itself; the object is of kind 8 and has all facts.
fn chain(kind: u8) -> Vector {
    let all: Vec<Fact> = (1..=8).map(|relation| [relation, 1, 0]).collect();
    let book = BookDraft {
        kinds: 8,
        parents: (0..8).collect(),
        relations: (1..=8).map(|kind| [1, kind, 0, 0]).collect(),
        moves: vec![[1, kind, 0, 0, 0, 0]],
        records: vec![RecordDraft {
            objects: vec![8],
            states: vec![all.clone(), all[1..].to_vec()],
            steps: vec![[1, 1, 0, 0, 0]],
        }],
        ..BookDraft::default()
    };
    let bound: Vec<usize> = (0..usize::from(kind)).map(|relation| 16 * relation).collect();
    learn(format!("learned: a chain of 8 kinds, a parameter of kind {kind}"), &book, {
        sheet(&[[&bound, &[], &[], &[0]]])
    })
}

/// M2 with the small hall's parents. With a spot below a bank "spot at spot" is a
/// right fact, and the roll needs it not to hold.
fn plans() -> Vec<Vector> {
    let hall = |parents: &[u8]| hall(parents).bytes();
    let end = end_sheet(&[[1, 1, 4], [2, 2, 0], [2, 3, 0]]);
    let spot_at_spot =
        OrderDraft { starts: vec![vec![[1, 1, 2], [1, 3, 3], [2, 3, 0], [2, 4, 0]]], ..m2() };
    let m2 = || m2().bytes();
    vec![
        check("M2 with parents of 0", hall(&[0, 0]), m2(), Answer::success(2)).after(end.clone()),
        check("M2 with a spot below a bank", hall(&[0, 1]), m2(), Answer::success(2)).after(end),
        check("19: a spot at a spot, below a bank", hall(&[0, 1]), spot_at_spot.bytes(), {
            unmet(1)
        }),
        check("16: a spot at a spot, with parents of 0", hall(&[0, 0]), spot_at_spot.bytes(), {
            Refusal::Start.at(22 + 3)
        }),
        chain_plan(),
    ]
}

/// A move takes the fact of an object of kind 1 away, and then of an object of
/// each kind of a chain.
fn chain_plan() -> Vector {
    let taken = |object: u8| [1, object, 0, 0, 0];
    let book = BookDraft {
        kinds: 8,
        parents: (0..8).collect(),
        relations: vec![[1, 1, 0, 0]],
        moves: vec![[1, 1, 0, 0, 0, 0]],
        records: vec![RecordDraft {
            objects: vec![1],
            states: vec![vec![[1, 1, 0]], vec![]],
            steps: vec![taken(1)],
        }],
        ..BookDraft::default()
    };
    let order = OrderDraft {
        objects: (1..=8).collect(),
        starts: vec![(1..=8).map(|object| [1, object, 0]).collect()],
        goal: (1..=8).map(|object| (0, [1, object, 0])).collect(),
        steps: (1..=8).map(taken).collect(),
    };
    let name = "passes: each of a chain of 8 kinds";
    check(name, book.bytes(), order.bytes(), Answer::success(8)).after(end_sheet(&[]))
}
