//! The kinds' parents in a book's bytes: row 21, where it stands, and where the
//! relations begin. The book is the small hall, or one of these kinds alone.

use crate::answer::{Answer, Refusal};
use crate::calls::Job::{self, LookOver};
use crate::gen::{BookDraft, RecordDraft};
use crate::vectors::hall::{changed, small_hall, with_parents as hall};
use crate::vectors::Vector;

pub fn all() -> Vec<Vector> {
    let mut vectors = good();
    vectors.extend(not_smaller());
    vectors.extend(offsets());
    vectors.extend(header_differs());
    vectors.extend(sections_differ());
    vectors.extend(both());
    vectors
}

/// As many kinds as parents, and nothing else.
fn kinds_alone(parents: &[u8]) -> BookDraft {
    BookDraft { kinds: parents.len(), parents: parents.to_vec(), ..BookDraft::default() }
}

fn every(name: impl Into<String>, book: Vec<u8>, answer: Answer) -> Vector {
    Vector::new(name, &Job::OF_BOTH_FORMS, book, answer)
}

fn good() -> Vec<Vector> {
    let looked = |name: &str, book: BookDraft| {
        let name = format!("looked over: {name}");
        Vector::new(name, &[LookOver], book.bytes(), Answer::success(book.steps()))
    };
    vec![
        looked("8 parents of 0", kinds_alone(&[0; 8])),
        looked("parents one smaller", kinds_alone(&[0, 1, 2, 3, 4, 5, 6, 7])),
        looked("all below kind 1", kinds_alone(&[0, 1, 1, 1, 1, 1, 1, 1])),
        looked("kind 8 below kind 1 alone", kinds_alone(&[0, 0, 0, 0, 0, 0, 0, 1])),
        looked("one kind with its parent", kinds_alone(&[0])),
        looked("8 kinds without parents", BookDraft { kinds: 8, ..BookDraft::default() }),
        looked("small hall with parents of 0", hall(&[0, 0])),
        looked("small hall, a spot below a bank", hall(&[0, 1])),
    ]
}

/// Each of 8 kinds with a parent that is itself, the next one, or no kind.
fn not_smaller() -> Vec<Vector> {
    let mut vectors = Vec::new();
    for kind in 1..=8 {
        for parent in [kind, kind + 1, 128, 255] {
            let mut parents = [0; 8];
            parents[usize::from(kind) - 1] = parent;
            let place = 15 + usize::from(kind);
            let name = format!("21: the parent of kind {kind} is {parent}");
            vectors.push(every(name, kinds_alone(&parents).bytes(), Refusal::Parent.at(place)));
        }
    }
    let several = |name, parents: &[u8], place| {
        every(name, kinds_alone(parents).bytes(), Refusal::Parent.at(place))
    };
    vectors.push(several("21: the first of two", &[0, 1, 3, 0, 5], 18));
    vectors.push(several("21: the first of eight", &[8; 8], 16));
    vectors.push(several("21: one kind, its own parent", &[1], 16));
    vectors.push(every("21: in the small hall", hall(&[0, 2]).bytes(), Refusal::Parent.at(17)));
    vectors
}

/// As many bytes between header and relations as are neither none nor one for
/// each kind, all offsets telling of them: row 3.
fn offsets() -> Vec<Vector> {
    let refused = |kinds: usize, between: usize| {
        let book = BookDraft { kinds, parents: vec![0; between], ..small_hall() };
        let name = format!("3: {between} bytes for the parents of {kinds} kinds");
        every(name, book.bytes(), Refusal::HeaderOffsets.at(0))
    };
    let mut vectors: Vec<Vector> =
        [(0, 1), (0, 8), (1, 2), (2, 1), (2, 3), (2, 4), (2, 8), (3, 2), (8, 1), (8, 7), (8, 9)]
            .map(|(kinds, between)| refused(kinds, between))
            .into();
    let before: &[(usize, &[u8])] = &[(9, &[15]), (11, &[23]), (13, &[29])];
    let of_nothing = changed(small_hall().bytes(), before);
    vectors.push(every("3: relations at 15, the rest touching", of_nothing, {
        Refusal::HeaderOffsets.at(0)
    }));
    vectors
}

/// Where relations, moves and records of the small hall begin, in the header.
const WITHOUT: [(usize, &[u8]); 3] = [(9, &[16]), (11, &[24]), (13, &[30])];
const WITH: [(usize, &[u8]); 3] = [(9, &[18]), (11, &[26]), (13, &[32])];

/// The header tells of parents that are not there, or not of those that are.
fn header_differs() -> Vec<Vector> {
    let four = BookDraft { kinds: 4, parents: vec![0; 4], ..small_hall() };
    vec![
        // The relation at 16 is then of no places, with kinds that are not 0.
        every("4: two parents, relations at 16", changed(hall(&[0, 0]).bytes(), &WITHOUT), {
            Refusal::Relation.at(16)
        }),
        // Four bytes 0 are a relation of no places; the move's last byte is 3.
        every("5: four parents, relations at 16", changed(four.bytes(), &WITHOUT), {
            Refusal::Move.at(24)
        }),
        // The first relation's place count, 2, is then the parent of kind 1.
        every("21: no parents, relations at 18", changed(small_hall().bytes(), &WITH), {
            Refusal::Parent.at(16)
        }),
        like_parents(),
    ]
}

/// Two parents, and an offset or two as if there were none: row 3.
fn sections_differ() -> Vec<Vector> {
    let mixed = |name, changes: &[(usize, &[u8])]| {
        let book = changed(hall(&[0, 0]).bytes(), changes);
        every(name, book, Refusal::HeaderOffsets.at(0))
    };
    vec![
        mixed("3: relations at 18, moves and records as without parents", &WITHOUT[1..]),
        mixed("3: relations at 16, moves and records as with parents", &WITHOUT[..1]),
        mixed("3: relations and records as with parents, moves as without", &WITHOUT[1..2]),
        mixed("3: relations and moves as with parents, records as without", &WITHOUT[2..]),
        every("3: records past the end, by the parents", cut_in_moves(), {
            Refusal::HeaderOffsets.at(0)
        }),
    ]
}

/// Five kinds without parents. The first relation has no places, so that the
/// bytes at 16 would be good parents, and kind 5 lie below kind 1.
fn like_parents() -> Vector {
    let book = BookDraft {
        kinds: 5,
        relations: vec![[0; 4], [1, 1, 0, 0]],
        moves: vec![[0; 6]],
        records: vec![RecordDraft {
            objects: vec![5],
            states: vec![vec![[2, 1, 0]]; 2],
            steps: vec![[1, 0, 0, 0, 0]],
        }],
        ..BookDraft::default()
    };
    let answer = Refusal::State.at(book.layout().records[0].states[0] + 2);
    every("8: relations at 16 that look like parents", book.bytes(), answer)
}

/// Two kinds, the parents of both, a move, and the end one byte short of it.
fn cut_in_moves() -> Vec<u8> {
    let mut book = BookDraft { moves: vec![[0; 6]], ..kinds_alone(&[0, 0]) }.bytes();
    book.pop();
    let end = book.len() as u8;
    changed(book, &[(15, &[end])])
}

/// Two rows met in one book: 21 stands behind 3 and before 4.
fn both() -> Vec<Vector> {
    // The parent of kind 2 is 2.
    let wrong = |changes: &[(usize, &[u8])]| changed(hall(&[0, 2]).bytes(), changes);
    let offsets = Refusal::HeaderOffsets.at(0);
    let parent = Refusal::Parent.at(17);
    let mut long = wrong(&[]);
    long.resize(60_001, 0);
    let mut cut = wrong(&[(15, &[33])]);
    cut.truncate(33);
    vec![
        every("1 before 21: 60,001 bytes", long, Refusal::Length.at(0)),
        every("2 before 21: 9 kinds", kinds_alone(&[9; 9]).bytes(), Refusal::HeaderCounts.at(0)),
        every("2 before 21: 65 records", wrong(&[(7, &[65])]), Refusal::HeaderCounts.at(0)),
        every("3 before 21: end one more", wrong(&[(15, &[61])]), offsets),
        every("3 before 21: moves offset one more", wrong(&[(11, &[27])]), offsets),
        every("3 before 21: records offset one more", wrong(&[(13, &[33])]), offsets),
        every("3 before 21: three bytes for two kinds", hall(&[0, 2, 0]).bytes(), offsets),
        every("21 before 4", wrong(&[(18, &[3])]), parent),
        every("21 before 5", wrong(&[(26, &[5])]), parent),
        every("21 before 6: head cut", cut, parent),
        every("21 before 6: 17 objects", wrong(&[(32, &[17])]), parent),
        every("21 before 7", wrong(&[(36, &[0])]), parent),
        every("21 before 10", wrong(&[(50, &[2])]), parent),
        every("4 behind good parents", changed(hall(&[0, 0]).bytes(), &[(18, &[3])]), {
            Refusal::Relation.at(18)
        }),
        every("5 behind good parents", changed(hall(&[0, 0]).bytes(), &[(26, &[5])]), {
            Refusal::Move.at(26)
        }),
        every("6 behind good parents", changed(hall(&[0, 0]).bytes(), &[(32, &[17])]), {
            Refusal::Record.at(32)
        }),
    ]
}
