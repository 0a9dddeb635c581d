//! Short twins of vectors with full books: "learning from either form gives the same
//! sheet, numbers apart from places, and verdicts"; and these books converted, both
//! ways, one for the same records.

use std::collections::BTreeSet;

use crate::answer::Answer;
use crate::calls::Form;
use crate::calls::Job::{self, Check, Learn, ToFull, ToShort};
use crate::gen::BookDraft;
use crate::vectors::Vector;

/// The bytes of a book and an order that are taken at most.
const FEW: usize = 400;

/// For vectors with full books.
pub fn of(vectors: &[Vector]) -> Vec<Vector> {
    let taken: Vec<&Vector> = vectors.iter().filter(|vector| is_taken(vector)).collect();
    let mut twins: Vec<Vector> = taken.iter().map(|vector| twin(vector)).collect();
    let mut records = BTreeSet::new();
    let mut is_new = |vector: &&Vector| {
        let draft = BookDraft::parse(&vector.book, Form::Full);
        records.insert(vector.book[draft.front_length()..].to_vec())
    };
    for vector in taken.into_iter().filter(|vector| is_new(vector)) {
        twins.extend(converted(&vector.name, &vector.book));
    }
    twins
}

/// Learning and checking, of a book that no row of its form refuses.
fn is_taken(vector: &Vector) -> bool {
    let reads = |job: &Job| matches!(job, Learn | Check);
    let good = matches!(vector.answer.number, 0 | 11..=20 | 22 | 28);
    good && vector.form == 0
        && vector.jobs.iter().all(reads)
        && vector.book.len() + vector.order.len() <= FEW
}

fn twin(vector: &Vector) -> Vector {
    let full = BookDraft::parse(&vector.book, Form::Full);
    let short = full.twin();
    let mut twin = vector.clone();
    twin.name = format!("short: {}", vector.name);
    twin.book = short.bytes();
    twin.form = Form::Short.number();
    // The places that are offsets in the book: the same step's.
    if vector.answer.is_at_step() {
        let steps = |draft: &BookDraft| -> Vec<usize> {
            draft.layout().records.into_iter().flat_map(|record| record.steps).collect()
        };
        let place = vector.answer.place as usize;
        let index = steps(&full).iter().position(|&step| step == place);
        let index = index.expect("the place is a step's");
        twin.answer.place = steps(&short)[index] as u32;
    }
    twin
}

fn converted(name: &str, full: &[u8]) -> [Vector; 2] {
    let short = BookDraft::parse(full, Form::Full).twin().bytes();
    [(ToShort, full, &short[..]), (ToFull, &short, full)].map(|(job, from, to)| {
        let answer = Answer::success(to.len());
        Vector::new(format!("{}: {name}", job.name()), &[job], from.to_vec(), answer)
            .output(to.len() + 3)
            .after(to.to_vec())
    })
}
