//! Books of one form to learn from, with a lent sheet.

use super::mixed::BookStream;
use crate::calls::{Form, Job};
use crate::gen::aim::Label;
use crate::gen::draft::twin::told;
use crate::gen::draft::BookDraft;
use crate::gen::hall::{book, Dynamics};
use crate::gen::rng::Rng;
use crate::gen::JobCase;
use crate::limits::RULES_LENGTH;

pub struct LearnStream {
    books: BookStream,
    seed: u64,
}

impl LearnStream {
    #[must_use]
    pub fn new(form: Form, seed: u64) -> Self {
        Self { books: BookStream::new(form, seed), seed }
    }

    /// Of twenty in turn, four books are damaged.
    #[must_use]
    pub fn case(&self, index: usize) -> JobCase {
        let mut rng = Rng::of_case(!self.seed, index);
        let (round, turn) = (index / 20, index % 20);
        let (label, book, moves) = if turn < 4 {
            let case = self.books.of_row(4 * round + turn, &mut rng);
            // What would pass for the moves of a damaged book.
            let moves = case.book.get(5).copied().unwrap_or(0);
            (case.label, case.book, usize::from(moves % 33))
        } else {
            let (label, draft) = good_book(self.books.form(), &mut rng);
            (label, draft.bytes(), draft.moves.len())
        };
        let output = sheet_length(moves, &mut rng);
        let form = told(self.books.form(), &mut rng);
        JobCase { job: Job::Learn, label, aimed: None, book, form, other: Vec::new(), output }
    }
}

/// A book of good form, which may be impossible.
pub(super) fn good_book(form: Form, rng: &mut Rng) -> (Label, BookDraft) {
    let (what, dynamics) = match rng.below(100) {
        0..=49 => ("follows its rules", Dynamics::Follows),
        50..=89 => ("slips", Dynamics::Slips),
        _ => ("random states", Dynamics::Random),
    };
    let (_, draft) = book::any_size(form, dynamics, rng);
    (Label { part: "book", what }, draft)
}

/// The right length most of the time, else one near it.
fn sheet_length(moves: usize, rng: &mut Rng) -> usize {
    let right = RULES_LENGTH * moves;
    match rng.below(100) {
        0..=4 => right + 1,
        5..=6 => right.saturating_sub(1),
        7 => right + RULES_LENGTH,
        8 => 0,
        9 => rng.below(5000),
        _ => right,
    }
}
