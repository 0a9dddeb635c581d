//! Books of one form with an order to check, and a lent end sheet.

use super::learning::good_book;
use super::mixed::BookStream;
use crate::answer::{Answer, Refusal};
use crate::calls::{Form, Job};
use crate::gen::aim::{Aim, Label};
use crate::gen::draft::twin::told;
use crate::gen::hall::inapplicable::{filed, Inapplicable};
use crate::gen::plan::crowded::{self, Ending};
use crate::gen::plan::order::{self, Plan};
use crate::gen::plan::several::{self, Starts};
use crate::gen::rng::Rng;
use crate::gen::{faults, BookDraft, JobCase};
use crate::limits::{END_SHEET_LENGTH, START_LIMIT};

pub struct CheckStream {
    books: BookStream,
    aims: Vec<Aim<Plan>>,
    seed: u64,
}

impl CheckStream {
    #[must_use]
    pub fn new(form: Form, seed: u64) -> Self {
        Self { books: BookStream::new(form, seed), aims: faults::orders::aims(), seed }
    }

    /// Every aimed fault of an order and every aimed plan, so that a tally can
    /// miss one.
    #[must_use]
    pub fn labels(&self) -> Vec<Label> {
        let aims = self.aims.iter().map(|aim| aim.label);
        aims.chain(Ending::ALL.map(Ending::label)).chain(Starts::ALL.map(Starts::label)).collect()
    }

    #[must_use]
    pub fn case(&self, index: usize) -> JobCase {
        let mut rng = Rng::of_case(self.seed ^ 0x5a5a, index);
        let (rng, form) = (&mut rng, self.books.form());
        let (round, turn) = (index / 20, index % 20);
        let mut case = match turn {
            // The order is for another book, which matters only if this one learns.
            0..=1 => {
                let damaged = self.books.of_row(2 * round + turn, rng);
                let order = order::draw(rng).order.bytes();
                case(damaged.label, damaged.aimed, damaged.book, order, end_length(90, rng))
            }
            2..=3 => {
                let (label, book) = good_book(form, rng);
                let order = order::draw(rng).order.bytes();
                case(label, None, book.bytes(), order, end_length(90, rng))
            }
            4..=12 => self.damaged_order(9 * round + turn - 4, rng),
            13 if round % 10 == 0 => {
                let plan = order::at_the_limits();
                let answer = Answer::success(plan.order.steps.len());
                let label = Label { part: "order", what: "at every limit but that of starts" };
                self.aimed_plan(label, plan, answer, rng)
            }
            14 => self.crowded_plan(Ending::ALL[round % Ending::ALL.len()], rng),
            15 => {
                let kind = Starts::ALL[round % Starts::ALL.len()];
                let (plan, answer) = several::case(kind, rng);
                self.aimed_plan(kind.label(), plan, answer, rng)
            }
            _ => {
                let plan = order::draw(rng);
                let label = Label { part: "order", what: "good" };
                let book = self.book(plan.book, Inapplicable::Any, rng);
                case(label, None, book, plan.order.bytes(), end_length(97, rng))
            }
        };
        case.form = told(form, rng);
        case
    }

    /// A plan's book, which is full and has no steps that did not go, with such and in the
    /// form of this stream.
    fn book(&self, book: BookDraft, which: Inapplicable, rng: &mut Rng) -> Vec<u8> {
        filed(book, which, rng).in_form(self.books.form()).bytes()
    }

    fn damaged_order(&self, index: usize, rng: &mut Rng) -> JobCase {
        let aim = &self.aims[index % self.aims.len()];
        let (plan, order, answer) = aim.hit(rng, order::draw);
        let output = end_length(95, rng);
        // Row 13 stands before the order's rows.
        let (label, aimed) = match output {
            END_SHEET_LENGTH => (aim.label, answer),
            _ => (Label { part: "order", what: "damaged, and 13 before" }, Refusal::Output.at(0)),
        };
        case(label, Some(aimed), self.book(plan.book, Inapplicable::Barred, rng), order, output)
    }

    /// A plan in whose execution over 256 facts hold. At times it has equal starts:
    /// they have the answer of the first, and no end sheet.
    fn crowded_plan(&self, ending: Ending, rng: &mut Rng) -> JobCase {
        let (mut plan, answer) = crowded::case(ending, rng);
        if rng.chance(40) {
            let start = plan.order.starts[0].clone();
            plan.order.starts.resize(rng.range(2, START_LIMIT), start);
        }
        self.aimed_plan(ending.label(), plan, answer, rng)
    }

    /// A plan that must get this answer, with an end sheet of the right length. Steps that
    /// did not go do not change it.
    fn aimed_plan(&self, label: Label, plan: Plan, answer: Answer, rng: &mut Rng) -> JobCase {
        let Plan { book, order } = plan;
        let book = self.book(book, Inapplicable::Barred, rng);
        case(label, Some(answer), book, order.bytes(), END_SHEET_LENGTH)
    }
}

fn case(
    label: Label,
    aimed: Option<Answer>,
    book: Vec<u8>,
    order: Vec<u8>,
    output: usize,
) -> JobCase {
    JobCase { job: Job::Check, label, aimed, book, form: 0, other: order, output }
}

/// The right length in `percent` of 100 cases, else another one.
fn end_length(percent: usize, rng: &mut Rng) -> usize {
    if rng.chance(percent) {
        return END_SHEET_LENGTH;
    }
    *rng.pick(&[0, 1, 511, 513, 1024]).expect("there are five")
}
