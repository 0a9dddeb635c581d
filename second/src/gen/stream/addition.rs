//! Books of one form with a record to add, of the same form, and an output for the
//! new book.

use super::mixed::BookStream;
use crate::answer::{Answer, Refusal};
use crate::calls::{Form, Job};
use crate::gen::aim::{Aim, Label};
use crate::gen::draft::twin::told;
use crate::gen::draft::{BookDraft, RecordDraft};
use crate::gen::extreme::{fullbook, turns};
use crate::gen::hall::inapplicable::{filed, Inapplicable};
use crate::gen::hall::{book, Dynamics, World};
use crate::gen::rng::Rng;
use crate::gen::{faults, JobCase};

pub struct AddStream {
    books: BookStream,
    record_aims: Vec<Aim<BookDraft>>,
    seed: u64,
    /// Whether there may be steps that did not go, in the old book or in the record.
    inapplicable: bool,
}

const DAMAGED_BOOK: &str = "old book damaged";
const DAMAGED_RECORD: &str = "record damaged";
/// Of a short book alone.
const TURNS: &str = "record at a limit of turns, or beyond";

impl AddStream {
    /// What only adding meets, and adding that succeeds.
    pub const OTHERS: [&str; 8] = [
        "record good",
        "record empty",
        "record with bytes behind it",
        "64 records before",
        "63 records before",
        "new length 60,000",
        "new length over 60,000",
        "output short",
    ];

    #[must_use]
    pub fn new(form: Form, seed: u64) -> Self {
        // Faults of the record count and of the book's end are not the record's.
        let mut record_aims = faults::records::aims(form);
        record_aims.retain(|aim| {
            !matches!(
                aim.label.what,
                "more announced than filed"
                    | "records offset is the end"
                    | "of a book, bytes put behind"
                    | "of a book, fewer announced"
                    | "of a record, the next one taken in"
                    | "a fact more after it, and the next record's head wrong"
            )
        });
        Self { books: BookStream::new(form, seed), record_aims, seed, inapplicable: true }
    }

    /// With good records all steps of which went.
    #[must_use]
    pub fn of_steps_that_went(form: Form, seed: u64) -> Self {
        Self { inapplicable: false, ..Self::new(form, seed) }
    }

    #[must_use]
    pub fn labels(&self) -> Vec<Label> {
        let label = |what| Label { part: "add", what };
        let turns = (self.books.form() == Form::Short).then_some(TURNS);
        let damaged = [DAMAGED_BOOK, DAMAGED_RECORD].into_iter().chain(turns);
        damaged.chain(Self::OTHERS).map(label).collect()
    }

    #[must_use]
    pub fn case(&self, index: usize) -> JobCase {
        let mut rng = Rng::of_case(self.seed, index);
        // Of fourteen in turn: four old books damaged, two records, eight others.
        let (round, turn) = (index / 14, index % 14);
        let what = match turn {
            0..=3 => DAMAGED_BOOK,
            4 if self.books.form() == Form::Short && round % 2 == 1 => TURNS,
            4..=5 => DAMAGED_RECORD,
            _ => Self::OTHERS[turn - 6],
        };
        self.case_of(what, round, turn, &mut rng)
    }

    /// A case of this kind; the two numbers say which fault a damaged one has.
    #[must_use]
    pub fn case_of(&self, what: &'static str, round: usize, turn: usize, rng: &mut Rng) -> JobCase {
        let (book, record, aimed) = self.inputs(what, round, turn, rng);
        let length = book.len() + record.len();
        let output = match what {
            "output short" => rng.below(length),
            // Row 13 comes last.
            _ if aimed.is_some_and(|answer| answer.number != 0) && rng.chance(20) => 0,
            _ => length + *rng.pick(&[0, 0, 1, 100]).expect("there are four"),
        };
        let (label, form) = (Label { part: "add", what }, told(self.books.form(), rng));
        JobCase { job: Job::Add, label, aimed, book, form, other: record, output }
    }

    /// The old book, the record's bytes and the answer to be met.
    fn inputs(
        &self,
        what: &str,
        round: usize,
        turn: usize,
        rng: &mut Rng,
    ) -> (Vec<u8>, Vec<u8>, Option<Answer>) {
        let (book, record, answer) = match what {
            DAMAGED_BOOK => {
                let case = self.books.of_row(4 * round + turn, rng);
                // The record would be refused as well, by 24.
                return (case.book, vec![0, 0, 0, 6, 0, 0], case.aimed);
            }
            DAMAGED_RECORD => self.damaged_record(2 * round + turn - 4, rng),
            TURNS => turns::addition(rng),
            "new length 60,000" | "new length over 60,000" => new_length(what, rng),
            _ => self.good(what, rng),
        };
        (book, record, Some(answer))
    }

    /// A good book, and a record that is good but for bytes behind it.
    fn good(&self, what: &str, rng: &mut Rng) -> (Vec<u8>, Vec<u8>, Answer) {
        let (mut world, record) = with_record(rng);
        if let "64 records before" | "63 records before" = what {
            let count = if what == "64 records before" { 64 } else { 63 };
            world.book.records.resize(count, first_step(&record));
        }
        world.book.records.push(record);
        let mut draft = world.book.in_form(self.books.form());
        if self.inapplicable && !what.ends_with("records before") {
            draft = filed(draft, Inapplicable::Any, rng);
        }
        let mut record = draft.records.pop().expect("the one to be added").bytes();
        let book = draft.bytes();
        let length = book.len() + record.len();
        let answer = match what {
            "record empty" => {
                record.clear();
                Refusal::Record.at(book.len())
            }
            "record with bytes behind it" => {
                record.resize(record.len() + rng.range(1, 8), rng.byte());
                Refusal::Record.at(length)
            }
            "64 records before" => Refusal::HeaderCounts.at(0),
            "output short" => Refusal::Output.at(0),
            _ => Answer::success(length),
        };
        (book, record, answer)
    }

    /// The faults of rows 6 to 10, 24 and 27 that a record added can have.
    #[must_use]
    pub fn record_aims(&self) -> &[Aim<BookDraft>] {
        &self.record_aims
    }

    /// The fault is put into a book of one record, which is then the one added.
    pub fn damaged_record(&self, index: usize, rng: &mut Rng) -> (Vec<u8>, Vec<u8>, Answer) {
        let aim = &self.record_aims[index % self.record_aims.len()];
        let draw = |rng: &mut Rng| {
            let mut draft = match self.inapplicable {
                true => book::to_damage_any(self.books.form(), rng),
                false => book::to_damage(self.books.form(), rng),
            };
            draft.records.truncate(1);
            draft
        };
        let (draft, bytes, answer) = aim.hit(rng, draw);
        let front = draft.front_length();
        let mut old = draft;
        // The good record, none or several times.
        let good = old.records.pop().into_iter();
        old.records.extend(good.flat_map(|record| vec![record; rng.below(3)]));
        let old = old.bytes();
        let moved = answer.place as usize - front + old.len();
        let answer = Answer { place: moved as u32, ..answer };
        (old, bytes[front..].to_vec(), answer)
    }
}

/// A good book with a record for it.
fn with_record(rng: &mut Rng) -> (World, RecordDraft) {
    loop {
        let shape = if rng.chance(90) { book::SMALL } else { book::MEDIUM };
        let world = book::of_shape(&shape, Dynamics::Follows, rng);
        let dynamics = if rng.chance(70) { Dynamics::Follows } else { Dynamics::Random };
        if let Some(record) = world.record(&shape, dynamics, rng) {
            return (world, record);
        }
    }
}

/// The record up to the state after its first step: short enough for 64 of them.
fn first_step(record: &RecordDraft) -> RecordDraft {
    RecordDraft {
        objects: record.objects.clone(),
        states: record.states[..2].to_vec(),
        steps: record.steps[..1].to_vec(),
    }
}

/// A record of one step, with which a book has 60,000 bytes or more.
fn new_length(what: &str, rng: &mut Rng) -> (Vec<u8>, Vec<u8>, Answer) {
    let record = RecordDraft {
        objects: vec![1; rng.range(0, 16)],
        states: vec![Vec::new(); 2],
        steps: vec![[1, 0, 0, 0, 0]],
    };
    let over = if what == "new length 60,000" { 0 } else { rng.range(1, 6) };
    let book = fullbook::of_length(60_000 - record.length() + over, rng);
    let answer = if over == 0 { Answer::success(60_000) } else { Refusal::Length.at(0) };
    (book, record.bytes(), answer)
}
