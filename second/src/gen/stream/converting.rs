//! Books of one form to be written in the other, with an output for that.

use super::mixed::BookStream;
use crate::answer::{Answer, Refusal};
use crate::calls::{Form, Job};
use crate::gen::aim::Label;
use crate::gen::draft::BookDraft;
use crate::gen::extreme::fullbook;
use crate::gen::hall::{book, Dynamics};
use crate::gen::rng::Rng;
use crate::gen::{extreme, BookCase, JobCase};
use crate::limits::BOOK_LIMIT;

/// Its books are of the form that the call reads.
pub struct ConvertStream {
    books: BookStream,
    seed: u64,
}

const DAMAGED: &str = "book damaged";
const LIMIT: &str = "book at a limit, or beyond";

/// Lengths of an output for what passes 60,000 bytes.
const OVER: [usize; 5] = [0, 1_000, BOOK_LIMIT, BOOK_LIMIT + 1, 70_000];

impl ConvertStream {
    /// Books of good form.
    pub const OTHERS: [&str; 10] = [
        "follows its rules",
        "slips",
        "random states",
        "output one byte short",
        "output short",
        "no output",
        "60,000 bytes",
        "to 60,000 bytes",
        "to 60,001 bytes",
        "to over 60,000 bytes",
    ];

    #[must_use]
    pub fn new(form: Form, seed: u64) -> Self {
        Self { books: BookStream::new(form, seed), seed }
    }

    #[must_use]
    pub fn labels(&self) -> Vec<Label> {
        [DAMAGED].into_iter().chain(Self::OTHERS).map(label).collect()
    }

    /// Of sixteen in turn: four books damaged, two at a limit, ten others.
    #[must_use]
    pub fn case(&self, index: usize) -> JobCase {
        let mut rng = Rng::of_case(self.seed ^ 0x3c3c, index);
        let (round, turn) = (index / 16, index % 16);
        match turn {
            0..=3 => self.refused(DAMAGED, self.books.of_row(4 * round + turn, &mut rng), &mut rng),
            4..=5 => {
                let form = self.books.form();
                let index = (2 * round + turn - 4) % extreme::count(form);
                self.refused(LIMIT, extreme::case(form, index, &mut rng), &mut rng)
            }
            _ => self.case_of(Self::OTHERS[turn - 6], &mut rng),
        }
    }

    /// A book of good form, of this kind.
    #[must_use]
    pub fn case_of(&self, what: &'static str, rng: &mut Rng) -> JobCase {
        let draft = self.draft(what, rng);
        let length = draft.twin().length();
        let output = match what {
            "output one byte short" => length - 1,
            "output short" => rng.below(length),
            "no output" => 0,
            // 23 stands before 13, and is met by an output that is long enough as well.
            _ if length > BOOK_LIMIT => *rng.pick(&OVER).expect("there are some"),
            _ => length + *rng.pick(&[0, 0, 1, 100]).expect("there are four"),
        };
        let answer = match length {
            _ if length > BOOK_LIMIT => Refusal::ConvertedLength.at(0),
            _ if output < length => Refusal::Output.at(0),
            _ => Answer::success(length),
        };
        self.of(what, draft.bytes(), Some(answer), output)
    }

    /// A good draft of the form that is read.
    fn draft(&self, what: &str, rng: &mut Rng) -> BookDraft {
        let form = self.books.form();
        let to_length = |length: usize, rng: &mut Rng| {
            let draft = fullbook::draft_of_length(length, rng);
            BookDraft { form: form.other(), ..draft }.twin()
        };
        let dynamics = match what {
            "60,000 bytes" => {
                return BookDraft { form, ..fullbook::draft_of_length(BOOK_LIMIT, rng) };
            }
            "to 60,000 bytes" => return to_length(BOOK_LIMIT, rng),
            "to 60,001 bytes" => return to_length(BOOK_LIMIT + 1, rng),
            "to over 60,000 bytes" => return to_length(rng.range(BOOK_LIMIT + 1, 65_000), rng),
            "slips" => Dynamics::Slips,
            "random states" => Dynamics::Random,
            _ => Dynamics::Follows,
        };
        loop {
            let (_, draft) = book::any_size(form, dynamics, rng);
            // Where the output is to be short, that is what must be met.
            if !what.contains("output") || draft.twin().length() <= BOOK_LIMIT {
                return draft;
            }
        }
    }

    /// A book whose answer is not 0, or of which it is not known what it becomes.
    fn refused(&self, what: &'static str, case: BookCase, rng: &mut Rng) -> JobCase {
        let aimed = case.aimed.filter(|answer| answer.number != 0);
        let output = *rng.pick(&[0, 10, BOOK_LIMIT, BOOK_LIMIT + 9]).expect("there are four");
        self.of(what, case.book, aimed, output)
    }

    fn of(
        &self,
        what: &'static str,
        book: Vec<u8>,
        aimed: Option<Answer>,
        output: usize,
    ) -> JobCase {
        let job = match self.books.form() {
            Form::Full => Job::ToShort,
            Form::Short => Job::ToFull,
        };
        JobCase { job, label: label(what), aimed, book, form: 0, other: Vec::new(), output }
    }
}

const fn label(what: &'static str) -> Label {
    Label { part: "convert", what }
}
