//! The stream of books to look over, of one form: good, aimed, extreme and random
//! ones.

use crate::answer::Answer;
use crate::calls::Form;
use crate::gen::aim::{Aim, Label};
use crate::gen::draft::twin::told;
use crate::gen::draft::{put_number, BookDraft};
use crate::gen::hall::{book, Dynamics};
use crate::gen::rng::Rng;
use crate::gen::{extreme, faults, BookCase};

pub struct BookStream {
    aims: Vec<Aim<BookDraft>>,
    form: Form,
    seed: u64,
}

/// The rows of a book's form, in the order of the table.
const FORM: [u32; 13] = [1, 2, 3, 21, 4, 5, 6, 24, 7, 8, 9, 10, 27];

/// Kinds of random damage, whose answer only an implementation can tell.
const RANDOM: [&str; 8] = [
    "two faults",
    "bytes changed",
    "truncated",
    "bytes put in",
    "bytes taken out",
    "parents left in",
    "parents left out",
    "random bytes",
];

impl BookStream {
    #[must_use]
    pub fn new(form: Form, seed: u64) -> Self {
        let mut aims = faults::front::aims();
        aims.extend(faults::records::aims(form));
        Self { aims, form, seed }
    }

    #[must_use]
    pub fn form(&self) -> Form {
        self.form
    }

    /// Every aimed or extreme label, so that a tally can miss one.
    #[must_use]
    pub fn labels(&self) -> Vec<Label> {
        self.aims.iter().map(|aim| aim.label).chain(extreme::labels(self.form)).collect()
    }

    /// The case of this index, the same for the same seed.
    #[must_use]
    pub fn case(&self, index: usize) -> BookCase {
        let mut rng = Rng::of_case(self.seed, index);
        // Of twenty in turn: two good, eleven aimed, three extreme, four random.
        let (round, turn) = (index / 20, index % 20);
        match turn {
            0..=1 => self.good(&mut rng),
            2..=12 => self.aimed(11 * round + turn - 2, &mut rng),
            13..=15 => {
                let index = (3 * round + turn - 13) % extreme::count(self.form);
                extreme::case(self.form, index, &mut rng)
            }
            _ => self.random(4 * round + turn - 16, &mut rng),
        }
    }

    fn aimed(&self, index: usize, rng: &mut Rng) -> BookCase {
        let aim = &self.aims[index % self.aims.len()];
        let (_, book, answer) = aim.hit(rng, |rng| book::to_damage_any(self.form, rng));
        BookCase { label: aim.label, book, form: told(self.form, rng), aimed: Some(answer) }
    }

    fn good(&self, rng: &mut Rng) -> BookCase {
        let dynamics = *rng
            .pick(&[Dynamics::Follows, Dynamics::Slips, Dynamics::Random])
            .expect("there are three");
        let (what, draft) = book::any_size(self.form, dynamics, rng);
        let (label, book) = (Label { part: "good", what }, draft.bytes());
        let aimed = Some(Answer::success(draft.steps()));
        BookCase { label, book, form: told(self.form, rng), aimed }
    }

    /// A book with a fault of a row of its form: of each in turn.
    #[must_use]
    pub fn of_row(&self, turn: usize, rng: &mut Rng) -> BookCase {
        let number = FORM[turn % FORM.len()];
        let fitting: Vec<usize> = (0..self.aims.len())
            .filter(|&index| self.aims[index].refusal as u32 == number)
            .collect();
        let index = *rng.pick(&fitting).expect("every row of a book's form has an aim");
        self.aimed(index, rng)
    }

    fn random(&self, index: usize, rng: &mut Rng) -> BookCase {
        let what = RANDOM[index % RANDOM.len()];
        let draft = book::to_damage_any(self.form, rng);
        let mut bytes = draft.bytes();
        match what {
            "two faults" => bytes = self.two_faults(rng),
            // The header says that there are none, or that there are.
            "parents left in" => set_offsets(&mut bytes, &draft, 16),
            "parents left out" => {
                bytes = BookDraft { parents: Vec::new(), ..draft.clone() }.bytes();
                set_offsets(&mut bytes, &draft, 16 + draft.kinds);
            }
            "bytes changed" => change_bytes(&mut bytes, rng),
            "truncated" => {
                bytes.truncate(rng.range(0, bytes.len()));
                renew_end(&mut bytes, rng);
            }
            "bytes put in" => {
                let at = rng.range(0, bytes.len());
                let more: Vec<u8> = (0..rng.range(1, 6)).map(|_| small_byte(rng)).collect();
                bytes.splice(at..at, more);
                renew_end(&mut bytes, rng);
            }
            "bytes taken out" => {
                let from = rng.below(bytes.len());
                let to = (from + rng.range(1, 6)).min(bytes.len());
                bytes.drain(from..to);
                renew_end(&mut bytes, rng);
            }
            _ => bytes = random_bytes(rng),
        }
        let label = Label { part: "random", what };
        BookCase { label, book: bytes, form: told(self.form, rng), aimed: None }
    }

    /// An aimed fault on a book that is already damaged elsewhere: which of the
    /// two is met shows the order of the rows.
    fn two_faults(&self, rng: &mut Rng) -> Vec<u8> {
        let mut aim = || &self.aims[rng.below(self.aims.len())];
        let (first, second) = (aim(), aim());
        let draft = book::to_damage_any(self.form, rng);
        let good = draft.bytes();
        // Both faults are put into one draft; where their lengths agree, the
        // bytes that the second changed are copied over the first.
        let tries = |aim: &Aim<BookDraft>, rng: &mut Rng| {
            (0..20).find_map(|_| aim.try_on(&draft, rng)).map(|hit| hit.bytes)
        };
        let Some(mut bytes) = tries(first, rng) else { return good };
        if let Some(other) = tries(second, rng) {
            for (at, (&new, &old)) in other.iter().zip(&good).enumerate() {
                if new != old && at < bytes.len() {
                    bytes[at] = new;
                }
            }
        }
        renew_end(&mut bytes, rng);
        bytes
    }
}

/// Offsets of sections that touch from where the relations are to begin.
fn set_offsets(bytes: &mut [u8], draft: &BookDraft, relations_at: usize) {
    let moves_at = relations_at + 4 * draft.relations.len();
    let records_at = moves_at + 6 * draft.moves.len();
    for (field, at) in (4..).zip([relations_at, moves_at, records_at]) {
        put_number(bytes, 2 * field, at);
    }
}

/// Half of the time a byte of the kind that the format is made of.
fn small_byte(rng: &mut Rng) -> u8 {
    if rng.chance(50) {
        rng.below(6) as u8
    } else {
        rng.byte()
    }
}

fn change_bytes(bytes: &mut [u8], rng: &mut Rng) {
    for _ in 0..rng.range(1, 3) {
        let at = rng.below(bytes.len());
        bytes[at] = match rng.below(4) {
            0 => bytes[at].wrapping_add(1),
            1 => bytes[at].wrapping_sub(1),
            2 => bytes[at] ^ (1 << rng.below(8)),
            _ => small_byte(rng),
        };
    }
}

/// Most of the time, so that rows behind the header are reached.
fn renew_end(bytes: &mut [u8], rng: &mut Rng) {
    if bytes.len() >= 16 && rng.chance(85) {
        let end = bytes.len();
        put_number(bytes, 14, end);
    }
}

/// Half of the time under a header that fits them.
fn random_bytes(rng: &mut Rng) -> Vec<u8> {
    let mut bytes: Vec<u8> = (0..rng.range(0, 200)).map(|_| small_byte(rng)).collect();
    if bytes.len() >= 16 && rng.chance(70) {
        let (kinds, relations, moves) = (rng.below(4), rng.below(3), rng.below(2));
        let counts = [kinds, relations, moves, rng.below(3)];
        let relations_at = 16 + if rng.chance(50) { kinds } else { 0 };
        let moves_at = relations_at + 4 * relations;
        let offsets = [relations_at, moves_at, moves_at + 6 * moves, bytes.len()];
        for (field, number) in counts.into_iter().chain(offsets).enumerate() {
            put_number(&mut bytes, 2 * field, number);
        }
    }
    bytes
}
