//! A book beside the same book with its records in another sequence: an implementation
//! must answer both alike, and the second as this implementation does.

use super::agreed::Agreed;
use super::kinds::{Kind, Kinds};
use super::lent::Lent;
use crate::answer::Answer;
use crate::calls::{unpacked, Calls, Job};
use crate::gen::draft::sequence;
use crate::gen::{JobCase, Rng};
use crate::Second;

/// Tells a kind by the answers to a book and to the same in another sequence.
type IsMet = fn(Answer, Answer) -> bool;

/// How often a call came to what on books in another sequence.
pub type Outcomes = Kinds<IsMet>;

const ELSEWHERE: IsMet = |book, other| book.number == 11 && book.place != other.place;
const NEEDS_MET_ELSEWHERE: IsMet = |book, other| book.number == 28 && book.place != other.place;

/// Of 24,000 cases 1,500.
const LOOKED_OVER: [Kind<IsMet>; 1] =
    [Kind { name: "looked over", one_in: 16, is_met: |_, _| true }];

/// Of 48,000 cases 6,000 that learn, and 2,000 of each refusal; 600 by 28, which 11 and 12
/// come before.
const LEARNED: [Kind<IsMet>; 6] = [
    Kind { name: "learned", one_in: 8, is_met: |book, _| book.number == 0 },
    Kind { name: "11", one_in: 24, is_met: |book, _| book.number == 11 },
    Kind { name: "11 at another place", one_in: 24, is_met: ELSEWHERE },
    Kind { name: "12", one_in: 24, is_met: |book, _| book.number == 12 },
    Kind { name: "28", one_in: 80, is_met: |book, _| book.number == 28 },
    Kind { name: "28 at another place", one_in: 80, is_met: NEEDS_MET_ELSEWHERE },
];

/// Of 24,000 cases 1,000 of each verdict, 300 from a later start; 120 of each refusal,
/// since most orders come with a book that learns.
const CHECKED: [Kind<IsMet>; 9] = [
    Kind { name: "passes", one_in: 24, is_met: |book, _| book.number == 0 },
    Kind { name: "19", one_in: 24, is_met: |book, _| book.number == 19 },
    Kind { name: "20", one_in: 24, is_met: |book, _| book.number == 20 },
    Kind { name: "19 or 20 from a later start", one_in: 80, is_met: |book, _| book.position > 1 },
    Kind { name: "11", one_in: 200, is_met: |book, _| book.number == 11 },
    Kind { name: "11 at another place", one_in: 200, is_met: ELSEWHERE },
    Kind { name: "12", one_in: 200, is_met: |book, _| book.number == 12 },
    Kind { name: "28", one_in: 200, is_met: |book, _| book.number == 28 },
    Kind { name: "28 at another place", one_in: 200, is_met: NEEDS_MET_ELSEWHERE },
];

/// None yet, of the kinds that a call must meet.
pub fn outcomes(job: Job) -> Outcomes {
    Kinds::of(match job {
        Job::LookOver => &LOOKED_OVER,
        Job::Learn => &LEARNED,
        Job::Check => &CHECKED,
        _ => &[],
    })
}

/// A book in another sequence, and the answer to it.
pub struct Permuted {
    pub book: Vec<u8>,
    pub answer: Answer,
    /// What differs, in words; else empty.
    pub note: String,
}

/// Runs both implementations on the case with its book in another sequence. `None` if
/// there is no such sequence, or nothing is said of it: of a book that is refused by
/// its form, and of adding and converting.
pub fn compare(calls: &impl Calls, agreed: &Agreed<'_>, rng: &mut Rng) -> Option<Permuted> {
    let JobCase { job, book, form, other, output, .. } = agreed.case;
    let is_good = matches!(agreed.answer.number, 0 | 11..=20 | 22 | 28);
    if !is_good || !matches!(job, Job::LookOver | Job::Learn | Job::Check) {
        return None;
    }
    let book = sequence::permuted(book, rng)?;
    let mut lent = Lent::new(*output, agreed.fill);
    let answer = unpacked(job.run(&Second, &book, *form, other, lent.ours()));
    let said = unpacked(job.run(calls, &book, *form, other, lent.theirs()));
    let mut note = agreed.unlike("in another sequence", said, lent.theirs());
    if note.is_empty() && said != answer {
        note = format!("of the book in another sequence: {answer} here, {said} in the other one");
    }
    if note.is_empty() {
        note = lent.difference();
    }
    Some(Permuted { book, answer, note })
}

#[cfg(test)]
mod tests {
    use super::outcomes;
    use crate::answer::Refusal;
    use crate::calls::Job;

    #[test]
    fn each_outcome_has_its_own_least_number() {
        let [here, there] = [30, 40].map(|place| Refusal::UnboundChange.at(place));
        let mut met = outcomes(Job::Learn);
        (0..42_001).for_each(|_| met.pass_over());
        (0..4_000).for_each(|_| met.count(|is_met| is_met(here, here)));
        (0..1_999).for_each(|_| met.count(|is_met| is_met(here, there)));
        let missing = [
            "learned: 0 times, at least 6000 wanted",
            "11 at another place: 1999 times, at least 2000 wanted",
            "12: 0 times, at least 2000 wanted",
            "28: 0 times, at least 600 wanted",
            "28 at another place: 0 times, at least 600 wanted",
        ];
        assert_eq!(met.missing(), missing);
        let text =
            "learned 0, 11 5999, 11 at another place 1999, 12 0, 28 0, 28 at another place 0";
        assert_eq!(met.to_string(), text);
    }
}
