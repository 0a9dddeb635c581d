//! Which verdicts of the judge were met in a run, and how often each must be.

use super::judge::Absent;
use super::kinds::{Kind, Kinds};
use crate::judge::{self, Judgement, Verdict};

/// Whether a hall is of a kind of verdict.
pub(super) type IsMet = fn(&Decision<'_>) -> bool;

/// How often each kind of verdict was met.
pub type Verdicts = Kinds<IsMet>;

/// Of 8,000 halls 500 of each kind, 200 of those that need several starts or steps that did
/// not go.
pub(super) const TINY: [Kind<IsMet>; 11] = [
    Kind { name: "impossible", one_in: 16, is_met: |by| *by.verdict == Verdict::Impossible },
    Kind { name: "28", one_in: 40, is_met: |by| by.absent == Some(Absent::Possible) },
    Kind {
        name: "11 or 12 before 28",
        one_in: 40,
        is_met: |by| by.absent == Some(Absent::Impossible),
    },
    Kind { name: "as if absent", one_in: 16, is_met: |by| by.absent == Some(Absent::Same) },
    Kind { name: "19", one_in: 16, is_met: |by| by.stops() && !by.is_later() },
    Kind { name: "20", one_in: 16, is_met: |by| by.misses() && !by.is_later() },
    Kind { name: "19 from a later start", one_in: 40, is_met: |by| by.stops() && by.is_later() },
    Kind { name: "20 from a later start", one_in: 40, is_met: |by| by.misses() && by.is_later() },
    Kind { name: "passes without steps", one_in: 16, is_met: |by| by.steps() == Some(0) },
    Kind { name: "passes with steps", one_in: 16, is_met: |by| by.steps() > Some(0) },
    Kind { name: "passes from several starts", one_in: 40, is_met: |by| by.passes_several() },
];

/// Of 800 halls 100 of each kind, 40 of those that need several starts.
pub(super) const CROWDED: [Kind<IsMet>; 6] = [
    Kind { name: "as if absent", one_in: 8, is_met: |by| by.absent == Some(Absent::Same) },
    Kind { name: "19", one_in: 8, is_met: |by| by.stops() && !by.is_later() },
    Kind { name: "20", one_in: 8, is_met: |by| by.misses() && !by.is_later() },
    Kind { name: "19 or 20 from a later start", one_in: 20, is_met: |by| by.is_later() },
    Kind { name: "passes", one_in: 8, is_met: |by| by.steps().is_some() },
    Kind { name: "passes from several starts", one_in: 20, is_met: |by| by.passes_several() },
];

/// The verdict that decides a plan: that of the first start from which it does
/// not pass, else that of the first start.
pub struct Decision<'a> {
    verdict: &'a Verdict,
    /// Of its start, from 1.
    position: usize,
    /// How many starts the order has.
    starts: usize,
    /// If the book has steps that did not go.
    absent: Option<Absent>,
}

impl<'a> Decision<'a> {
    pub(super) fn of(judgements: &'a [Judgement], absent: Option<Absent>) -> Self {
        let (position, by) = judge::failing(judgements).unwrap_or((1, &judgements[0]));
        Self { verdict: &by.verdict, position, starts: judgements.len(), absent }
    }

    fn stops(&self) -> bool {
        matches!(self.verdict, Verdict::Stops { .. })
    }

    fn misses(&self) -> bool {
        matches!(self.verdict, Verdict::Misses { .. })
    }

    fn is_later(&self) -> bool {
        self.position > 1
    }

    /// Those of a plan that passes.
    fn steps(&self) -> Option<u32> {
        match self.verdict {
            Verdict::Passes { steps, .. } => Some(*steps),
            _ => None,
        }
    }

    fn passes_several(&self) -> bool {
        self.steps().is_some() && self.starts > 1
    }
}

impl Verdicts {
    /// A hall, which without a decision is of no kind.
    pub(super) fn count_hall(&mut self, decision: Option<&Decision>) {
        self.count(|is_met| decision.is_some_and(is_met));
    }
}

#[cfg(test)]
mod tests {
    use super::{Decision, IsMet, Kind, Verdict, Verdicts, CROWDED, TINY};

    /// What is missing after so many halls that pass without steps from two starts
    /// and so many of no kind.
    fn missing(kinds: &'static [Kind<IsMet>], passes: usize, others: usize) -> Vec<String> {
        let verdict = Verdict::Passes { steps: 0, end: Vec::new() };
        let decision = Decision { verdict: &verdict, position: 1, starts: 2, absent: None };
        let mut met = Verdicts::of(kinds);
        (0..passes).for_each(|_| met.count_hall(Some(&decision)));
        (0..others).for_each(|_| met.count_hall(None));
        met.missing()
    }

    #[test]
    fn each_kind_has_its_own_least_number() {
        let tiny = [
            "impossible: 0 times, at least 500 wanted",
            "28: 0 times, at least 200 wanted",
            "11 or 12 before 28: 0 times, at least 200 wanted",
            "as if absent: 0 times, at least 500 wanted",
            "19: 0 times, at least 500 wanted",
            "20: 0 times, at least 500 wanted",
            "19 from a later start: 0 times, at least 200 wanted",
            "20 from a later start: 0 times, at least 200 wanted",
            "passes without steps: 499 times, at least 500 wanted",
            "passes with steps: 0 times, at least 500 wanted",
        ];
        assert_eq!(missing(&TINY, 499, 7_501), tiny);
        assert_eq!(missing(&TINY, 500, 7_500), [&tiny[..8], &tiny[9..]].concat());
        let crowded = [
            "as if absent: 0 times, at least 100 wanted",
            "19: 0 times, at least 100 wanted",
            "20: 0 times, at least 100 wanted",
            "19 or 20 from a later start: 0 times, at least 40 wanted",
            "passes: 39 times, at least 100 wanted",
            "passes from several starts: 39 times, at least 40 wanted",
        ];
        assert_eq!(missing(&CROWDED, 39, 761), crowded);
        assert_eq!(missing(&CROWDED, 100, 700), crowded[..4]);
    }
}
