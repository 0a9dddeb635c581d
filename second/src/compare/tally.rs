//! How often each answer, each aimed fault and each outcome of a permuted book was met.

use std::collections::BTreeMap;
use std::fmt;

use super::permuted::Outcomes;
use super::report::Compared;
use crate::gen::Label;

pub struct Tally {
    numbers: BTreeMap<u32, usize>,
    labels: BTreeMap<Label, Met>,
    permuted: Outcomes,
    cases: usize,
}

#[derive(Default)]
struct Met {
    cases: usize,
    /// Cases whose answer was the one aimed at.
    hits: usize,
    aimed: bool,
}

impl Tally {
    /// `labels` are those that must be hit; others may turn up as well.
    #[must_use]
    pub(super) fn new(labels: impl IntoIterator<Item = Label>, permuted: Outcomes) -> Self {
        let aimed = |label| (label, Met { aimed: true, ..Met::default() });
        let labels = labels.into_iter().map(aimed).collect();
        Self { numbers: BTreeMap::new(), labels, permuted, cases: 0 }
    }

    /// A case on which both implementations agree.
    pub(super) fn count(&mut self, case: &Compared) {
        let answer = case.expected;
        self.cases += 1;
        *self.numbers.entry(answer.number).or_default() += 1;
        let met = self.labels.entry(case.label).or_default();
        met.cases += 1;
        met.hits += usize::from(case.aimed == Some(answer));
        match case.permuted {
            Some(permuted) => self.permuted.count(|is_met| is_met(answer, permuted)),
            None => self.permuted.pass_over(),
        }
    }

    /// How often this number was answered.
    #[must_use]
    pub fn times(&self, number: u32) -> usize {
        self.numbers.get(&number).copied().unwrap_or(0)
    }

    /// What was met less often than 50 times in 20,000 cases, and which outcomes of
    /// permuted books were met too seldom, in words.
    #[must_use]
    pub fn missing(&self, numbers: impl IntoIterator<Item = u32>) -> Vec<String> {
        let least = self.cases / 400;
        let seldom = |times: usize, what: String| {
            (times < least).then(|| format!("{what}: {times} times, at least {least} wanted"))
        };
        let by_number = numbers
            .into_iter()
            .filter_map(|number| seldom(self.times(number), format!("number {number}")));
        let by_label = self
            .labels
            .iter()
            .filter(|(_, met)| met.aimed)
            .filter_map(|(label, met)| seldom(met.hits, label.to_string()));
        by_number.chain(by_label).chain(self.permuted.missing()).collect()
    }
}

impl fmt::Display for Tally {
    fn fmt(&self, f: &mut fmt::Formatter<'_>) -> fmt::Result {
        writeln!(f, "answers by number:")?;
        for (number, times) in &self.numbers {
            writeln!(f, "{number:>6} {times:>7}")?;
        }
        writeln!(f, "by what was aimed at (cases, met as aimed):")?;
        for (label, met) in &self.labels {
            let hits = if met.hits > 0 { met.hits.to_string() } else { "-".into() };
            writeln!(f, "{:>7} {hits:>7}  {label}", met.cases)?;
        }
        if !self.permuted.is_empty() {
            writeln!(f, "no difference in another sequence of the records: {}", self.permuted)?;
        }
        Ok(())
    }
}
