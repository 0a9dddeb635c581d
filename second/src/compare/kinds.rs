//! Which kinds of case were met in a run, and how often each must be.

use std::fmt;

/// A kind of case. A case may be of several.
pub struct Kind<M> {
    pub(super) name: &'static str,
    /// It must be met at least once in so many cases.
    pub(super) one_in: usize,
    /// Tells whether a case is of this kind.
    pub(super) is_met: M,
}

/// How often each kind was met.
pub struct Kinds<M: 'static> {
    /// In the order of the report.
    kinds: Vec<(&'static Kind<M>, usize)>,
    /// Cases of no kind.
    others: usize,
    cases: usize,
}

impl<M> Kinds<M> {
    pub(super) fn of(kinds: &'static [Kind<M>]) -> Self {
        Self { kinds: kinds.iter().map(|kind| (kind, 0)).collect(), others: 0, cases: 0 }
    }

    /// A case, of the kinds of which `is_of` says so.
    pub(super) fn count(&mut self, is_of: impl Fn(&M) -> bool) {
        let mut is_other = true;
        for (kind, times) in &mut self.kinds {
            if is_of(&kind.is_met) {
                *times += 1;
                is_other = false;
            }
        }
        self.others += usize::from(is_other);
        self.cases += 1;
    }

    /// A case in which there was nothing to tell the kind of.
    pub(super) fn pass_over(&mut self) {
        self.cases += 1;
    }

    #[must_use]
    pub(super) fn is_empty(&self) -> bool {
        self.kinds.is_empty()
    }

    /// What was met too seldom, in words.
    #[must_use]
    pub fn missing(&self) -> Vec<String> {
        let seldom = |&(kind, times): &(&Kind<M>, usize)| {
            let least = self.cases / kind.one_in;
            (times < least)
                .then(|| format!("{}: {times} times, at least {least} wanted", kind.name))
        };
        self.kinds.iter().filter_map(seldom).collect()
    }
}

impl<M> fmt::Display for Kinds<M> {
    fn fmt(&self, f: &mut fmt::Formatter<'_>) -> fmt::Result {
        for (number, (kind, times)) in self.kinds.iter().enumerate() {
            write!(f, "{}{} {times}", if number > 0 { ", " } else { "" }, kind.name)?;
        }
        match self.others {
            0 => Ok(()),
            others => write!(f, ", others {others}"),
        }
    }
}
