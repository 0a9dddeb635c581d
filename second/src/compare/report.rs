//! What a comparison found.

use std::fmt;

use super::Tally;
use crate::answer::Answer;
use crate::calls::unpacked;
use crate::gen::Label;

/// How many cases are run, from which seed.
#[derive(Clone, Copy)]
pub struct Run {
    pub seed: u64,
    pub count: usize,
}

/// One case on which the two implementations disagree, or on which this one
/// misses the answer that the generator aimed at.
pub struct Difference {
    pub run: Run,
    /// How many cases of the run differ; this is the one of fewest bytes.
    pub differing: usize,
    pub index: usize,
    pub label: Label,
    pub expected: Answer,
    pub packed: u64,
    /// What else differs, such as a lent byte.
    pub note: String,
    /// What the call was told of the book.
    pub form: u32,
    /// The inputs of the call, by name.
    pub inputs: Vec<(&'static str, Vec<u8>)>,
}

/// One case after both implementations have answered.
pub struct Compared {
    pub label: Label,
    pub aimed: Option<Answer>,
    pub expected: Answer,
    pub packed: u64,
    /// What differs beside the answers, such as a lent byte; else empty.
    pub note: String,
    pub form: u32,
    pub inputs: Vec<(&'static str, Vec<u8>)>,
    /// The answer to its book in another sequence, where both were asked.
    pub permuted: Option<Answer>,
}

/// Compares every case of a run; on differences, answers the shortest one.
pub fn compare_all(
    run: Run,
    mut tally: Tally,
    mut case: impl FnMut(usize) -> Compared,
) -> Result<Tally, Box<Difference>> {
    let mut shortest: Option<Box<Difference>> = None;
    let mut differing = 0;
    for index in 0..run.count {
        let compared = case(index);
        let missed = compared.aimed.is_some_and(|aimed| aimed != compared.expected);
        if compared.packed == compared.expected.packed() && compared.note.is_empty() && !missed {
            tally.count(&compared);
            continue;
        }
        differing += 1;
        let note = match compared.aimed {
            Some(aimed) if missed => format!("the generator aimed at {aimed}; {}", compared.note),
            _ => compared.note,
        };
        let Compared { label, expected, packed, form, inputs, .. } = compared;
        let found =
            Difference { run, differing, index, label, expected, packed, note, form, inputs };
        if shortest.as_ref().is_none_or(|shortest| found.length() < shortest.length()) {
            shortest = Some(Box::new(found));
        }
    }
    match shortest {
        None => Ok(tally),
        Some(mut shortest) => {
            shortest.differing = differing;
            Err(shortest)
        }
    }
}

impl Difference {
    fn length(&self) -> usize {
        self.inputs.iter().map(|(_, bytes)| bytes.len()).sum()
    }
}

impl fmt::Display for Difference {
    fn fmt(&self, f: &mut fmt::Formatter<'_>) -> fmt::Result {
        let Run { seed, count } = self.run;
        writeln!(f, "{} of {count} cases differ; the shortest one:", self.differing)?;
        writeln!(f, "seed {seed} case {} ({}), form {}", self.index, self.label, self.form)?;
        let expected = self.expected;
        writeln!(f, "this implementation: {expected} (packed {:#018x})", expected.packed())?;
        let other = unpacked(self.packed);
        writeln!(f, "the other one: {other} (packed {:#018x})", self.packed)?;
        if !self.note.is_empty() {
            writeln!(f, "{}", self.note)?;
        }
        for (name, bytes) in &self.inputs {
            write!(f, "{name} ({} bytes): ", bytes.len())?;
            for byte in bytes {
                write!(f, "{byte:02x}")?;
            }
            writeln!(f)?;
        }
        Ok(())
    }
}
