//! The same book in its two forms.

use super::{BookDraft, Fact, RecordDraft};
use crate::calls::Form;
use crate::gen::rng::Rng;
use crate::limits::{BOOK_LIMIT, FACT_LIMIT, TURN_LIMIT};

impl BookDraft {
    /// This book in the given form.
    #[must_use]
    pub fn in_form(&self, form: Form) -> Self {
        if form == self.form {
            self.clone()
        } else {
            self.twin()
        }
    }

    /// This book in the other form.
    #[must_use]
    pub fn twin(&self) -> Self {
        let form = self.form.other();
        let records = self.records.iter().map(|record| record.rewritten(form)).collect();
        Self { form, records, ..self.clone() }
    }

    /// In the given form, without the last records if it would be too long.
    #[must_use]
    pub fn fitting(&self, form: Form) -> Self {
        let mut draft = self.in_form(form);
        while draft.length() > BOOK_LIMIT {
            draft.records.pop();
        }
        draft
    }

    /// The most facts that may be listed for a state of this number, from 0.
    #[must_use]
    pub fn list_limit(&self, state: usize) -> usize {
        match self.form {
            Form::Short if state > 0 => TURN_LIMIT,
            _ => FACT_LIMIT,
        }
    }
}

impl RecordDraft {
    /// The record, which is of the other form, in this one. Of two states what turned
    /// stands in one alone; of a state and what turned, what then holds.
    #[must_use]
    pub fn rewritten(&self, form: Form) -> Self {
        let mut states: Vec<Vec<Fact>> = self.states.iter().take(1).cloned().collect();
        for index in 1..self.states.len() {
            let before = match form {
                Form::Full => &states[index - 1],
                Form::Short => &self.states[index - 1],
            };
            states.push(unshared(before, &self.states[index]));
        }
        Self { states, ..self.clone() }
    }
}

/// The facts that stand in one of the lists alone.
fn unshared(one: &[Fact], two: &[Fact]) -> Vec<Fact> {
    let mut all = [one, two].concat();
    all.sort_unstable();
    all.chunk_by(|left, right| left == right)
        .filter(|equal| equal.len() == 1)
        .map(|equal| equal[0])
        .collect()
}

/// What a call is told of a book: any number but 0 of a short one.
pub fn told(form: Form, rng: &mut Rng) -> u32 {
    match form {
        Form::Full => 0,
        Form::Short if rng.chance(60) => 1,
        Form::Short => match rng.below(3) {
            0 => rng.range(2, 255) as u32,
            // No low byte, or no low half, may say that it is 0.
            1 => 1 << rng.below(32),
            _ => u32::MAX - rng.below(2) as u32,
        },
    }
}
