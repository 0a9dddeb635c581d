//! Learning and checking beside their definition by the paper's words, on halls of any
//! size and in both forms of a book. Nothing of this implementation is asked.

use super::kinds::{Kind, Kinds};
use super::lent::Lent;
use super::Run;
use crate::answer::Answer;
use crate::calls::{unpacked, Calls, Form, Job};
use crate::definition::{self, Defined};
use crate::gen::plan::any;
use crate::gen::plan::order::Plan;
use crate::gen::plan::tiny::most_atoms;
use crate::gen::Rng;
use crate::limits::{END_SHEET_LENGTH, RULES_LENGTH};

/// Whether a hall is of a kind of outcome.
pub type IsMet = fn(&Outcome<'_>) -> bool;

/// Of 24,000 halls 1,000 of each kind.
const KINDS: [Kind<IsMet>; 11] = [
    Kind { name: "11", one_in: 24, is_met: |by| by.checked.number == 11 },
    Kind { name: "12", one_in: 24, is_met: |by| by.checked.number == 12 },
    Kind { name: "28", one_in: 24, is_met: |by| by.checked.number == 28 },
    Kind { name: "19", one_in: 24, is_met: |by| by.checked.number == 19 },
    Kind { name: "20", one_in: 24, is_met: |by| by.checked.number == 20 },
    Kind { name: "19 or 20 from a later start", one_in: 24, is_met: |by| by.checked.position > 1 },
    Kind { name: "passes without steps", one_in: 24, is_met: |by| by.steps() == Some(0) },
    Kind { name: "passes with steps", one_in: 24, is_met: |by| by.steps() > Some(0) },
    Kind { name: "passes from several starts", one_in: 24, is_met: |by| by.passes_several() },
    Kind { name: "passes beyond the judge", one_in: 24, is_met: |by| by.passes_beyond() },
    Kind {
        name: "passes beside steps that did not go",
        one_in: 24,
        is_met: |by| by.passes_beside(),
    },
];

/// What a plan comes to.
pub struct Outcome<'a> {
    plan: &'a Plan,
    checked: Answer,
}

impl Outcome<'_> {
    /// Those of a plan that passes.
    fn steps(&self) -> Option<u32> {
        (self.checked.number == 0).then_some(self.checked.place)
    }

    fn passes_several(&self) -> bool {
        self.steps().is_some() && self.plan.order.starts.len() > 1
    }

    /// With steps, and with moves of more atoms than the judge can enumerate.
    fn passes_beyond(&self) -> bool {
        self.steps() > Some(0) && most_atoms(&self.plan.book) > 8
    }

    /// With steps, by a book with steps that did not go.
    fn passes_beside(&self) -> bool {
        self.steps() > Some(0) && self.plan.book.has_inapplicable()
    }
}

/// Compares `calls` with the definition, or tells the first hall on which they differ.
pub fn definition(run: Run, calls: &impl Calls) -> Result<Kinds<IsMet>, String> {
    let mut met = Kinds::of(&KINDS);
    for index in 0..run.count {
        let plan = any::draw(&mut Rng::of_case(run.seed, index));
        let [full, short] = Form::BOTH.map(|form| compare(calls, &plan, form, index as u8));
        let in_case = |note| format!("seed {} hall {index}: {note}", run.seed);
        let checked = short.and(full).map_err(in_case)?;
        met.count(|is_met| is_met(&Outcome { plan: &plan, checked }));
    }
    Ok(met)
}

/// The answer to the check, if both calls do as defined with the book in this form.
fn compare(calls: &impl Calls, plan: &Plan, form: Form, fill: u8) -> Result<Answer, String> {
    let (book, order) = (plan.book.in_form(form).bytes(), plan.order.bytes());
    let learned = definition::learn(&plan.book, form);
    let checked = definition::check(&plan.book, form, &plan.order);
    let sheet = RULES_LENGTH * plan.book.moves.len();
    for (job, defined, output) in
        [(Job::Learn, &learned, sheet), (Job::Check, &checked, END_SHEET_LENGTH)]
    {
        let mut lent = Lent::new(output, fill);
        let said = unpacked(job.run(calls, &book, form.number(), &order, lent.theirs()));
        let Defined { answer, written } = defined;
        if let Some(bytes) = written {
            lent.ours().copy_from_slice(bytes);
        }
        let note = lent.difference();
        if said != *answer || !note.is_empty() {
            let (job, form) = (job.name(), form.name());
            return Err(format!(
                "{job} says {said}, by definition {answer}; {note}\n\
                 {form} book {book:02x?}\norder {order:02x?}"
            ));
        }
    }
    Ok(checked.answer)
}
