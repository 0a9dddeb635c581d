//! Steps that did not go, by hand, in both forms of a book. `learning`: what is learned
//! beside them, and row 28. `form`: rows 8 to 10 and 27. `calls`: what each call makes of
//! them, and orders.

mod calls;
mod form;
mod learning;

use super::hall::{filed, AT_2};
use super::Vector;
use crate::calls::Form;
use crate::gen::{Fact, RecordDraft, Step};

/// The small hall's roll, which did not go.
const NOT_ROLLED: Step = [129, 1, 2, 3, 0];
const CLEAR_2: Fact = [2, 2, 0];
const CLEAR_3: Fact = [2, 3, 0];

/// The roll was tried where just these facts hold.
fn tried(state: &[Fact]) -> RecordDraft {
    RecordDraft { states: vec![state.to_vec(); 2], steps: vec![NOT_ROLLED], ..filed() }
}

/// Spot 3 is not clear, so one of the small hall's needs is unmet.
fn barred() -> RecordDraft {
    tried(&[AT_2])
}

/// In the state of the filed roll, so that all of its needs are met.
fn unbarred() -> RecordDraft {
    tried(&filed().states[0])
}

pub fn all() -> Vec<Vector> {
    let of_form = |form: Form| {
        let mut vectors = learning::all(form);
        vectors.extend(form::all(form));
        vectors.extend(calls::all(form));
        for vector in &mut vectors {
            vector.name.insert_str(0, &format!("not gone, {}: ", form.name()));
        }
        vectors
    };
    Form::BOTH.into_iter().flat_map(of_form).collect()
}
