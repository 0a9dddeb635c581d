//! Compares this implementation with another one, call by call, and another
//! one with the judge and with the definition.
//!
//! The other one is given by its calls, so that the same runs serve the built
//! library (the bin `compare`) and deliberately wrong ones (the tests).

mod agreed;
mod alone;
mod by;
mod capped;
mod definition;
mod job;
mod judge;
mod kinds;
mod lent;
mod permuted;
mod report;
mod tally;
mod twins;
mod verdicts;

pub use by::By;
pub use capped::Capped;
pub use definition::definition;
pub use job::job;
pub use judge::{judge, judge_crowded};
pub use kinds::Kinds;
pub use report::{Difference, Run};
pub use tally::Tally;
pub use verdicts::Verdicts;
