//! A second implementation of the hall changeover product, written from its
//! paper alone: a yardstick to compare with and to time against.
//!
//! Data flows one way: bytes, header, signature, records, transitions, what is
//! observed of each action, the action model, the plan, the end sheet. A book may
//! be full or short; its transitions are the last that knows.

pub mod add;
pub mod answer;
pub mod calls;
mod change;
pub mod check;
pub mod compare;
pub mod convert;
pub mod definition;
pub mod form;
pub mod gen;
mod implementation;
pub mod judge;
pub mod learn;
pub mod limits;
pub mod listing;
pub mod mask;
mod plan;
pub mod vectors;

pub use answer::{Answer, Refusal};
pub use implementation::Second;
