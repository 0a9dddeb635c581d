//! The root module of one checker, wrong or right.

pub mod add;
pub mod answer;
pub mod change;
pub mod check;
pub mod convert;
pub mod form;
pub mod implementation;
pub mod learn;
pub mod limits;
pub mod mask;
pub mod plan;

// Under the name that the implementation has for it.
pub use runner::calls;
