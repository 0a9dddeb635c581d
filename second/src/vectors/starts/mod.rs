//! Orders of several starts: their counts, their form, and plans from them.

pub mod counts;
pub mod form;
pub mod plans;
