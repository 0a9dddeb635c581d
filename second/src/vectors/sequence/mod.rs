//! Books with their records in every sequence.

pub mod permuted;
pub mod plans;
