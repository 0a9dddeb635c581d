//! Books with an order of good form: plans from one start and from several, plans in
//! whose execution over 256 facts hold, and halls that are small enough for the judge.

pub mod any;
pub mod crowded;
pub mod crowded_hall;
mod execution;
pub mod order;
pub mod several;
pub mod starts;
pub mod tiny;
