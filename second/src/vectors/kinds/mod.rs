//! Kinds under kinds: row 21, what suits what, and what is learned and planned with
//! kinds below others.

pub mod families;
pub mod parents;
pub mod wagon;
pub mod wagon_learning;
pub mod wagon_plans;
