//! Cases at the limits: the largest numbers, and plans in whose state over 256 facts
//! hold.

pub mod largest;
pub mod many;
