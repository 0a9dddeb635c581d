//! Cases in the form of the vectors' file, worked out by hand: each was asked for
//! by mistakes that the other vectors did not find, in a checker that was written
//! from the documents alone. Places and lengths that a byte or two do not hold,
//! every position of a step, fact or entry, and the last of all that is counted.

use super::{parse, Vector};

pub fn all() -> Vec<Vector> {
    parse(include_str!("further.txt")).expect("the file is in its form")
}
