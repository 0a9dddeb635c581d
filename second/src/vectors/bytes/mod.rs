//! Wrong bytes of the small hall and of M2's order, one after another: offsets and
//! lengths, each byte, and each place to cut.

pub mod cuts;
pub mod each_byte;
pub mod offsets;
