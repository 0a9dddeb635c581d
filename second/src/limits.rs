//! The numbers of the paper, each under one name.

pub const HEADER_LENGTH: usize = 16;
pub const BOOK_LIMIT: usize = 60_000;

pub const KIND_LIMIT: usize = 8;
pub const RELATION_LIMIT: usize = 16;
pub const MOVE_LIMIT: usize = 32;
pub const RECORD_LIMIT: usize = 64;

pub const OBJECT_LIMIT: usize = 16;
pub const STEP_LIMIT: usize = 64;
pub const FACT_LIMIT: usize = 256;
/// The facts that turn with one step of a short book.
pub const TURN_LIMIT: usize = 512;
pub const GOAL_LIMIT: usize = 64;
pub const START_LIMIT: usize = 16;

pub const PLACE_LIMIT: usize = 2;
pub const PARAMETER_LIMIT: usize = 4;

pub const RELATION_LENGTH: usize = 4;
pub const MOVE_LENGTH: usize = 6;
pub const HEAD_LENGTH: usize = 4;
pub const COUNT_LENGTH: usize = 2;
pub const FACT_LENGTH: usize = 3;
pub const STEP_LENGTH: usize = 5;
pub const GOAL_LENGTH: usize = 4;

/// Added to the move of a recorded step that did not go.
pub const INAPPLICABLE: u8 = 128;

/// One of the four sets that a rule sheet holds for a move.
pub const SET_LENGTH: usize = 32;
/// The four sets of one move.
pub const RULES_LENGTH: usize = 4 * SET_LENGTH;
pub const END_SHEET_LENGTH: usize = 512;
