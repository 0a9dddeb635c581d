//! Short books, and books converted.

pub mod adding;
pub mod carried;
pub mod converted_lengths;
pub mod converting;
pub mod hall;
pub mod states;
pub mod twins;
