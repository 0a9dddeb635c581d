//! Faults that a row of the table names, each put into a good book or order, with
//! the answer that it must bring.

pub mod front;
mod head_and_tail;
mod no_steps;
pub mod orders;
mod parents;
pub mod records;
mod spoil;
pub mod starts;
mod states_differ;
