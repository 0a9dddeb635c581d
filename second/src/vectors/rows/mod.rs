//! The rows of the table: by hand one at a time and two at a time, with an output
//! lent, and by one fault in a drawn case.

pub mod aimed;
pub mod alone;
pub mod both;
pub mod both_orders;
pub mod lent;
