//! The form of books and orders: rows 1 to 10, 21, 24, 27, 22 and 14 to 18. All that
//! reads a book is told whether it is a full or a short one.

mod again;
mod hall;
mod header;
mod kinds;
mod order;
mod record;
mod signature;
mod state;

pub use again::find_inapplicable;
pub use hall::Hall;
pub use header::Header;
pub use order::Order;
pub use record::{walk_records, Observer, Transition};
pub use signature::{Move, Relation, Signature};
pub use state::States;

use crate::answer::Answer;
use crate::calls::Form;

/// What of a good book does not need its records read again.
pub struct Front {
    pub header: Header,
    pub signature: Signature,
    /// The steps of all records together.
    pub steps: usize,
}

/// Looks a book over and shows its signature and then every transition to
/// `observer` on the way.
///
/// The observer sees transitions of records before a fault that a later row
/// or a later record may still bring, so it must act on nothing but its own
/// memory until this returns.
pub fn walk(book: &[u8], form: Form, observer: &mut impl Observer) -> Result<Front, Answer> {
    let header = Header::read(book)?;
    let signature = Signature::read(book, &header)?;
    observer.begin(&signature);
    let steps = walk_records(book, form, &signature, header.records_at, header.records, observer)?;
    Ok(Front { header, signature, steps })
}

/// Rows 1 to 10, 21, 24 and 27; success has the count of all steps as its place.
#[must_use]
pub fn look_over(book: &[u8], form: Form) -> Answer {
    walk(book, form, &mut ()).map_or_else(|refusal| refusal, |front| Answer::success(front.steps))
}

/// A two-byte number, high byte first.
pub(crate) fn two_bytes(bytes: &[u8], at: usize) -> usize {
    usize::from(u16::from_be_bytes([bytes[at], bytes[at + 1]]))
}
