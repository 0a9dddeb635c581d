//! Records without steps: row 24.

pub mod books;
pub mod calls;
