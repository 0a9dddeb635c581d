//! Lists of facts, filed in a record or as the start of an order: rows 8 and 16.
//! What they make of a record's states, in either form of a book.

use super::{two_bytes, Hall};
use crate::answer::{Answer, Refusal};
use crate::calls::Form;
use crate::limits::{COUNT_LENGTH, FACT_LENGTH, FACT_LIMIT};
use crate::mask::{fact_number, FactSet};

/// Reads the list at `cursor`: a count up to `limit`, then as many facts. What
/// reaches past `bytes` is cut. Answers the bytes of the facts, or `refusal` at
/// the count or fact that is at fault.
#[inline]
pub fn read_facts<'a>(
    bytes: &'a [u8],
    hall: &Hall,
    limit: usize,
    cursor: &mut usize,
    refusal: Refusal,
) -> Result<&'a [u8], Answer> {
    let count_at = *cursor;
    let rest = &bytes[count_at..];
    if rest.len() < COUNT_LENGTH {
        return Err(refusal.at(count_at));
    }
    let count = two_bytes(rest, 0);
    if count > limit {
        return Err(refusal.at(count_at));
    }
    let facts = &rest[COUNT_LENGTH..];
    let whole = count.min(facts.len() / FACT_LENGTH);
    let facts = &facts[..FACT_LENGTH * whole];
    let good = hall.good_facts(facts);
    // Fewer are good than announced: the next one is wrong or cut.
    if good < count {
        return Err(refusal.at(count_at + COUNT_LENGTH + FACT_LENGTH * good));
    }
    *cursor += COUNT_LENGTH + facts.len();
    Ok(facts)
}

/// The states before and after a step, as the form of the book gives them.
#[derive(Clone, Copy)]
pub enum States<'a> {
    /// Of a full book: the facts of both.
    Listed { before: &'a [u8], after: &'a [u8] },
    /// Of a short book: the facts that turned, and what then holds.
    Turned { turned: &'a [u8], after: &'a FactSet },
}

impl States<'_> {
    /// Row 27. The facts of a state stand in one order, so equal ones have equal bytes.
    #[inline]
    #[must_use]
    pub fn differ(&self) -> bool {
        match self {
            Self::Listed { before, after } => before != after,
            Self::Turned { turned, .. } => !turned.is_empty(),
        }
    }
}

/// The state that a record has come to.
#[allow(clippy::large_enum_variant, reason = "there is one at a time, on the stack")]
pub enum State<'a> {
    /// Of a full book, whose next state does not depend on it.
    Listed(&'a [u8]),
    /// Of a short book: what holds, and how many facts these are.
    Held(FactSet, usize),
}

impl<'a> State<'a> {
    /// A record's first state is a list of what holds in either form.
    pub fn first(form: Form, facts: &'a [u8]) -> Self {
        match form {
            Form::Full => Self::Listed(facts),
            Form::Short => Self::Held(FactSet::of(facts), facts.len() / FACT_LENGTH),
        }
    }

    /// Goes on to the state after a step, by the list that is filed for it.
    /// `None` if this leaves over 256 facts.
    #[inline]
    pub fn next<'s>(&'s mut self, list: &'a [u8]) -> Option<States<'s>> {
        match self {
            Self::Listed(state) => {
                let before = std::mem::replace(state, list);
                Some(States::Listed { before, after: list })
            }
            Self::Held(facts, count) => {
                for fact in list.chunks_exact(FACT_LENGTH) {
                    let holds = facts.turn(fact_number(fact[0], fact[1], fact[2]));
                    *count = if holds { *count + 1 } else { *count - 1 };
                }
                // Only what the whole list leaves counts.
                (*count <= FACT_LIMIT).then_some(States::Turned { turned: list, after: facts })
            }
        }
    }
}
