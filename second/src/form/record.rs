//! Records (trajectories), walked in file order: rows 6 to 10, 24 and 27.

use super::state::{read_facts, State, States};
use super::{two_bytes, Hall, Signature};
use crate::answer::{Answer, Refusal};
use crate::calls::Form;
use crate::limits::{
    FACT_LIMIT, HEAD_LENGTH, INAPPLICABLE, OBJECT_LIMIT, STEP_LENGTH, STEP_LIMIT, TURN_LIMIT,
};

/// A step with the states before and after it, all of good form. These are equal if
/// it did not go.
pub struct Transition<'a> {
    pub step_at: usize,
    /// As it is filed.
    pub step: &'a [u8],
    pub states: States<'a>,
}

impl Transition<'_> {
    #[inline]
    #[must_use]
    pub fn went(&self) -> bool {
        went(self.step)
    }

    /// Of its move, from 0.
    #[inline]
    #[must_use]
    pub fn action(&self) -> usize {
        usize::from(self.step[0] & !INAPPLICABLE) - 1
    }
}

/// Whether a recorded step went. 128 is move 0, of which there is none.
#[inline]
pub(super) fn went(step: &[u8]) -> bool {
    step[0] < INAPPLICABLE
}

/// What a walk shows its transitions to.
pub trait Observer {
    /// Before the first record.
    fn begin(&mut self, _: &Signature) {}
    /// A record: its bytes up to the facts of its first state, and these.
    fn begin_record(&mut self, _front: &[u8], _first: &[u8]) {}
    fn observe(&mut self, _: &Transition<'_>) {}
    fn end_record(&mut self) {}
}

/// Looking over needs nothing of the transitions.
impl Observer for () {}

/// Walks `count` records from `at` to the book's end; answers the step total.
pub fn walk_records(
    book: &[u8],
    form: Form,
    signature: &Signature,
    mut at: usize,
    count: usize,
    observer: &mut impl Observer,
) -> Result<usize, Answer> {
    let mut total = 0;
    for _ in 0..count {
        let record = Record::head(book, at)?;
        record.walk(form, signature, observer)?;
        at = record.bytes.len();
        total += record.steps;
    }
    if at < book.len() {
        return Err(Refusal::Record.at(at));
    }
    Ok(total)
}

struct Record<'a> {
    /// The book up to the record's end, so that every offset is the book's.
    bytes: &'a [u8],
    at: usize,
    objects: usize,
    steps: usize,
}

impl<'a> Record<'a> {
    /// Row 6 at the head, all of it before row 24.
    fn head(book: &'a [u8], at: usize) -> Result<Self, Answer> {
        let refused = Refusal::Record.at(at);
        let rest = &book[at..];
        if rest.len() < HEAD_LENGTH {
            return Err(refused);
        }
        let (objects, steps) = (usize::from(rest[0]), usize::from(rest[1]));
        let length = two_bytes(rest, 2);
        if objects > OBJECT_LIMIT
            || steps > STEP_LIMIT
            || !(HEAD_LENGTH..=rest.len()).contains(&length)
        {
            return Err(refused);
        }
        if steps == 0 {
            return Err(Refusal::NoSteps.at(at));
        }
        Ok(Self { bytes: &book[..at + length], at, objects, steps })
    }

    /// Objects, then state, step, state, and so on, then the tail.
    fn walk(
        &self,
        form: Form,
        signature: &Signature,
        observer: &mut impl Observer,
    ) -> Result<(), Answer> {
        let mut cursor = self.at + HEAD_LENGTH;
        let hall = self.hall(signature, &mut cursor)?;
        let first = self.facts(&hall, FACT_LIMIT, &mut cursor)?;
        observer.begin_record(&self.bytes[self.at..cursor - first.len()], first);
        let mut state = State::first(form, first);
        for _ in 0..self.steps {
            let step_at = cursor;
            let step = self.step(signature, &hall, &mut cursor)?;
            let count_at = cursor;
            let list = self.facts(&hall, list_limit(form), &mut cursor)?;
            let states = state.next(list).ok_or(Refusal::State.at(count_at))?;
            if !went(step) && states.differ() {
                return Err(Refusal::StatesDiffer.at(step_at));
            }
            observer.observe(&Transition { step_at, step, states });
        }
        if cursor < self.bytes.len() {
            return Err(Refusal::Record.at(self.at));
        }
        observer.end_record();
        Ok(())
    }

    /// Row 7.
    fn hall(&self, signature: &Signature, cursor: &mut usize) -> Result<Hall, Answer> {
        let from = *cursor;
        let kinds = &self.bytes[from..self.bytes.len().min(from + self.objects)];
        let good = kinds
            .iter()
            .take_while(|&&kind| (1..=signature.kinds).contains(&usize::from(kind)))
            .count();
        // Fewer are good than announced: the next one is wrong or cut.
        if good < self.objects {
            return Err(Refusal::Object.at(from + good));
        }
        *cursor += self.objects;
        Ok(Hall::new(signature, kinds))
    }

    /// Row 8 but for the state that a list leaves; answers the bytes of the facts.
    fn facts(&self, hall: &Hall, limit: usize, cursor: &mut usize) -> Result<&'a [u8], Answer> {
        read_facts(self.bytes, hall, limit, cursor, Refusal::State)
    }

    /// Rows 9 and 10, whether the step went or not; answers its bytes.
    fn step(
        &self,
        signature: &Signature,
        hall: &Hall,
        cursor: &mut usize,
    ) -> Result<&'a [u8], Answer> {
        let at = *cursor;
        let step = self.bytes.get(at..at + STEP_LENGTH).ok_or(Refusal::Step.at(at))?;
        let number = step[0] & !INAPPLICABLE;
        hall.check_step(signature, number, &step[1..]).map_err(|refusal| refusal.at(at))?;
        *cursor += STEP_LENGTH;
        Ok(step)
    }
}

/// The most facts that are listed for a state after a step.
const fn list_limit(form: Form) -> usize {
    match form {
        Form::Full => FACT_LIMIT,
        Form::Short => TURN_LIMIT,
    }
}
