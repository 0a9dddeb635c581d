//! The order of one plan: rows 14 to 18, and 22.

use super::hall::fact_key;
use super::state::read_facts;
use super::{two_bytes, Hall, Signature};
use crate::answer::{Answer, Refusal};
use crate::limits::{
    COUNT_LENGTH, FACT_LENGTH, FACT_LIMIT, GOAL_LENGTH, GOAL_LIMIT, HEADER_LENGTH, OBJECT_LIMIT,
    START_LIMIT, STEP_LENGTH, STEP_LIMIT,
};

/// An order of good form, by the bytes of its sections.
pub struct Order<'a> {
    pub objects: &'a [u8],
    pub start_count: usize,
    /// All starts, each with its count.
    starts: &'a [u8],
    pub goal: &'a [u8],
    pub steps: &'a [u8],
}

impl<'a> Order<'a> {
    pub fn read(bytes: &'a [u8], signature: &Signature) -> Result<Self, Answer> {
        let order = Self::sections(bytes)?;
        let objects_at = HEADER_LENGTH;
        let start_at = objects_at + order.objects.len();
        let goal_at = start_at + order.starts.len();
        let steps_at = goal_at + order.goal.len();

        for (index, &kind) in order.objects.iter().enumerate() {
            if !(1..=signature.kinds).contains(&usize::from(kind)) {
                return Err(Refusal::OrderObject.at(objects_at + index));
            }
        }
        let hall = Hall::new(signature, order.objects);
        // The bytes up to the goal, so that every offset is the order's.
        check_starts(&bytes[..goal_at], start_at, order.start_count, &hall)?;
        let good = GOAL_LENGTH * good_entries(&hall, order.goal);
        if good < order.goal.len() {
            return Err(Refusal::GoalEntry.at(goal_at + good));
        }
        for (index, step) in order.steps.chunks_exact(STEP_LENGTH).enumerate() {
            if hall.check_step(signature, step[0], &step[1..]).is_err() {
                return Err(Refusal::PlanStep.at(steps_at + STEP_LENGTH * index));
            }
        }
        Ok(order)
    }

    /// Rows 14 and 22: the header leaves no freedom but the counts and where the
    /// starts end.
    fn sections(bytes: &'a [u8]) -> Result<Self, Answer> {
        let refused = Refusal::OrderHeader.at(0);
        if bytes.len() < HEADER_LENGTH {
            return Err(refused);
        }
        let number = |index: usize| two_bytes(bytes, 2 * index);
        let (objects, start_count, goal, steps) = (number(0), number(1), number(2), number(3));
        if objects > OBJECT_LIMIT || goal > GOAL_LIMIT || steps > STEP_LIMIT {
            return Err(refused);
        }
        if !(1..=START_LIMIT).contains(&start_count) {
            return Err(Refusal::StartCount.at(0));
        }
        let objects_at = HEADER_LENGTH;
        let start_at = objects_at + objects;
        let goal_at = number(6);
        let steps_at = goal_at + GOAL_LENGTH * goal;
        if [number(4), number(5), number(7)] != [objects_at, start_at, steps_at]
            || goal_at < start_at
            || bytes.len() != steps_at + STEP_LENGTH * steps
        {
            return Err(refused);
        }
        Ok(Self {
            objects: &bytes[objects_at..start_at],
            start_count,
            starts: &bytes[start_at..goal_at],
            goal: &bytes[goal_at..steps_at],
            steps: &bytes[steps_at..],
        })
    }

    /// The facts of each start, in file order.
    pub fn starts(&self) -> impl Iterator<Item = &'a [u8]> {
        let mut rest = self.starts;
        (0..self.start_count).map(move |_| {
            let (count, behind) = rest.split_at(COUNT_LENGTH);
            let (facts, behind) = behind.split_at(FACT_LENGTH * two_bytes(count, 0));
            rest = behind;
            facts
        })
    }
}

/// Row 16: each start is a state, and `bytes` end with the last of them.
fn check_starts(bytes: &[u8], start_at: usize, count: usize, hall: &Hall) -> Result<(), Answer> {
    let mut cursor = start_at;
    for _ in 0..count {
        read_facts(bytes, hall, FACT_LIMIT, &mut cursor, Refusal::Start)?;
    }
    if cursor < bytes.len() {
        return Err(Refusal::Start.at(cursor));
    }
    Ok(())
}

/// How many goal entries from the front are good and strictly increase.
fn good_entries(hall: &Hall, goal: &[u8]) -> usize {
    let mut last = 0;
    for (index, entry) in goal.chunks_exact(GOAL_LENGTH).enumerate() {
        let (holds, fact) = (entry[0], &entry[1..]);
        let key = fact_key(fact);
        if holds > 1 || key <= last || !hall.fact_is_good(fact[0], fact[1], fact[2]) {
            return index;
        }
        last = key;
    }
    goal.len() / GOAL_LENGTH
}
