//! A checker that is wrong on purpose, for the tests of the comparison.
//!
//! It is right in all but that it has room for 256 facts while a plan is
//! executed, as if the limit of a state that is read were one of every state.

use crate::answer::{Answer, Refusal};
use crate::calls::{unpacked, Calls};
use crate::definition::end_sheet;
use crate::gen::Fact;
use crate::limits::{FACT_LIMIT, RULES_LENGTH, SET_LENGTH};
use crate::Second;

pub struct Capped;

impl Calls for Capped {
    fn look_over(&self, book: &[u8], form: u32) -> u64 {
        Second.look_over(book, form)
    }

    fn learn(&self, book: &[u8], form: u32, sheet: &mut [u8]) -> u64 {
        Second.learn(book, form, sheet)
    }

    fn check(&self, book: &[u8], form: u32, order: &[u8], end: &mut [u8]) -> u64 {
        let right = Second.check(book, form, order, &mut vec![0; end.len()]);
        // The rows before these are met before the plan is executed.
        if !matches!(unpacked(right).number, 0 | 19 | 20) {
            return right;
        }
        let mut rules = vec![0; RULES_LENGTH * usize::from(book[5])];
        Second.learn(book, form, &mut rules);
        execute(book, order, &rules, end).packed()
    }

    fn add(&self, book: &[u8], form: u32, record: &[u8], out: &mut [u8]) -> u64 {
        Second.add(book, form, record, out)
    }

    fn to_short(&self, book: &[u8], out: &mut [u8]) -> u64 {
        Second.to_short(book, out)
    }

    fn to_full(&self, book: &[u8], out: &mut [u8]) -> u64 {
        Second.to_full(book, out)
    }
}

/// Rows 19 and 20 by the rule sheet; facts added beyond the 256th are dropped.
fn execute(book: &[u8], order: &[u8], rules: &[u8], end: &mut [u8]) -> Answer {
    let number = |at: usize| usize::from(u16::from_be_bytes([order[at], order[at + 1]]));
    let [mut at, goal_at, steps_at] = [10, 12, 14].map(number);
    let starts = number(2);
    for position in 1..=starts {
        let facts = &order[at + 2..][..3 * number(at)];
        at += 2 + facts.len();
        let mut state: Vec<Fact> = facts.chunks_exact(3).map(fact).collect();
        for (number, step) in (1..).zip(order[steps_at..].chunks_exact(5)) {
            if !execute_step(book, step, rules, &mut state) {
                return Refusal::NeedUnmet.at(number).from_start(position);
            }
        }
        let mut goal = order[goal_at..steps_at].chunks_exact(4);
        let missed = |entry: &[u8]| (entry[0] == 1) != state.contains(&fact(&entry[1..]));
        if let Some(index) = goal.position(missed) {
            return Refusal::GoalMissed.at(index + 1).from_start(position);
        }
        if starts == 1 {
            end.copy_from_slice(&end_sheet(&state));
        }
    }
    Answer::success((order.len() - steps_at) / 5)
}

fn fact(bytes: &[u8]) -> Fact {
    [bytes[0], bytes[1], bytes[2]]
}

/// Whether the step goes; the state is then the one after it.
fn execute_step(book: &[u8], step: &[u8], rules: &[u8], state: &mut Vec<Fact>) -> bool {
    let sets = rules[RULES_LENGTH * (usize::from(step[0]) - 1)..].chunks_exact(SET_LENGTH);
    let facts: Vec<Vec<Fact>> = sets.take(4).map(|set| bound_facts(book, step, set)).collect();
    let [pre_pos, pre_neg, add, delete] = [&facts[0], &facts[1], &facts[2], &facts[3]];
    if pre_pos.iter().any(|fact| !state.contains(fact))
        || pre_neg.iter().any(|fact| state.contains(fact))
    {
        return false;
    }
    state.retain(|fact| !delete.contains(fact));
    for fact in add {
        if !state.contains(fact) && state.len() < FACT_LIMIT {
            state.push(*fact);
        }
    }
    true
}

/// The facts that the lifted atoms of a set become with the step's objects.
fn bound_facts(book: &[u8], step: &[u8], set: &[u8]) -> Vec<Fact> {
    let relations_at = usize::from(book[9]);
    let fact = |atom: usize| {
        let (relation, parameters) = (atom / 16, [atom / 4 % 4, atom % 4]);
        let places = usize::from(book[relations_at + 4 * relation]);
        let object = |place: usize| if place < places { step[1 + parameters[place]] } else { 0 };
        [relation as u8 + 1, object(0), object(1)]
    };
    (0..8 * SET_LENGTH).filter(|atom| set[atom / 8] >> (atom % 8) & 1 == 1).map(fact).collect()
}
