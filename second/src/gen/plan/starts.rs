//! Several starts for one plan.

use crate::gen::draft::facts::random_fact;
use crate::gen::draft::{BookDraft, Fact, OrderDraft};
use crate::gen::hall::State;
use crate::gen::rng::Rng;
use crate::limits::{FACT_LIMIT, START_LIMIT};

/// Gives an order of one start others beside it, in most cases: such as share
/// most facts with it, equal ones, and some that share nothing.
pub fn multiply(order: &mut OrderDraft, book: &BookDraft, rng: &mut Rng) {
    let first = order.starts[0].clone();
    let all_equal = rng.chance(15);
    for _ in 1..count(rng) {
        let start = match rng.below(10) {
            _ if all_equal => first.clone(),
            0..=1 => first.clone(),
            2..=6 => turned_where_asked(&first, order, book, rng),
            _ => turned(&[], rng.range(0, first.len()), book, &order.objects, rng),
        };
        order.starts.push(start);
    }
    // The one given is likely to pass. Where it stays first, another may decide.
    if rng.chance(40) {
        rng.shuffle(&mut order.starts);
    }
}

/// Often one, since an end sheet is written then; else few most of the time.
fn count(rng: &mut Rng) -> usize {
    match rng.below(100) {
        0..=34 => 1,
        35..=84 => rng.range(2, 4),
        _ => rng.range(5, START_LIMIT),
    }
}

/// The facts with a few turned: any, of the goal, or of the objects of a step.
fn turned_where_asked(
    facts: &[Fact],
    order: &OrderDraft,
    book: &BookDraft,
    rng: &mut Rng,
) -> Vec<Fact> {
    let mut state: State = facts.iter().copied().collect();
    for _ in 0..rng.range(1, 4) {
        let fact = match rng.below(5) {
            0 => rng.pick(&order.goal).map(|&(_, fact)| fact),
            1..=3 => rng.pick(&order.steps).and_then(|step| {
                let used = step[1..].iter().filter(|&&object| object > 0);
                fact_over(&used.copied().collect::<Vec<u8>>(), book, &order.objects, rng)
            }),
            _ => random_fact(book, &order.objects, rng),
        };
        turn(fact, &mut state);
    }
    state.into_iter().collect()
}

/// A fact of good form over some of the objects, given by their numbers.
fn fact_over(numbers: &[u8], book: &BookDraft, objects: &[u8], rng: &mut Rng) -> Option<Fact> {
    let kinds: Vec<u8> = numbers.iter().map(|&number| objects[usize::from(number) - 1]).collect();
    let number = |object: u8| if object == 0 { 0 } else { numbers[usize::from(object) - 1] };
    let [relation, first, second] = random_fact(book, &kinds, rng)?;
    Some([relation, number(first), number(second)])
}

/// The facts with as many turned, any of them.
pub fn turned(
    facts: &[Fact],
    times: usize,
    book: &BookDraft,
    objects: &[u8],
    rng: &mut Rng,
) -> Vec<Fact> {
    let mut state: State = facts.iter().copied().collect();
    for _ in 0..times {
        turn_one(book, objects, &mut state, rng);
    }
    state.into_iter().collect()
}

pub fn turn_one(book: &BookDraft, objects: &[u8], state: &mut State, rng: &mut Rng) {
    turn(random_fact(book, objects, rng), state);
}

fn turn(fact: Option<Fact>, state: &mut State) {
    if let Some(fact) = fact {
        if !state.remove(&fact) && state.len() < FACT_LIMIT {
            state.insert(fact);
        }
    }
}
