//! Faults in the starts of an order: rows 22 and 16, and 14 beside them.

use super::orders::scene;
use super::spoil::FACT_FAULTS;
use crate::answer::Refusal;
use crate::gen::aim::{Aim, Hit};
use crate::gen::draft::{put_number, Fact, OrderDraft};
use crate::gen::plan::order::Plan;
use crate::gen::rng::Rng;
use crate::limits::{FACT_LIMIT, START_LIMIT};

pub fn aims() -> Vec<Aim<Plan>> {
    let mut aims = start_counts();
    aims.extend(header_beside());
    aims.extend(wrong_facts());
    for which in [Which::First, Which::Middle, Which::Last] {
        aims.extend(states(which));
    }
    aims.extend(ends());
    aims
}

/// A start of several.
#[derive(Clone, Copy)]
enum Which {
    First,
    Middle,
    Last,
}

impl Which {
    fn index(self, order: &OrderDraft, rng: &mut Rng) -> Option<usize> {
        match (self, order.starts.len()) {
            (_, 0..=1) | (Self::Middle, 2) => None,
            (Self::First, _) => Some(0),
            (Self::Middle, count) => Some(rng.range(1, count - 2)),
            (Self::Last, count) => Some(count - 1),
        }
    }

    /// Of the names for the three, this one's.
    const fn of(self, names: [&'static str; 3]) -> &'static str {
        names[self as usize]
    }

    /// A fault in this start; `make` is given its index.
    fn aim(
        self,
        names: [&'static str; 3],
        make: fn(&Plan, usize, &mut Rng) -> Option<Hit>,
    ) -> Aim<Plan> {
        Aim::new("start", self.of(names), Refusal::Start, move |plan: &Plan, rng: &mut Rng| {
            make(plan, self.index(&plan.order, rng)?, rng)
        })
    }
}

/// A start count that is none or too large.
fn wrong_count(rng: &mut Rng) -> usize {
    *rng.pick(&[0, START_LIMIT + 1, 0x100, 0xffff]).expect("there are four")
}

fn counted(order: &OrderDraft, count: usize) -> Vec<u8> {
    let mut bytes = order.bytes();
    put_number(&mut bytes, 2, count);
    bytes
}

fn start_counts() -> Vec<Aim<Plan>> {
    let aim = |what, make: fn(&OrderDraft, &mut Rng) -> Vec<u8>| {
        Aim::new("start count", what, Refusal::StartCount, move |plan: &Plan, rng: &mut Rng| {
            Some(Hit { bytes: make(&plan.order, rng), place: 0 })
        })
    };
    vec![
        // Laid out in full, so that nothing but the count is wrong.
        aim("none", |order, _| OrderDraft { starts: Vec::new(), ..order.clone() }.bytes()),
        aim("17", |order, _| {
            let mut order = order.clone();
            let start = order.starts[0].clone();
            order.starts.resize(START_LIMIT + 1, start);
            order.bytes()
        }),
        aim("none counted", |order, _| counted(order, 0)),
        aim("65,535 counted", |order, _| counted(order, 0xffff)),
        aim("over 16 counted", |order, rng| counted(order, rng.range(START_LIMIT + 1, 0xffff))),
        aim("wrong, and an offset too", |order, rng| {
            let mut bytes = counted(order, wrong_count(rng));
            bytes[2 * rng.range(4, 7) + 1] ^= 1;
            bytes
        }),
        aim("wrong, and a length too", |order, rng| {
            let mut bytes = counted(order, wrong_count(rng));
            bytes.resize(bytes.len() + rng.range(1, 6), 0);
            bytes
        }),
    ]
}

fn header_beside() -> Vec<Aim<Plan>> {
    let aim = |what, make: fn(&OrderDraft, &mut Rng) -> Vec<u8>| {
        Aim::new("order header", what, Refusal::OrderHeader, move |plan: &Plan, rng: &mut Rng| {
            Some(Hit { bytes: make(&plan.order, rng), place: 0 })
        })
    };
    vec![
        aim("a count over its limit, and the starts' wrong", |order, rng| {
            let mut bytes = counted(order, wrong_count(rng));
            let (at, limit) = *rng.pick(&[(0, 16), (4, 64), (6, 64)]).expect("there are three");
            put_number(&mut bytes, at, rng.range(limit + 1, 0xffff));
            bytes
        }),
        aim("under 16 bytes, and the starts' count wrong", |order, rng| {
            let mut bytes = counted(order, wrong_count(rng));
            bytes.truncate(rng.range(4, 15));
            bytes
        }),
        // Laid out in full, so that no other offset is wrong.
        aim("goal offset before the start's", |order, rng| {
            let by = if rng.chance(50) { 1 } else { rng.range(1, 16 + order.objects.len()) };
            let goal_at = 16 + order.objects.len() - by;
            let (mut bytes, layout) = (order.bytes(), order.layout());
            put_number(&mut bytes, 12, goal_at);
            put_number(&mut bytes, 14, goal_at + 4 * order.goal.len());
            bytes.drain(goal_at.max(16)..layout.goal);
            bytes
        }),
    ]
}

/// A fact that is wrong, in any start.
fn wrong_facts() -> impl Iterator<Item = Aim<Plan>> {
    FACT_FAULTS.into_iter().map(|(what, spoil)| {
        Aim::new("start", what, Refusal::Start, move |plan: &Plan, rng: &mut Rng| {
            let start = rng.below(plan.order.starts.len());
            in_fact(plan, start, rng, |facts, at, rng| {
                facts[at] = spoil(facts[at], &scene(plan), rng)?;
                Some(())
            })
        })
    })
}

/// The order with a fact changed, and the fact's place. `change` is given the
/// facts of the start and which one to change.
fn in_fact(
    plan: &Plan,
    start: usize,
    rng: &mut Rng,
    change: impl Fn(&mut Vec<Fact>, usize, &mut Rng) -> Option<()>,
) -> Option<Hit> {
    let mut order = plan.order.clone();
    let facts = &mut order.starts[start];
    let at = (!facts.is_empty()).then(|| rng.below(facts.len()))?;
    change(facts, at, rng)?;
    let place = order.layout().starts[start] + 2 + 3 * at;
    Some(Hit { bytes: order.bytes(), place })
}

/// Every fault of a state, in one of several starts.
fn states(which: Which) -> Vec<Aim<Plan>> {
    let mut aims = facts_of(which);
    aims.push(count_of(which));
    aims.extend(cuts_of(which));
    aims
}

/// A fact that is wrong or out of order.
fn facts_of(which: Which) -> Vec<Aim<Plan>> {
    vec![
        which.aim(
            ["fact wrong, the first", "fact wrong, a middle one", "fact wrong, the last"],
            |plan, start, rng| {
                in_fact(plan, start, rng, |facts, at, rng| {
                    let (_, spoil) = rng.pick(&FACT_FAULTS)?;
                    facts[at] = spoil(facts[at], &scene(plan), rng)?;
                    Some(())
                })
            },
        ),
        which.aim(
            ["facts equal, the first", "facts equal, a middle one", "facts equal, the last"],
            |plan, start, rng| {
                in_fact(plan, start, rng, |facts, at, _| {
                    facts[at] = facts[at.checked_sub(1)?];
                    Some(())
                })
            },
        ),
        which.aim(
            [
                "facts decrease, the first",
                "facts decrease, a middle one",
                "facts decrease, the last",
            ],
            |plan, start, rng| {
                in_fact(plan, start, rng, |facts, at, _| {
                    facts.swap(at, at.checked_sub(1)?);
                    Some(())
                })
            },
        ),
    ]
}

/// A count over its limit, laid out in full, so that nothing else is wrong.
fn count_of(which: Which) -> Aim<Plan> {
    which.aim(
        ["count over 256, the first", "count over 256, a middle one", "count over 256, the last"],
        |plan, start, _| {
            let mut order = plan.order.clone();
            order.starts[start].resize(FACT_LIMIT + 1, [1, 1, 1]);
            Some(Hit { bytes: order.bytes(), place: order.layout().starts[start] })
        },
    )
}

/// The starts' end within a count or a fact.
fn cuts_of(which: Which) -> Vec<Aim<Plan>> {
    vec![
        which.aim(
            ["count cut, the first", "count cut, a middle one", "count cut, the last"],
            |plan, start, rng| {
                let place = plan.order.layout().starts[start];
                let bytes = ended(&plan.order, place + rng.below(2));
                Some(Hit { bytes, place })
            },
        ),
        which.aim(
            ["fact cut, the first", "fact cut, a middle one", "fact cut, the last"],
            |plan, start, rng| {
                let facts = plan.order.starts[start].len();
                let at = (facts > 0).then(|| rng.below(facts))?;
                let place = plan.order.layout().starts[start] + 2 + 3 * at;
                let bytes = ended(&plan.order, place + rng.below(3));
                Some(Hit { bytes, place })
            },
        ),
    ]
}

/// The order whose starts end at `end`: bytes are cut off or put in before the
/// goal, and the offsets behind say so.
#[must_use]
pub fn ended(order: &OrderDraft, end: usize) -> Vec<u8> {
    let (bytes, layout) = (order.bytes(), order.layout());
    let mut new = bytes[..end.min(layout.goal)].to_vec();
    new.resize(end, 0);
    put_number(&mut new, 12, end);
    put_number(&mut new, 14, end + 4 * order.goal.len());
    new.extend_from_slice(&bytes[layout.goal..]);
    new
}

/// Where the last start and the goal do not meet.
fn ends() -> Vec<Aim<Plan>> {
    let left = |what, bytes: fn(&mut Rng) -> usize| {
        Aim::new("start", what, Refusal::Start, move |plan: &Plan, rng: &mut Rng| {
            let place = plan.order.layout().goal;
            Some(Hit { bytes: ended(&plan.order, place + bytes(rng)), place })
        })
    };
    let another_count = |what, more: bool| {
        Aim::new("start", what, Refusal::Start, move |plan: &Plan, _: &mut Rng| {
            let (count, layout) = (plan.order.starts.len(), plan.order.layout());
            let (count, place) = match more {
                true => (count + 1, layout.goal),
                false => (count - 1, layout.starts[count - 1]),
            };
            let bytes = counted(&plan.order, count);
            (1..=START_LIMIT).contains(&count).then_some(Hit { bytes, place })
        })
    };
    vec![
        left("1 byte left over", |_| 1),
        left("2 bytes left over", |_| 2),
        left("3 bytes left over", |_| 3),
        left("many bytes left over", |rng| rng.range(4, 1000)),
        another_count("one more counted", true),
        another_count("one fewer counted", false),
    ]
}
