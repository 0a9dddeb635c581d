//! Faults in an order: rows 14 to 18 and 22; those of its starts are in
//! `starts`.

use super::spoil::{over, Scene, FACT_FAULTS, ORDER_FAULTS, STEP_FAULTS, TWICE_FAULTS};
use super::starts;
use crate::answer::Refusal;
use crate::gen::aim::{Aim, Hit};
use crate::gen::draft::{put_number, Fact, OrderDraft};
use crate::gen::plan::order::Plan;
use crate::gen::rng::Rng;

pub fn aims() -> Vec<Aim<Plan>> {
    let mut aims = header();
    aims.extend(objects());
    aims.extend(starts::aims());
    aims.extend(goal_entries());
    aims.extend(steps());
    aims
}

pub(super) fn scene(plan: &Plan) -> Scene<'_> {
    Scene { book: &plan.book, objects: &plan.order.objects }
}

/// Row 14, in the order in which a header is read.
fn header() -> Vec<Aim<Plan>> {
    let mut aims = vec![header_aim("under 16 bytes", |order, rng| {
        let mut bytes = order.bytes();
        bytes.truncate(rng.below(16));
        Some(bytes)
    })];
    aims.extend(counts());
    aims.extend(offsets());
    aims.extend(lengths());
    aims
}

fn header_aim(
    what: &'static str,
    make: impl Fn(&OrderDraft, &mut Rng) -> Option<Vec<u8>> + 'static,
) -> Aim<Plan> {
    Aim::new("order header", what, Refusal::OrderHeader, move |plan: &Plan, rng: &mut Rng| {
        make(&plan.order, rng).map(|bytes| Hit { bytes, place: 0 })
    })
}

/// Each is laid out in full, so that nothing but the count is wrong.
fn counts() -> [Aim<Plan>; 3] {
    [
        header_aim("objects over 16", |order, _| {
            let mut order = order.clone();
            order.objects.resize(17, 1);
            Some(order.bytes())
        }),
        header_aim("goal entries over 64", |order, _| {
            let mut order = order.clone();
            order.goal.resize(65, (1, [1, 1, 1]));
            Some(order.bytes())
        }),
        header_aim("steps over 64", |order, _| {
            let mut order = order.clone();
            order.steps.resize(65, [1, 0, 0, 0, 0]);
            Some(order.bytes())
        }),
    ]
}

fn offsets() -> [Aim<Plan>; 4] {
    let offset = |what, field: usize| {
        header_aim(what, move |order, rng| {
            let mut bytes = order.bytes();
            let right = usize::from(u16::from_be_bytes([bytes[2 * field], bytes[2 * field + 1]]));
            let wrong = *rng.pick(&[right + 1, right - 1, right ^ 0x100, 0, 0xffff])?;
            put_number(&mut bytes, 2 * field, wrong);
            Some(bytes)
        })
    };
    [
        offset("objects offset wrong", 4),
        offset("start offset wrong", 5),
        offset("goal offset wrong", 6),
        offset("steps offset wrong", 7),
    ]
}

/// The order is not as long as its header says.
fn lengths() -> [Aim<Plan>; 2] {
    [
        header_aim("too short for its counts", |order, rng| {
            let mut bytes = order.bytes();
            if bytes.len() == 16 {
                return None;
            }
            bytes.truncate(rng.range(16.max(bytes.len() - 6), bytes.len() - 1));
            Some(bytes)
        }),
        header_aim("bytes behind the steps", |order, rng| {
            let mut bytes = order.bytes();
            bytes.resize(bytes.len() + rng.range(1, 6), 0);
            Some(bytes)
        }),
    ]
}

fn objects() -> Vec<Aim<Plan>> {
    let aim = |what, wrong: fn(usize, &mut Rng) -> u8| {
        Aim::new("order object", what, Refusal::OrderObject, move |plan: &Plan, rng: &mut Rng| {
            let count = plan.order.objects.len();
            let index = (count > 0).then(|| rng.below(count))?;
            let mut bytes = plan.order.bytes();
            bytes[16 + index] = wrong(plan.book.kinds, rng);
            Some(Hit { bytes, place: 16 + index })
        })
    };
    vec![aim("kind 0", |_, _| 0), aim("kind over the count", over)]
}

/// A fault in one entry of the goal; `spoil` is given all entries and its index.
fn goal_aim(
    what: &'static str,
    spoil: impl Fn(&mut [(u8, Fact)], usize, &Plan, &mut Rng) -> Option<()> + 'static,
) -> Aim<Plan> {
    Aim::new("goal", what, Refusal::GoalEntry, move |plan: &Plan, rng: &mut Rng| {
        let count = plan.order.goal.len();
        let index = (count > 0).then(|| rng.below(count))?;
        let mut order = plan.order.clone();
        spoil(&mut order.goal, index, plan, rng)?;
        let place = order.layout().goal + 4 * index;
        Some(Hit { bytes: order.bytes(), place })
    })
}

fn goal_entries() -> Vec<Aim<Plan>> {
    let mut aims = vec![
        goal_aim("first byte over 1", |goal, index, _, rng| {
            goal[index].0 = over(1, rng);
            Some(())
        }),
        goal_aim("facts equal", |goal, index, _, rng| {
            // The first bytes may differ all the same.
            goal[index] = (rng.below(2) as u8, goal[index.checked_sub(1)?].1);
            Some(())
        }),
        goal_aim("facts decrease", |goal, index, _, _| {
            goal.swap(index, index.checked_sub(1)?);
            Some(())
        }),
    ];
    aims.extend(FACT_FAULTS.into_iter().map(|(what, spoil)| {
        goal_aim(what, move |goal, index, plan, rng| {
            goal[index].1 = spoil(goal[index].1, &scene(plan), rng)?;
            Some(())
        })
    }));
    aims
}

fn steps() -> impl Iterator<Item = Aim<Plan>> {
    STEP_FAULTS.into_iter().chain(TWICE_FAULTS).chain(ORDER_FAULTS).map(|(what, spoil)| {
        Aim::new("plan step", what, Refusal::PlanStep, move |plan: &Plan, rng: &mut Rng| {
            let count = plan.order.steps.len();
            let index = (count > 0).then(|| rng.below(count))?;
            let mut order = plan.order.clone();
            order.steps[index] = spoil(order.steps[index], &scene(plan), rng)?;
            let place = order.layout().steps + 5 * index;
            Some(Hit { bytes: order.bytes(), place })
        })
    })
}
