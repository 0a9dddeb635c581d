//! Single faults in a fact or in a step, for books and orders alike.

use crate::gen::draft::{action, not_gone, BookDraft, Fact, Step};
use crate::gen::rng::Rng;

/// What facts and steps are judged by: the first sections and the objects.
pub struct Scene<'a> {
    pub book: &'a BookDraft,
    pub objects: &'a [u8],
}

impl Scene<'_> {
    /// The relation of a good fact.
    fn relation(&self, fact: Fact) -> [u8; 4] {
        self.book.relations[usize::from(fact[0]) - 1]
    }

    /// The move of a good step.
    fn action(&self, step: Step) -> [u8; 6] {
        self.book.moves[action(&step)]
    }

    /// Whether an object, from 1, suits a place or a parameter of this kind.
    fn suits(&self, object: u8, place: u8) -> bool {
        self.book.suits(self.objects[usize::from(object) - 1], place)
    }
}

pub type SpoilFact = fn(Fact, &Scene<'_>, &mut Rng) -> Option<Fact>;
pub type SpoilStep = fn(Step, &Scene<'_>, &mut Rng) -> Option<Step>;

pub const FACT_FAULTS: [(&str, SpoilFact); 8] = [
    ("fact, relation 0", |fact, _, _| Some([0, fact[1], fact[2]])),
    ("fact, relation over the count", |fact, scene, rng| {
        let relation = over(scene.book.relations.len(), rng);
        Some([relation, fact[1], fact[2]])
    }),
    ("fact, used object 0", |fact, scene, rng| {
        spoil_used(fact, scene.relation(fact)[0], rng, |_, _| Some(0))
    }),
    ("fact, object over the count", |fact, scene, rng| {
        let places = scene.relation(fact)[0];
        spoil_used(fact, places, rng, |_, rng| Some(over(scene.objects.len(), rng)))
    }),
    ("fact, object of another kind", |fact, scene, rng| {
        let relation = scene.relation(fact);
        spoil_used(fact, relation[0], rng, |place, rng| other_kind(relation[place], scene, rng))
    }),
    ("fact, object of a kind above", |fact, scene, rng| {
        let relation = scene.relation(fact);
        spoil_used(fact, relation[0], rng, |place, rng| kind_above(relation[place], scene, rng))
    }),
    ("fact, unused object not 0", |fact, scene, rng| {
        let places = scene.relation(fact)[0];
        spoil_unused(fact, places, rng)
    }),
    ("fact, object 32 or more", |fact, scene, rng| {
        let places = scene.relation(fact)[0];
        // Any byte that a test by shifting a small word could mistake.
        spoil_used(fact, places, rng, |place, rng| Some(fact[place] + 32 * rng.range(1, 7) as u8))
    }),
];

/// The faults of row 9, but for a cut step.
pub const STEP_FAULTS: [(&str, SpoilStep); 11] = [
    ("move 0", |step, _, _| Some([0, step[1], step[2], step[3], step[4]])),
    ("move 128", |step, _, _| Some([128, step[1], step[2], step[3], step[4]])),
    ("move over the count", |step, scene, rng| {
        let (count, number) = (scene.book.moves.len(), over(scene.book.moves.len(), rng));
        // In a record these are the moves of steps that did not go.
        let is_move = (1..=count).contains(&usize::from(number).saturating_sub(128));
        (!is_move).then_some([number, step[1], step[2], step[3], step[4]])
    }),
    ("move over the count, and 128 more", |step, scene, rng| {
        let next = scene.book.moves.len() + 1;
        let number = match rng.below(4) {
            0 => 127,
            1 => rng.range(next, 127),
            _ => next,
        };
        Some(not_gone([number as u8, step[1], step[2], step[3], step[4]]))
    }),
    ("used object 0", |step, scene, rng| {
        spoil_used(step, scene.action(step)[0], rng, |_, _| Some(0))
    }),
    ("object over the count", |step, scene, rng| {
        let parameters = scene.action(step)[0];
        spoil_used(step, parameters, rng, |_, rng| Some(over(scene.objects.len(), rng)))
    }),
    ("object of another kind", |step, scene, rng| {
        let entry = scene.action(step);
        spoil_used(step, entry[0], rng, |place, rng| other_kind(entry[place], scene, rng))
    }),
    ("object of a kind above", |step, scene, rng| {
        let entry = scene.action(step);
        spoil_used(step, entry[0], rng, |place, rng| kind_above(entry[place], scene, rng))
    }),
    ("unused object not 0", |step, scene, rng| spoil_unused(step, scene.action(step)[0], rng)),
    ("object 32 or more", |step, scene, rng| {
        let parameters = scene.action(step)[0];
        spoil_used(step, parameters, rng, |place, rng| {
            Some(step[place] + 32 * rng.range(1, 7) as u8)
        })
    }),
    // Row 9 before row 10: the object does not suit the second parameter.
    ("object twice, once of another kind", |step, scene, rng| {
        repeat_object(step, scene, rng, |_, suits| !suits)
    }),
];

/// The faults of row 10: one object for two parameters, of one kind or of two
/// that it suits.
pub const TWICE_FAULTS: [(&str, SpoilStep); 2] = [
    ("object twice", |step, scene, rng| repeat_object(step, scene, rng, |_, suits| suits)),
    ("object twice, for two kinds", |step, scene, rng| {
        repeat_object(step, scene, rng, |same_kind, suits| suits && !same_kind)
    }),
];

/// What is wrong in an order alone.
pub const ORDER_FAULTS: [(&str, SpoilStep); 1] =
    [("a step that did not go", |step, _, _| Some(not_gone(step)))];

/// Gives a parameter the object of another one. `wanted` is told whether the two
/// are of one kind, and whether the object suits its new parameter.
fn repeat_object(
    mut step: Step,
    scene: &Scene<'_>,
    rng: &mut Rng,
    wanted: impl Fn(bool, bool) -> bool,
) -> Option<Step> {
    let entry = scene.action(step);
    let used = 1..=usize::from(entry[0]);
    let pairs: Vec<(usize, usize)> = used
        .clone()
        .flat_map(|from| used.clone().map(move |to| (from, to)))
        .filter(|&(from, to)| {
            from != to && wanted(entry[from] == entry[to], scene.suits(step[from], entry[to]))
        })
        .collect();
    let &(from, to) = rng.pick(&pairs)?;
    step[to] = step[from];
    Some(step)
}

/// A number over `count`: the next one half of the time.
pub fn over(count: usize, rng: &mut Rng) -> u8 {
    if rng.chance(50) {
        count as u8 + 1
    } else {
        rng.range(count + 1, 255) as u8
    }
}

/// An object that does not suit a place of this kind.
fn other_kind(place: u8, scene: &Scene<'_>, rng: &mut Rng) -> Option<u8> {
    object_of(scene, rng, |kind| !scene.book.suits(kind, place))
}

/// An object of a kind that this one lies below.
fn kind_above(place: u8, scene: &Scene<'_>, rng: &mut Rng) -> Option<u8> {
    object_of(scene, rng, |kind| kind != place && scene.book.suits(place, kind))
}

/// Any object, from 1, of a kind that is wanted.
fn object_of(scene: &Scene<'_>, rng: &mut Rng, wanted: impl Fn(u8) -> bool) -> Option<u8> {
    let all = (1..).zip(scene.objects);
    let found: Vec<u8> = all.filter(|(_, &kind)| wanted(kind)).map(|(object, _)| object).collect();
    rng.pick(&found).copied()
}

/// Changes one used place; `bytes` has a number first and then the places.
fn spoil_used<const N: usize>(
    mut bytes: [u8; N],
    used: u8,
    rng: &mut Rng,
    wrong: impl Fn(usize, &mut Rng) -> Option<u8>,
) -> Option<[u8; N]> {
    if used == 0 {
        return None;
    }
    let place = rng.range(1, usize::from(used));
    bytes[place] = wrong(place, rng)?;
    Some(bytes)
}

fn spoil_unused<const N: usize>(mut bytes: [u8; N], used: u8, rng: &mut Rng) -> Option<[u8; N]> {
    let first = usize::from(used) + 1;
    if first == N {
        return None;
    }
    bytes[rng.range(first, N - 1)] = if rng.chance(50) { 1 } else { rng.range(1, 255) as u8 };
    Some(bytes)
}
