//! Faults in the kinds' parents, row 21, and in where they make the relations
//! begin, row 3.

use super::spoil::over;
use crate::answer::Refusal;
use crate::gen::aim::{Aim, Hit};
use crate::gen::draft::{put_number, BookDraft};
use crate::gen::rng::Rng;
use crate::limits::KIND_LIMIT;

pub fn aims() -> Vec<Aim<BookDraft>> {
    let mut aims = offsets();
    aims.extend(parents());
    aims.extend(before_others());
    aims
}

/// Row 3 by where the relations begin.
fn offsets() -> Vec<Aim<BookDraft>> {
    vec![
        laid_out("fewer parents than kinds", |kinds, rng| {
            (kinds > 1).then(|| rng.range(1, kinds - 1))
        }),
        laid_out("more parents than kinds", |kinds, rng| {
            let more = if rng.chance(50) { 1 } else { rng.range(1, 2 * KIND_LIMIT) };
            Some(kinds + more)
        }),
        others_at("moves and records as without parents", |draft| -(draft.parents.len() as isize)),
        others_at("moves and records one further", |_| 1),
        Aim::new("header", "relations at 15", Refusal::HeaderOffsets, |draft: &BookDraft, _| {
            let mut bytes = BookDraft { parents: Vec::new(), ..draft.clone() }.bytes();
            for field in 4..=6 {
                let right = u16::from_be_bytes([bytes[2 * field], bytes[2 * field + 1]]);
                put_number(&mut bytes, 2 * field, usize::from(right) - 1);
            }
            Some(Hit { bytes, place: 0 })
        }),
    ]
}

/// The sections touch, but begin behind another number of parents.
fn laid_out(what: &'static str, count: fn(usize, &mut Rng) -> Option<usize>) -> Aim<BookDraft> {
    Aim::new("header", what, Refusal::HeaderOffsets, move |draft: &BookDraft, rng: &mut Rng| {
        let count = count(draft.kinds, rng)?;
        // Good parents as far as there are kinds.
        let mut parents = draft.parents.clone();
        parents.resize(count, 0);
        let bytes = BookDraft { parents, ..draft.clone() }.bytes();
        Some(Hit { bytes, place: 0 })
    })
}

/// Moves and records do not begin where the relations end.
fn others_at(what: &'static str, shift: fn(&BookDraft) -> isize) -> Aim<BookDraft> {
    Aim::new("header", what, Refusal::HeaderOffsets, move |draft: &BookDraft, _: &mut Rng| {
        let mut bytes = draft.bytes();
        if draft.parents.is_empty() {
            return None;
        }
        let layout = draft.layout();
        for (field, at) in [(5, layout.moves), (6, layout.records_at)] {
            put_number(&mut bytes, 2 * field, at.wrapping_add_signed(shift(draft)));
        }
        Some(Hit { bytes, place: 0 })
    })
}

/// One parent that is not smaller than its kind, at any kind.
fn parents() -> Vec<Aim<BookDraft>> {
    let aim = |what, wrong: fn(usize, usize, &mut Rng) -> Option<u8>| {
        Aim::new("parent", what, Refusal::Parent, move |draft: &BookDraft, rng: &mut Rng| {
            let (mut bytes, kind) = parent_site(draft, rng)?;
            bytes[15 + kind] = wrong(kind, draft.kinds, rng)?;
            Some(Hit { bytes, place: 15 + kind })
        })
    };
    vec![
        aim("its own kind", |kind, _, _| Some(kind as u8)),
        aim("a greater kind", |kind, kinds, rng| {
            (kind < kinds).then(|| rng.range(kind + 1, kinds) as u8)
        }),
        aim("no kind of the book", |_, kinds, rng| Some(over(kinds, rng))),
        aim("255", |_, _, _| Some(255)),
        Aim::new("parent", "the first of several", Refusal::Parent, |draft: &BookDraft, rng| {
            let (mut bytes, kind) = parent_site(draft, rng)?;
            if kind == draft.kinds {
                return None;
            }
            for wrong in kind..=draft.kinds {
                bytes[15 + wrong] = over(wrong - 1, rng);
            }
            Some(Hit { bytes, place: 15 + kind })
        }),
    ]
}

/// A wrong parent with a fault of the row before or behind.
fn before_others() -> Vec<Aim<BookDraft>> {
    vec![
        Aim::new(
            "header",
            "an offset wrong, and a parent",
            Refusal::HeaderOffsets,
            |draft: &BookDraft, rng| {
                let (mut bytes, kind) = parent_site(draft, rng)?;
                bytes[15 + kind] = over(kind - 1, rng);
                bytes[9 + 2 * rng.below(4)] ^= 1;
                Some(Hit { bytes, place: 0 })
            },
        ),
        Aim::new("parent", "wrong, and a relation", Refusal::Parent, |draft: &BookDraft, rng| {
            let (mut bytes, kind) = parent_site(draft, rng)?;
            bytes[15 + kind] = over(kind - 1, rng);
            let relation =
                (!draft.relations.is_empty()).then(|| rng.below(draft.relations.len()))?;
            bytes[draft.layout().relations + 4 * relation] = over(2, rng);
            Some(Hit { bytes, place: 15 + kind })
        }),
    ]
}

/// The book's bytes and a kind whose parent, at 15 + kind, is to be changed.
fn parent_site(draft: &BookDraft, rng: &mut Rng) -> Option<(Vec<u8>, usize)> {
    let kind = (!draft.parents.is_empty()).then(|| rng.range(1, draft.parents.len()))?;
    Some((draft.bytes(), kind))
}
