//! Faults in a book's length, header, relations and moves: rows 1 to 5. Those of
//! the parents, row 21 and their part of row 3, are in `parents`.

use super::parents;
use super::spoil::over;
use crate::answer::Refusal;
use crate::gen::aim::{Aim, Hit};
use crate::gen::draft::{put_number, BookDraft};
use crate::gen::extreme::fullbook;
use crate::gen::rng::Rng;
use crate::limits::{KIND_LIMIT, MOVE_LIMIT, RECORD_LIMIT, RELATION_LIMIT};

pub fn aims() -> Vec<Aim<BookDraft>> {
    let mut aims = lengths();
    aims.extend(counts());
    aims.extend(offsets());
    aims.extend(parents::aims());
    aims.extend(section_aims("relation", Refusal::Relation, 16, |draft| Entries {
        bytes: draft.relations.iter().map(|entry| entry.to_vec()).collect(),
        at: draft.layout().relations,
    }));
    aims.extend(section_aims("move", Refusal::Move, 32, |draft| Entries {
        bytes: draft.moves.iter().map(|entry| entry.to_vec()).collect(),
        at: draft.layout().moves,
    }));
    aims
}

/// Row 1.
fn lengths() -> Vec<Aim<BookDraft>> {
    vec![
        Aim::new("length", "under 16", Refusal::Length, |draft: &BookDraft, rng| {
            let mut bytes = draft.bytes();
            bytes.truncate(rng.below(16));
            Some(Hit { bytes, place: 0 })
        }),
        Aim::new("length", "over 60,000", Refusal::Length, |draft: &BookDraft, rng| {
            let length = if rng.chance(60) { 60_001 } else { rng.range(60_002, 70_000) };
            if rng.chance(30) {
                return Some(Hit { bytes: fullbook::of_length(length.min(65_000), rng), place: 0 });
            }
            let mut bytes = draft.bytes();
            bytes.resize(length, 0);
            put_number(&mut bytes, 14, length);
            Some(Hit { bytes, place: 0 })
        }),
    ]
}

/// Row 2.
fn counts() -> Vec<Aim<BookDraft>> {
    let count = |what, field: usize, limit: usize| {
        Aim::new("header", what, Refusal::HeaderCounts, move |draft: &BookDraft, rng: &mut Rng| {
            let mut bytes = draft.bytes();
            let wrong = if rng.chance(50) { limit + 1 } else { rng.range(limit + 1, 0xffff) };
            put_number(&mut bytes, 2 * field, wrong);
            Some(Hit { bytes, place: 0 })
        })
    };
    vec![
        count("kinds over 8", 0, KIND_LIMIT),
        count("relations over 16", 1, RELATION_LIMIT),
        count("moves over 32", 2, MOVE_LIMIT),
        count("records over 64", 3, RECORD_LIMIT),
    ]
}

/// Row 3.
fn offsets() -> Vec<Aim<BookDraft>> {
    let offset = |what, field: usize| {
        Aim::new("header", what, Refusal::HeaderOffsets, move |draft: &BookDraft, rng: &mut Rng| {
            let mut bytes = draft.bytes();
            let right = usize::from(u16::from_be_bytes([bytes[2 * field], bytes[2 * field + 1]]));
            let wrong = *rng.pick(&[right + 1, right - 1, right ^ 0x100, 0, 0xffff])?;
            put_number(&mut bytes, 2 * field, wrong);
            Some(Hit { bytes, place: 0 })
        })
    };
    vec![
        offset("relations offset wrong", 4),
        offset("moves offset wrong", 5),
        offset("records offset wrong", 6),
        offset("end wrong", 7),
        Aim::new(
            "header",
            "records past the end",
            Refusal::HeaderOffsets,
            |draft: &BookDraft, rng| {
                if draft.front_length() == 16 {
                    return None;
                }
                let mut bytes = draft.bytes();
                bytes.truncate(rng.range(16, draft.front_length() - 1));
                let end = bytes.len();
                put_number(&mut bytes, 14, end);
                Some(Hit { bytes, place: 0 })
            },
        ),
    ]
}

/// The relations or the moves of a draft, and where they begin.
struct Entries {
    bytes: Vec<Vec<u8>>,
    at: usize,
}

type Spoil = fn(&mut [u8], usize, &mut Rng) -> Option<()>;

const ENTRY_FAULTS: [(&str, Spoil); 6] = [
    ("count over the limit", |entry, _, rng| {
        entry[0] = over(entry.len() - 2, rng);
        Some(())
    }),
    ("one kind too many", |entry, kinds, rng| {
        if kinds == 0 {
            return None;
        }
        entry[0] = entry.len() as u8 - 1;
        entry[1..].fill_with(|| rng.range(1, kinds) as u8);
        Some(())
    }),
    ("used kind 0", |entry, _, rng| {
        let used = usize::from(entry[0]);
        *entry[1..=used].get_mut(rng.below(used.max(1)))? = 0;
        Some(())
    }),
    ("kind over the count", |entry, kinds, rng| {
        let used = usize::from(entry[0]);
        *entry[1..=used].get_mut(rng.below(used.max(1)))? = over(kinds, rng);
        Some(())
    }),
    ("unused kind not 0", |entry, _, rng| {
        let (used, last) = (usize::from(entry[0]), entry.len() - 2);
        if used == last {
            return None;
        }
        entry[rng.range(used + 1, last)] = if rng.chance(50) { 1 } else { rng.range(1, 255) as u8 };
        Some(())
    }),
    ("zero byte not 0", |entry, _, rng| {
        *entry.last_mut()? = if rng.chance(50) { 1 } else { rng.range(1, 255) as u8 };
        Some(())
    }),
];

fn section_aims(
    part: &'static str,
    refusal: Refusal,
    most: usize,
    entries: fn(&BookDraft) -> Entries,
) -> impl Iterator<Item = Aim<BookDraft>> {
    ENTRY_FAULTS.into_iter().map(move |(what, spoil)| {
        Aim::new(part, what, refusal, move |draft: &BookDraft, rng: &mut Rng| {
            let Entries { bytes: mut all, at } = entries(draft);
            debug_assert!(all.len() <= most);
            let index = (!all.is_empty()).then(|| rng.below(all.len()))?;
            spoil(&mut all[index], draft.kinds, rng)?;
            let place = at + index * all[index].len();
            let mut bytes = draft.bytes();
            bytes[place..place + all[index].len()].copy_from_slice(&all[index]);
            Some(Hit { bytes, place })
        })
    })
}
