//! Faults in a record's head, behind a record and behind the last of a book: row 6.

use super::records::{renew_end, site, Site};
use super::spoil::over;
use crate::answer::Refusal;
use crate::gen::aim::{Aim, Hit};
use crate::gen::draft::{put_number, BookDraft};
use crate::gen::rng::Rng;

pub fn aims() -> Vec<Aim<BookDraft>> {
    let mut aims = heads_missing();
    aims.extend(HEAD_NUMBERS.map(|(what, spoil)| of_record("head", what, spoil)));
    aims.extend(RECORD_TAILS.map(|(what, spoil)| of_record("tail", what, spoil)));
    aims.extend(book_tails());
    aims
}

type Spoil = fn(Site<'_>, &mut Rng) -> Option<Hit>;

/// A fault in a record drawn from the draft.
fn of_record(part: &'static str, what: &'static str, spoil: Spoil) -> Aim<BookDraft> {
    Aim::new(part, what, Refusal::Record, move |draft: &BookDraft, rng: &mut Rng| {
        spoil(site(draft, rng)?, rng)
    })
}

/// A head of which some bytes or all are not there.
fn heads_missing() -> Vec<Aim<BookDraft>> {
    vec![
        of_record("head", "cut", |mut site, rng| {
            let at = site.layout.at;
            site.bytes.truncate(at + rng.range(1, 3));
            renew_end(&mut site.bytes);
            site.hit(at)
        }),
        Aim::new("head", "more announced than filed", Refusal::Record, |draft: &BookDraft, rng| {
            let records = draft.records.len();
            if records == 0 {
                return None;
            }
            let mut bytes = draft.bytes();
            put_number(&mut bytes, 6, rng.range(records + 1, 64));
            let place = bytes.len();
            Some(Hit { bytes, place })
        }),
        Aim::new("head", "records offset is the end", Refusal::Record, |draft: &BookDraft, rng| {
            let mut bytes = draft.bytes();
            bytes.truncate(draft.front_length());
            renew_end(&mut bytes);
            put_number(&mut bytes, 6, rng.range(1, 64));
            let place = bytes.len();
            Some(Hit { bytes, place })
        }),
    ]
}

/// A count or the length that a head gives.
const HEAD_NUMBERS: [(&str, Spoil); 4] = [
    ("objects over 16", |mut site, rng| {
        let at = site.layout.at;
        site.bytes[at] = over(16, rng);
        site.hit(at)
    }),
    ("steps over 64", |mut site, rng| {
        let at = site.layout.at;
        site.bytes[at + 1] = over(64, rng);
        site.hit(at)
    }),
    ("length under 4", |mut site, rng| {
        let at = site.layout.at;
        put_number(&mut site.bytes, at + 2, rng.below(4));
        site.hit(at)
    }),
    ("length past the end", |mut site, rng| {
        let (at, room) = (site.layout.at, site.bytes.len() - site.layout.at);
        let length = if rng.chance(50) { room + 1 } else { rng.range(room + 1, 0xffff) };
        put_number(&mut site.bytes, at + 2, length);
        site.hit(at)
    }),
];

/// The record's length reaches behind its last state.
const RECORD_TAILS: [(&str, Spoil); 2] = [
    ("of a record, bytes put in", |mut site, rng| {
        let (at, end) = (site.layout.at, site.layout.end);
        let more = insert_random(&mut site.bytes, end, rng);
        site.end_record(end + more);
        site.hit(at)
    }),
    ("of a record, the next one taken in", |mut site, rng| {
        let (at, end) = (site.layout.at, site.layout.end);
        if site.last {
            return None;
        }
        let longer = rng.range(end + 1, site.bytes.len());
        site.end_record(longer);
        site.hit(at)
    }),
];

/// The book's end lies behind the last record that is announced.
fn book_tails() -> [Aim<BookDraft>; 2] {
    let aim = |what, make: fn(&BookDraft, &mut Rng) -> Option<Hit>| {
        Aim::new("tail", what, Refusal::Record, make)
    };
    [
        aim("of a book, bytes put behind", |draft, rng| {
            let mut bytes = draft.bytes();
            let place = bytes.len();
            insert_random(&mut bytes, place, rng);
            Some(Hit { bytes, place })
        }),
        aim("of a book, fewer announced", |draft, rng| {
            let index = (!draft.records.is_empty()).then(|| rng.below(draft.records.len()))?;
            let mut bytes = draft.bytes();
            put_number(&mut bytes, 6, index);
            Some(Hit { bytes, place: draft.layout().records[index].at })
        }),
    ]
}

fn insert_random(bytes: &mut Vec<u8>, at: usize, rng: &mut Rng) -> usize {
    let count = rng.range(1, 7);
    let new: Vec<u8> = (0..count).map(|_| if rng.chance(50) { 0 } else { rng.byte() }).collect();
    bytes.splice(at..at, new);
    renew_end(bytes);
    count
}
