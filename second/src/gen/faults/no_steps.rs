//! Records without steps: row 24, and where it stands. Row 6 of the head comes before
//! it, and all that lies behind the head after it.

use super::records::{renew_end, site, Site};
use super::spoil::over;
use crate::answer::Refusal;
use crate::gen::aim::{Aim, Hit};
use crate::gen::draft::{put_number, BookDraft};
use crate::gen::rng::Rng;
use crate::limits::HEAD_LENGTH;

type Spoil = fn(Site<'_>, usize, &mut Rng) -> Option<Hit>;

/// What stands behind the head is not looked at any more.
const MET: [(&str, Spoil); 6] = [
    ("step count 0, its steps left in", |site, at, _| site.hit(at)),
    ("no step filed", |site, at, rng| {
        let end = site.layout.steps[0];
        shortened(site, at, end, rng)
    }),
    ("no step filed, the head alone", |site, at, rng| shortened(site, at, at + HEAD_LENGTH, rng)),
    ("step count 0, and an object wrong", |mut site, at, rng| {
        let count = site.record.objects.len();
        let object = (count > 0).then(|| rng.below(count))?;
        site.bytes[site.layout.objects + object] = if rng.chance(50) { 0 } else { over(8, rng) };
        site.hit(at)
    }),
    ("step count 0, and an object or a state cut", |mut site, at, rng| {
        let end = rng.range(at + HEAD_LENGTH, site.layout.steps[0] - 1);
        site.end_record(end);
        site.hit(at)
    }),
    ("step count 0, and a count over 256", |mut site, at, rng| {
        let count_at = site.layout.states[0];
        put_number(&mut site.bytes, count_at, rng.range(257, 0xffff));
        site.hit(at)
    }),
];

/// Row 6 of the head is met first.
const NOT_MET: [(&str, Spoil); 4] = [
    ("cut, step count 0", |mut site, at, rng| {
        site.bytes.truncate(at + rng.range(2, 3));
        renew_end(&mut site.bytes);
        site.hit(at)
    }),
    ("objects over 16, step count 0", |mut site, at, rng| {
        site.bytes[at] = over(16, rng);
        site.hit(at)
    }),
    ("length under 4, step count 0", |mut site, at, rng| {
        put_number(&mut site.bytes, at + 2, rng.below(4));
        site.hit(at)
    }),
    ("length past the end, step count 0", |mut site, at, rng| {
        let room = site.bytes.len() - at;
        let length = if rng.chance(50) { room + 1 } else { rng.range(room + 1, 0xffff) };
        put_number(&mut site.bytes, at + 2, length);
        site.hit(at)
    }),
];

pub fn aims() -> Vec<Aim<BookDraft>> {
    let met = MET.map(|(what, spoil)| (what, Refusal::NoSteps, spoil));
    let not_met = NOT_MET.map(|(what, spoil)| (what, Refusal::Record, spoil));
    met.into_iter().chain(not_met).map(|(what, refusal, spoil)| aim(what, refusal, spoil)).collect()
}

/// Each is put into a record whose step count is 0.
fn aim(what: &'static str, refusal: Refusal, spoil: Spoil) -> Aim<BookDraft> {
    Aim::new("head", what, refusal, move |draft: &BookDraft, rng: &mut Rng| {
        let mut site = site(draft, rng)?;
        let at = site.layout.at;
        site.bytes[at + 1] = 0;
        spoil(site, at, rng)
    })
}

/// The record ends at `end`, and with it the book's bytes of it; now and then some are
/// left in the record, which its tail would tell.
fn shortened(mut site: Site<'_>, at: usize, end: usize, rng: &mut Rng) -> Option<Hit> {
    let left = if rng.chance(70) { 0 } else { rng.range(0, site.layout.end - end) };
    site.bytes.drain(end + left..site.layout.end);
    site.end_record(end + left);
    renew_end(&mut site.bytes);
    site.hit(at)
}
