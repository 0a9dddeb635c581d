//! Faults in records and behind them: rows 6 to 10. Those of row 6 are in
//! `head_and_tail`, those of row 24 in `no_steps`, those of row 27 in `states_differ`.

use super::spoil::{over, Scene, FACT_FAULTS, STEP_FAULTS, TWICE_FAULTS};
use super::{head_and_tail, no_steps, states_differ};
use crate::answer::Refusal;
use crate::calls::Form;
use crate::gen::aim::{Aim, Hit};
use crate::gen::draft::{put_number, BookDraft, Fact, RecordDraft, RecordLayout};
use crate::gen::rng::Rng;

/// For drafts of this form.
pub fn aims(form: Form) -> Vec<Aim<BookDraft>> {
    let mut aims = head_and_tail::aims();
    aims.extend(no_steps::aims());
    aims.extend(objects());
    aims.extend(states(form));
    aims.extend(steps());
    aims.extend(states_differ::aims());
    aims
}

/// A record drawn from a draft, with the whole book's bytes to be changed.
pub(super) struct Site<'a> {
    pub(super) record: &'a RecordDraft,
    pub(super) layout: RecordLayout,
    pub(super) last: bool,
    pub(super) bytes: Vec<u8>,
}

pub(super) fn site<'a>(draft: &'a BookDraft, rng: &mut Rng) -> Option<Site<'a>> {
    let index = (!draft.records.is_empty()).then(|| rng.below(draft.records.len()))?;
    Some(Site {
        record: &draft.records[index],
        layout: draft.layout().records.swap_remove(index),
        last: index + 1 == draft.records.len(),
        bytes: draft.bytes(),
    })
}

impl Site<'_> {
    pub(super) fn hit(self, place: usize) -> Option<Hit> {
        Some(Hit { bytes: self.bytes, place })
    }

    /// Lets the record end at `end`, by its head alone; what follows in the
    /// book is reached only after the cut has been met.
    pub(super) fn end_record(&mut self, end: usize) {
        put_number(&mut self.bytes, self.layout.at + 2, end - self.layout.at);
    }
}

pub(super) fn renew_end(bytes: &mut [u8]) {
    let end = bytes.len();
    put_number(bytes, 14, end);
}

fn objects() -> Vec<Aim<BookDraft>> {
    let aim = |what, make: fn(Site<'_>, usize, usize, &mut Rng) -> Option<Hit>| {
        Aim::new("object", what, Refusal::Object, move |draft: &BookDraft, rng: &mut Rng| {
            let site = site(draft, rng)?;
            let count = site.record.objects.len();
            let index = (count > 0).then(|| rng.below(count))?;
            make(site, index, draft.kinds, rng)
        })
    };
    vec![
        aim("cut", |mut site, index, _, _| {
            let place = site.layout.objects + index;
            site.end_record(place);
            site.hit(place)
        }),
        aim("kind 0", |mut site, index, _, _| {
            let place = site.layout.objects + index;
            site.bytes[place] = 0;
            site.hit(place)
        }),
        aim("kind over the count", |mut site, index, kinds, rng| {
            let place = site.layout.objects + index;
            site.bytes[place] = over(kinds, rng);
            site.hit(place)
        }),
    ]
}

/// A state of the record, by its number, and a fact of it, by its number.
fn fact_site<'a>(draft: &'a BookDraft, rng: &mut Rng) -> Option<(Site<'a>, usize, usize)> {
    let site = site(draft, rng)?;
    let state = rng.below(site.record.states.len());
    let facts = site.record.states[state].len();
    let fact = (facts > 0).then(|| rng.below(facts))?;
    Some((site, state, fact))
}

fn put_fact(mut site: Site<'_>, state: usize, index: usize, fact: Fact) -> Option<Hit> {
    let place = site.layout.states[state] + 2 + 3 * index;
    site.bytes[place..place + 3].copy_from_slice(&fact);
    site.hit(place)
}

/// The count of one of a record's states that are wanted, by their number from 0.
fn count_over(what: &'static str, wanted: fn(&usize) -> bool) -> Aim<BookDraft> {
    Aim::new("state", what, Refusal::State, move |draft: &BookDraft, rng: &mut Rng| {
        let mut site = site(draft, rng)?;
        let states: Vec<usize> = (0..site.layout.states.len()).filter(wanted).collect();
        let state = *rng.pick(&states)?;
        let (place, over) = (site.layout.states[state], draft.list_limit(state) + 1);
        let count = if rng.chance(50) { over } else { rng.range(over, 0xffff) };
        put_number(&mut site.bytes, place, count);
        site.hit(place)
    })
}

fn states(form: Form) -> Vec<Aim<BookDraft>> {
    let mut aims =
        vec![Aim::new("state", "count cut", Refusal::State, |draft: &BookDraft, rng| {
            let mut site = site(draft, rng)?;
            let place = *rng.pick(&site.layout.states)?;
            site.end_record(place + rng.below(2));
            site.hit(place)
        })];
    match form {
        Form::Full => aims.push(count_over("count over 256", |_| true)),
        Form::Short => aims.extend([
            count_over("count over 256", |&state| state == 0),
            count_over("turns over 512", |&state| state > 0),
        ]),
    }
    aims.extend(lists());
    aims.extend(FACT_FAULTS.into_iter().map(|(what, spoil)| {
        Aim::new("state", what, Refusal::State, move |draft: &BookDraft, rng: &mut Rng| {
            let (site, state, index) = fact_site(draft, rng)?;
            let scene = scene(draft, site.record);
            let fact = spoil(site.record.states[state][index], &scene, rng)?;
            put_fact(site, state, index, fact)
        })
    }));
    aims
}

/// A list of facts that is cut or out of order.
fn lists() -> Vec<Aim<BookDraft>> {
    vec![
        Aim::new("state", "fact cut by the length", Refusal::State, |draft: &BookDraft, rng| {
            let (mut site, state, fact) = fact_site(draft, rng)?;
            let place = site.layout.states[state] + 2 + 3 * fact;
            site.end_record(place + rng.below(3));
            site.hit(place)
        }),
        Aim::new("state", "fact cut by the count", Refusal::State, |draft: &BookDraft, rng| {
            let mut site = site(draft, rng)?;
            let state = site.record.states.last()?;
            let at = *site.layout.states.last()?;
            let limit = draft.list_limit(site.record.steps.len());
            if state.len() == limit {
                return None;
            }
            put_number(&mut site.bytes, at, rng.range(state.len() + 1, limit));
            let place = site.layout.end;
            site.hit(place)
        }),
        Aim::new("state", "facts equal", Refusal::State, |draft: &BookDraft, rng| {
            let (site, state, fact) = fact_site(draft, rng)?;
            let before = site.record.states[state][fact.checked_sub(1)?];
            put_fact(site, state, fact, before)
        }),
        Aim::new("state", "facts decrease", Refusal::State, |draft: &BookDraft, rng| {
            let (mut site, state, fact) = fact_site(draft, rng)?;
            let facts = &site.record.states[state];
            let (before, here) = (facts[fact.checked_sub(1)?], facts[fact]);
            let earlier = site.layout.states[state] + 2 + 3 * (fact - 1);
            site.bytes[earlier..earlier + 3].copy_from_slice(&here);
            put_fact(site, state, fact, before)
        }),
    ]
}

fn scene<'a>(draft: &'a BookDraft, record: &'a RecordDraft) -> Scene<'a> {
    Scene { book: draft, objects: &record.objects }
}

fn steps() -> Vec<Aim<BookDraft>> {
    let mut aims = vec![Aim::new("step", "cut", Refusal::Step, |draft: &BookDraft, rng| {
        let mut site = site(draft, rng)?;
        let place = *rng.pick(&site.layout.steps)?;
        site.end_record(place + rng.below(5));
        site.hit(place)
    })];
    let spoils = STEP_FAULTS.map(|(what, spoil)| (what, Refusal::Step, spoil));
    let twice = TWICE_FAULTS.map(|(what, spoil)| (what, Refusal::ObjectTwice, spoil));
    aims.extend(spoils.into_iter().chain(twice).map(|(what, refusal, spoil)| {
        Aim::new("step", what, refusal, move |draft: &BookDraft, rng: &mut Rng| {
            let mut site = site(draft, rng)?;
            let count = site.record.steps.len();
            let index = (count > 0).then(|| rng.below(count))?;
            let step = spoil(site.record.steps[index], &scene(draft, site.record), rng)?;
            let place = site.layout.steps[index];
            site.bytes[place..place + 5].copy_from_slice(&step);
            site.hit(place)
        })
    }));
    aims
}
