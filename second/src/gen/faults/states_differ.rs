//! Steps that did not go, with a state after them that is not the one before: row 27, and
//! where it stands. Row 8 of that state comes before it, all that lies behind it after it.

use super::records::renew_end;
use crate::answer::Refusal;
use crate::calls::Form;
use crate::gen::aim::{Aim, Hit};
use crate::gen::draft::facts::all_facts;
use crate::gen::draft::{not_gone, put_number, BookDraft, Fact, RecordDraft, RecordLayout};
use crate::gen::hall::State;
use crate::gen::rng::Rng;
use crate::limits::{FACT_LIMIT, STEP_LIMIT};

/// Makes the state after the step of the one before it; all facts of the hall are given.
type Differ = fn(&mut State, &[Fact], &mut Rng) -> Option<()>;

const STATES: [(&str, Differ); 4] = [
    ("one fact more after it", add),
    ("one fact fewer after it", remove),
    ("another fact for one after it", |state, all, rng| {
        // The one removed must not be drawn again.
        let other = *rng.pick(&beside(state, all))?;
        remove(state, all, rng)?;
        state.insert(other);
        Some(())
    }),
    ("no fact after it", |state, _, _| (state.len() > 1).then(|| state.clear())),
];

/// Those of the facts that do not hold.
fn beside(state: &State, all: &[Fact]) -> Vec<Fact> {
    all.iter().filter(|fact| !state.contains(*fact)).copied().collect()
}

fn add(state: &mut State, all: &[Fact], rng: &mut Rng) -> Option<()> {
    let fact = *rng.pick(&beside(state, all))?;
    (state.len() < FACT_LIMIT && state.insert(fact)).then_some(())
}

fn remove(state: &mut State, _: &[Fact], rng: &mut Rng) -> Option<()> {
    let held: Vec<Fact> = state.iter().copied().collect();
    state.remove(rng.pick(&held)?).then_some(())
}

/// Where in its record the step is put, by the number of states.
type Position = fn(usize, &mut Rng) -> usize;

const ANYWHERE: Position = |states, rng| rng.below(states);

/// Puts another fault behind the state after the step of this index.
type Spoil = fn(&mut Vec<u8>, &RecordLayout, usize, &mut Rng) -> Option<()>;

pub fn aims() -> Vec<Aim<BookDraft>> {
    let mut aims: Vec<Aim<BookDraft>> =
        STATES.into_iter().map(|(what, differ)| differing(what, ANYWHERE, differ)).collect();
    aims.push(differing("the first of its record, a fact more", |_, _| 0, add));
    aims.push(differing("the last of its record, a fact fewer", |states, _| states - 1, remove));
    aims.push(Aim::new(PART, "a step that changed something", Refusal::StatesDiffer, marked));
    aims.extend(BEHIND.map(|(what, spoil)| {
        Aim::new(PART, what, Refusal::StatesDiffer, move |draft: &BookDraft, rng: &mut Rng| {
            let Put { draft, record, index } = put(draft, ANYWHERE, add, rng)?;
            let (mut bytes, layout) = (draft.bytes(), draft.layout().records.swap_remove(record));
            spoil(&mut bytes, &layout, index, rng)?;
            Some(Hit { bytes, place: layout.steps[index] })
        })
    }));
    aims.push(Aim::new(PART, "one fact more after it, and wrong", Refusal::State, wrong_fact));
    aims
}

const PART: &str = "step that did not go";

fn differing(what: &'static str, position: Position, differ: Differ) -> Aim<BookDraft> {
    Aim::new(PART, what, Refusal::StatesDiffer, move |draft: &BookDraft, rng: &mut Rng| {
        Some(put(draft, position, differ, rng)?.hit())
    })
}

/// A draft with a step that did not go: that of this index in the record.
struct Put {
    draft: BookDraft,
    record: usize,
    index: usize,
}

impl Put {
    fn hit(&self) -> Hit {
        let place = self.draft.layout().records[self.record].steps[self.index];
        Hit { bytes: self.draft.bytes(), place }
    }
}

/// Puts one of a record's steps into it once more, as one that did not go.
fn put(draft: &BookDraft, position: Position, differ: Differ, rng: &mut Rng) -> Option<Put> {
    let record = (!draft.records.is_empty()).then(|| rng.below(draft.records.len()))?;
    let full = draft.in_form(Form::Full);
    let RecordDraft { objects, states, steps } = &full.records[record];
    if steps.len() == STEP_LIMIT {
        return None;
    }
    let index = position(states.len(), rng);
    let before: State = states[index].iter().copied().collect();
    let mut after = before.clone();
    differ(&mut after, &all_facts(draft, objects), rng)?;
    let list = if draft.form == Form::Full { after } else { &before ^ &after };
    let step = not_gone(*rng.pick(steps)?);
    let mut draft = draft.clone();
    draft.records[record].steps.insert(index, step);
    draft.records[record].states.insert(index + 1, list.into_iter().collect());
    Some(Put { draft, record, index })
}

/// A step that changed something, filed as one that did not go.
fn marked(draft: &BookDraft, rng: &mut Rng) -> Option<Hit> {
    let record = (!draft.records.is_empty()).then(|| rng.below(draft.records.len()))?;
    let full = &draft.in_form(Form::Full).records[record];
    let index = rng.below(full.steps.len());
    if full.states[index] == full.states[index + 1] {
        return None;
    }
    let mut draft = draft.clone();
    let step = &mut draft.records[record].steps[index];
    *step = not_gone(*step);
    Some(Put { draft, record, index }.hit())
}

/// What is met only behind the state after the step.
const BEHIND: [(&str, Spoil); 3] = [
    ("a fact more after it, and the next step of no move", |bytes, layout, index, _| {
        bytes[*layout.steps.get(index + 1)?] = 0;
        Some(())
    }),
    ("a fact more after it, and a byte left in the record", |bytes, layout, _, rng| {
        bytes.insert(layout.end, rng.byte());
        put_number(bytes, layout.at + 2, layout.end + 1 - layout.at);
        renew_end(bytes);
        Some(())
    }),
    ("a fact more after it, and the next record's head wrong", |bytes, layout, _, _| {
        *bytes.get_mut(layout.end)? = 17;
        Some(())
    }),
];

/// Row 8 of the state after the step comes first.
fn wrong_fact(draft: &BookDraft, rng: &mut Rng) -> Option<Hit> {
    let Put { mut draft, record, index } = put(draft, ANYWHERE, add, rng)?;
    let list = &mut draft.records[record].states[index + 1];
    let fact = rng.below(list.len());
    list[fact][0] = 17;
    let place = draft.layout().records[record].states[index + 1] + 2 + 3 * fact;
    Some(Hit { bytes: draft.bytes(), place })
}
