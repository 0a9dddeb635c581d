//! Short books at the limits of what turns and of what is left, and one beyond.
//!
//! Relations 1 and 2 are over 16 objects of one kind, so there are 512 facts of
//! two objects; relation 3, without places, has one more.

use crate::answer::{Answer, Refusal};
use crate::calls::Form;
use crate::gen::draft::facts::all_facts;
use crate::gen::draft::{put_number, BookDraft, Fact, RecordDraft};
use crate::gen::hall::State;
use crate::gen::rng::Rng;
use crate::limits::{FACT_LIMIT, OBJECT_LIMIT};

type Maker = fn(&mut Rng) -> (Vec<u8>, Answer);

const MAKERS: [(&str, Maker); 17] = [
    ("no turns", |rng| turning(0, 0, rng).good()),
    ("one turn", |rng| turning(0, 1, rng).good()),
    ("512 turns", |rng| turning(256, 256, rng).good()),
    ("513 turns", |rng| {
        let mut case = turning(256, 256, rng);
        case.list().push(LAST);
        case.at_count()
    }),
    ("513 turns, the first wrong", |rng| {
        let mut case = turning(256, 256, rng);
        case.list().push(LAST);
        case.list()[0] = WRONG;
        case.at_count()
    }),
    ("256 turns from none", |rng| from_none(256, rng).good()),
    ("257 turns from none", |rng| from_none(257, rng).at_count()),
    ("512 turns from none", |rng| from_none(512, rng).at_count()),
    ("256 facts left", |rng| leaving(256, rng).good()),
    ("257 facts left", |rng| leaving(257, rng).at_count()),
    ("over 256 facts left", |rng| {
        let left = rng.range(258, 300);
        leaving(left, rng).at_count()
    }),
    ("over 256 facts on the way", |rng| {
        // What is added stands before what is removed.
        let (all, from) = (facts(), FACT_LIMIT);
        let added = rng.range(1, FACT_LIMIT);
        let removed = rng.range(added, FACT_LIMIT);
        let list = [any_of(&all[..from], added, rng), any_of(&all[from..], removed, rng)].concat();
        Turns::new(all[from..].to_vec(), list, rng).good()
    }),
    // Over 256 facts are left by those before the last one.
    ("257 facts left, then a wrong one", |rng| {
        let mut case = leaving(257, rng);
        case.list().push(WRONG);
        case.at_last_fact()
    }),
    ("258 facts left, the last one cut", |rng| {
        let case = leaving(258, rng);
        let cut = rng.range(1, 3);
        case.cut(cut)
    }),
    ("257 facts left, a byte behind", |rng| leaving(257, rng).and_tail()),
    ("257 facts left by a later step", |rng| {
        let mut case = leaving(256, rng);
        let held = case.held();
        let more = facts().into_iter().find(|fact| !held.contains(fact)).expect("512 facts");
        case.step(vec![more]);
        case.at_count()
    }),
    ("256 facts in each record", |rng| {
        let mut case = leaving(256, rng);
        let (first, second) = (case.held(), case.record.clone());
        case.book.records.push(second);
        case.record = RecordDraft {
            objects: vec![1; OBJECT_LIMIT],
            states: vec![first.into_iter().collect(), Vec::new()],
            steps: vec![STEP],
        };
        case.good()
    }),
];

pub const COUNT: usize = MAKERS.len();

/// The case of this number below [`COUNT`], and its name.
pub fn case(index: usize, rng: &mut Rng) -> (&'static str, (Vec<u8>, Answer)) {
    let (what, make) = MAKERS[index];
    (what, make(rng))
}

/// Such a case whose last record is the one added: the old book, the record and the
/// answer to adding it.
pub fn addition(rng: &mut Rng) -> (Vec<u8>, Vec<u8>, Answer) {
    let (_, (book, answer)) = case(rng.below(COUNT), rng);
    let (mut old, mut at) = (book.clone(), front().length());
    for _ in 1..book[7] {
        at += usize::from(book[at + 2]) << 8 | usize::from(book[at + 3]);
    }
    let record = old.split_off(at);
    put_number(&mut old, 6, usize::from(book[7]) - 1);
    put_number(&mut old, 14, at);
    // The places of refusals are in the new book.
    let added = Answer::success(book.len());
    (old, record, if answer.number == 0 { added } else { answer })
}

pub fn names() -> impl Iterator<Item = &'static str> {
    MAKERS.iter().map(|&(what, _)| what)
}

/// Behind all others.
const LAST: Fact = [3, 0, 0];
/// Of no relation, and in order behind all others.
const WRONG: Fact = [4, 0, 0];
const STEP: [u8; 5] = [1, 0, 0, 0, 0];

/// The first sections of such a book.
#[must_use]
pub fn front() -> BookDraft {
    BookDraft {
        form: Form::Short,
        kinds: 1,
        relations: vec![[2, 1, 1, 0], [2, 1, 1, 0], [0; 4]],
        moves: vec![[0; 6]],
        ..BookDraft::default()
    }
}

/// The 512 facts of two objects.
#[must_use]
pub fn facts() -> Vec<Fact> {
    let mut facts = all_facts(&front(), &[1; OBJECT_LIMIT]);
    facts.retain(|&fact| fact != LAST);
    facts
}

/// As many of these facts, in order.
fn any_of(facts: &[Fact], count: usize, rng: &mut Rng) -> Vec<Fact> {
    let mut facts = facts.to_vec();
    rng.shuffle(&mut facts);
    facts.truncate(count);
    facts.sort_unstable();
    facts
}

/// A book whose last record's last list is looked at.
struct Turns {
    book: BookDraft,
    record: RecordDraft,
}

/// From a state of `removed` facts a list that removes these and adds others.
fn turning(removed: usize, added: usize, rng: &mut Rng) -> Turns {
    let state = any_of(&facts(), removed, rng);
    let others: Vec<Fact> = facts().into_iter().filter(|fact| !state.contains(fact)).collect();
    let mut list = [&state[..], &any_of(&others, added, rng)].concat();
    list.sort_unstable();
    Turns::new(state, list, rng)
}

fn from_none(count: usize, rng: &mut Rng) -> Turns {
    Turns::new(Vec::new(), any_of(&facts(), count, rng), rng)
}

/// Leaves as many facts, some of which were there before, and removes some.
fn leaving(count: usize, rng: &mut Rng) -> Turns {
    let state = any_of(&facts(), rng.range(200, FACT_LIMIT), rng);
    let stay = any_of(&state, state.len() - rng.below(40), rng);
    let others: Vec<Fact> = facts().into_iter().filter(|fact| !state.contains(fact)).collect();
    let added = any_of(&others, count - stay.len(), rng);
    let mut list: Vec<Fact> = state.iter().filter(|fact| !stay.contains(fact)).copied().collect();
    list.extend(added);
    list.sort_unstable();
    Turns::new(state, list, rng)
}

impl Turns {
    /// Before the list some steps may turn facts and turn them back.
    fn new(state: Vec<Fact>, list: Vec<Fact>, rng: &mut Rng) -> Self {
        let mut case = Self {
            book: front(),
            record: RecordDraft {
                objects: vec![1; OBJECT_LIMIT],
                states: vec![state],
                steps: Vec::new(),
            },
        };
        if rng.chance(30) {
            // In the record before, the same holds and nothing turns.
            let mut before = case.record.clone();
            before.steps.push(STEP);
            before.states.push(Vec::new());
            case.book.records.push(before);
        }
        if rng.chance(50) {
            let some = rng.below(case.record.states[0].len() + 1);
            let turned = any_of(&case.record.states[0], some, rng);
            case.step(turned.clone());
            case.step(turned);
        }
        case.step(list);
        case
    }

    fn step(&mut self, list: Vec<Fact>) {
        self.record.steps.push(STEP);
        self.record.states.push(list);
    }

    fn list(&mut self) -> &mut Vec<Fact> {
        self.record.states.last_mut().expect("a record has a state")
    }

    /// What holds at the end.
    fn held(&self) -> State {
        let set = |list: &Vec<Fact>| list.iter().copied().collect::<State>();
        self.record.states.iter().map(set).fold(State::new(), |held, list| &held ^ &list)
    }

    fn draft(&self) -> BookDraft {
        let mut draft = self.book.clone();
        draft.records.push(self.record.clone());
        draft
    }

    fn good(&self) -> (Vec<u8>, Answer) {
        let draft = self.draft();
        debug_assert!(self.held().len() <= FACT_LIMIT);
        (draft.bytes(), Answer::success(draft.steps()))
    }

    /// Where the count of the last list stands.
    fn count_at(&self) -> usize {
        let layout = self.draft().layout();
        *layout.records.last().and_then(|record| record.states.last()).expect("a record")
    }

    fn at_count(&self) -> (Vec<u8>, Answer) {
        (self.draft().bytes(), Refusal::State.at(self.count_at()))
    }

    fn at_last_fact(&self) -> (Vec<u8>, Answer) {
        let bytes = self.draft().bytes();
        let place = bytes.len() - 3;
        (bytes, Refusal::State.at(place))
    }

    /// Without the last bytes of the last fact.
    fn cut(&self, count: usize) -> (Vec<u8>, Answer) {
        let (mut bytes, answer) = self.at_last_fact();
        bytes.truncate(bytes.len() - count);
        self.renew(&mut bytes);
        (bytes, answer)
    }

    /// With a byte left in the record, which is met later.
    fn and_tail(&self) -> (Vec<u8>, Answer) {
        let (mut bytes, answer) = self.at_count();
        bytes.push(0);
        self.renew(&mut bytes);
        (bytes, answer)
    }

    /// The record's length and the book's end.
    fn renew(&self, bytes: &mut [u8]) {
        let (end, at) = (bytes.len(), self.book.length());
        put_number(bytes, at + 2, end - at);
        put_number(bytes, 14, end);
    }
}
