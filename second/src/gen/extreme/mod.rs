//! Books at a limit and one beyond it, complete in everything else.

pub mod fullbook;
pub mod turns;

use super::aim::Label;
use super::draft::twin::told;
use super::draft::{BookDraft, Fact, RecordDraft};
use super::rng::Rng;
use super::BookCase;
use crate::answer::{Answer, Refusal};
use crate::calls::Form;

/// Each maker gives a book and the answer that it must get.
type Maker = fn(&mut Rng) -> (Vec<u8>, Answer);

/// Their answers are the same in either form: what is listed for a state after a
/// step may as well be what turns.
const MAKERS: [(&str, Maker); 26] = [
    ("0 to 15 bytes", |rng| {
        let mut bytes = base().bytes();
        bytes.truncate(rng.below(16));
        (bytes, Refusal::Length.at(0))
    }),
    ("16 bytes", |_| (BookDraft::default().bytes(), Answer::success(0))),
    ("60,000 bytes", |rng| {
        let bytes = fullbook::of_length(60_000, rng);
        let steps = filed_steps(&bytes);
        (bytes, Answer::success(steps))
    }),
    ("60,001 bytes", |rng| (fullbook::of_length(60_001, rng), Refusal::Length.at(0))),
    ("256 facts", |rng| facts(256, rng)),
    ("257 facts", |rng| facts(257, rng)),
    ("16 objects", |rng| objects(16, rng)),
    ("17 objects", |rng| objects(17, rng)),
    ("64 steps", |rng| steps(64, rng)),
    ("65 steps", |rng| steps(65, rng)),
    ("64 records", |rng| records(64, rng)),
    ("65 records", |rng| records(65, rng)),
    ("8 kinds", |rng| kinds(8, rng)),
    ("9 kinds", |rng| kinds(9, rng)),
    ("16 relations", |rng| relations(16, rng)),
    ("17 relations", |rng| relations(17, rng)),
    ("32 moves", |rng| moves(32, rng)),
    ("33 moves", |rng| moves(33, rng)),
    ("255 objects and steps", |rng| {
        let mut draft = base();
        draft.records.push(RecordDraft {
            objects: vec![1; if rng.chance(50) { 255 } else { 0 }],
            states: vec![Vec::new(); 256],
            steps: vec![[1, 0, 0, 0, 0]; 255],
        });
        (draft.bytes(), Refusal::Record.at(draft.front_length()))
    }),
    ("record of its head alone", |_| {
        let bytes = head_alone(1);
        let end = bytes.len();
        (bytes, Refusal::State.at(end))
    }),
    ("record of its head alone, without steps", |_| {
        (head_alone(0), Refusal::NoSteps.at(base().length()))
    }),
    ("record without objects, facts and steps", |_| {
        let mut draft = base();
        draft.records.push(RecordDraft { states: vec![Vec::new()], ..RecordDraft::default() });
        (draft.bytes(), Refusal::NoSteps.at(draft.front_length()))
    }),
    ("record without objects and facts, of one step", |_| {
        let mut draft = base();
        draft.records.push(of_a_step(0, Vec::new()));
        (draft.bytes(), Answer::success(1))
    }),
    ("8 kinds in a chain", |rng| chain(8, rng)),
    ("9 kinds in a chain", |rng| chain(9, rng)),
    ("parents of no kinds", |_| {
        // 16 and 16 plus the kinds are one; there is no parent to be wrong.
        let draft =
            BookDraft { relations: vec![[0; 4]], moves: vec![[0; 6]], ..Default::default() };
        (draft.bytes(), Answer::success(0))
    }),
];

pub const COUNT: usize = MAKERS.len();

/// How many cases there are of this form.
#[must_use]
pub const fn count(form: Form) -> usize {
    match form {
        Form::Full => COUNT,
        Form::Short => COUNT + turns::COUNT,
    }
}

/// The extreme case of this number below [`count`].
pub fn case(form: Form, index: usize, rng: &mut Rng) -> BookCase {
    let (what, (book, answer)) = match index.checked_sub(COUNT) {
        None => (MAKERS[index].0, MAKERS[index].1(rng)),
        Some(index) => turns::case(index, rng),
    };
    let label = Label { part: "extreme", what };
    BookCase { label, book, form: told(form, rng), aimed: Some(answer) }
}

/// All labels, so that a tally can miss one.
pub fn labels(form: Form) -> impl Iterator<Item = Label> {
    let turns = turns::names().take(if form == Form::Short { turns::COUNT } else { 0 });
    MAKERS.iter().map(|&(what, _)| what).chain(turns).map(|what| Label { part: "extreme", what })
}

/// One kind, one relation of two places, one move without parameters.
fn base() -> BookDraft {
    let (relations, moves) = (vec![[2, 1, 1, 0]], vec![[0; 6]]);
    BookDraft { kinds: 1, relations, moves, ..BookDraft::default() }
}

/// A record of one step, after which nothing holds or nothing turned.
fn of_a_step(objects: usize, first: Vec<Fact>) -> RecordDraft {
    RecordDraft {
        objects: vec![1; objects],
        states: vec![first, Vec::new()],
        steps: vec![[1, 0, 0, 0, 0]],
    }
}

/// A book whose one record is a head that announces no objects and as many steps.
fn head_alone(steps: u8) -> Vec<u8> {
    let mut bytes = base().bytes();
    bytes[7] = 1;
    bytes[15] += 4;
    bytes.extend([0, steps, 0, 4]);
    bytes
}

fn filed_steps(bytes: &[u8]) -> usize {
    let (mut at, mut steps) = (16 + 4 + 6, 0);
    while at < bytes.len() {
        steps += usize::from(bytes[at + 1]);
        at += usize::from(u16::from_be_bytes([bytes[at + 2], bytes[at + 3]]));
    }
    steps
}

fn facts(count: usize, rng: &mut Rng) -> (Vec<u8>, Answer) {
    let mut draft = base();
    draft.relations.push([0; 4]);
    let mut state: Vec<_> = (0..256).map(|n| [1, (n / 16) as u8 + 1, (n % 16) as u8 + 1]).collect();
    state.push([2, 0, 0]);
    while state.len() > count {
        state.remove(rng.below(state.len()));
    }
    draft.records.push(of_a_step(16, state));
    let answer = match count {
        0..=256 => Answer::success(1),
        _ => Refusal::State.at(draft.front_length() + 4 + 16),
    };
    (draft.bytes(), answer)
}

fn objects(count: usize, rng: &mut Rng) -> (Vec<u8>, Answer) {
    let mut draft = base();
    let fact = [1, rng.range(1, count) as u8, count as u8];
    draft.records.push(of_a_step(count, vec![fact]));
    let answer = match count {
        0..=16 => Answer::success(1),
        _ => Refusal::Record.at(draft.front_length()),
    };
    (draft.bytes(), answer)
}

fn steps(count: usize, rng: &mut Rng) -> (Vec<u8>, Answer) {
    let mut draft = base();
    let states =
        (0..=count).map(|_| if rng.chance(50) { vec![[1, 1, 2]] } else { Vec::new() }).collect();
    let record = RecordDraft { objects: vec![1; 2], states, steps: vec![[1, 0, 0, 0, 0]; count] };
    draft.records.push(record);
    let answer = match count {
        0..=64 => Answer::success(count),
        _ => Refusal::Record.at(draft.front_length()),
    };
    (draft.bytes(), answer)
}

fn records(count: usize, rng: &mut Rng) -> (Vec<u8>, Answer) {
    let mut draft = base();
    for _ in 0..count {
        draft.records.push(of_a_step(rng.below(3), Vec::new()));
    }
    (draft.bytes(), if count > 64 { Refusal::HeaderCounts.at(0) } else { Answer::success(count) })
}

fn kinds(count: usize, rng: &mut Rng) -> (Vec<u8>, Answer) {
    let mut draft = base();
    draft.kinds = count;
    draft.relations.push([1, count as u8, 0, 0]);
    draft.records.push(RecordDraft {
        objects: vec![rng.range(1, count) as u8, count as u8],
        ..of_a_step(0, vec![[2, 2, 0]])
    });
    (draft.bytes(), if count > 8 { Refusal::HeaderCounts.at(0) } else { Answer::success(1) })
}

/// Each kind is the parent of the next. Objects of all kinds suit relation 1,
/// those of the last alone relation 2, and the move takes one of each.
fn chain(count: usize, rng: &mut Rng) -> (Vec<u8>, Answer) {
    let last = count as u8;
    let facts = (1..=last).map(|object| [1, rng.range(1, count) as u8, object]);
    let mut state: Vec<_> = facts.chain([[2, last, 0]]).collect();
    state.sort_unstable();
    let record = RecordDraft {
        objects: (1..=last).collect(),
        states: vec![state; 2],
        steps: vec![[1, last, rng.range(1, count - 1) as u8, 0, 0]],
    };
    let draft = BookDraft {
        kinds: count,
        parents: (0..last).collect(),
        relations: vec![[2, 1, 1, 0], [1, last, 0, 0]],
        moves: vec![[2, rng.range(1, count) as u8, 1, 0, 0, 0]],
        records: vec![record],
        ..BookDraft::default()
    };
    (draft.bytes(), if count > 8 { Refusal::HeaderCounts.at(0) } else { Answer::success(1) })
}

fn relations(count: usize, rng: &mut Rng) -> (Vec<u8>, Answer) {
    let mut draft = base();
    draft.relations = vec![[rng.below(2) as u8, 0, 0, 0]; count];
    for relation in &mut draft.relations {
        relation[1] = relation[0];
    }
    let object = draft.relations[0][0];
    draft.records.push(of_a_step(1, vec![[count as u8, object, 0]]));
    (draft.bytes(), if count > 16 { Refusal::HeaderCounts.at(0) } else { Answer::success(1) })
}

fn moves(count: usize, rng: &mut Rng) -> (Vec<u8>, Answer) {
    let mut draft = base();
    draft.moves = vec![[0; 6]; count];
    let steps: Vec<_> = (0..rng.range(1, 9)).map(|_| [count as u8, 0, 0, 0, 0]).collect();
    let answer =
        if count > 32 { Refusal::HeaderCounts.at(0) } else { Answer::success(steps.len()) };
    let states = vec![Vec::new(); steps.len() + 1];
    draft.records.push(RecordDraft { objects: Vec::new(), states, steps });
    (draft.bytes(), answer)
}
