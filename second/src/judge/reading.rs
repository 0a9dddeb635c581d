//! What the judge reads of a book and an order, whose bytes are of good form.

use super::state::State;
use super::{Atom, GroundStep, Plan, Transition};
use crate::calls::Form;

/// Of a step that did not go, 128 is no part of its move.
fn ground<const WORDS: usize>(step: &[u8], atoms: &[Vec<Atom>]) -> GroundStep {
    let action = usize::from(step[0]) % 128 - 1;
    let object = |parameter: Option<usize>| parameter.map_or(0, |parameter| step[1 + parameter]);
    let fact = |atom: &Atom| {
        let [first, second] = atom.parameters.map(object);
        State::<WORDS>::fact(&[atom.relation, first, second])
    };
    GroundStep { action, facts: atoms[action].iter().map(fact).collect() }
}

/// Reads on from the front of a slice; the bytes are of good form.
struct Reader<'a>(&'a [u8]);

impl<'a> Reader<'a> {
    fn take(&mut self, count: usize) -> &'a [u8] {
        let (taken, rest) = self.0.split_at(count);
        self.0 = rest;
        taken
    }

    fn number(&mut self) -> usize {
        let bytes = self.take(2);
        usize::from(bytes[0]) << 8 | usize::from(bytes[1])
    }

    fn state<const WORDS: usize>(&mut self) -> State<WORDS> {
        let mut state = State::EMPTY;
        for _ in 0..self.number() {
            state.set(State::<WORDS>::fact(self.take(3)), true);
        }
        state
    }

    /// The state that a list of facts whose value turns makes of this one.
    fn turned<const WORDS: usize>(&mut self, mut state: State<WORDS>) -> State<WORDS> {
        for _ in 0..self.number() {
            let fact = State::<WORDS>::fact(self.take(3));
            state.set(fact, !state.holds(fact));
        }
        state
    }
}

/// Whether no hall has over 3 objects, and there are 8 relations at most.
pub(super) fn is_tiny(book: &[u8], order: &[u8]) -> bool {
    let mut objects = order[1];
    let mut records = Reader(&book[Reader(&book[12..]).number()..]);
    while let [count, _, length @ ..] = records.0 {
        objects = objects.max(*count);
        records.take(Reader(length).number());
    }
    book[3] <= 8 && objects <= 3
}

/// The atoms of each move, and the transitions of all records.
pub(super) fn read_book<const WORDS: usize>(
    book: &[u8],
    form: Form,
) -> (Vec<Vec<Atom>>, Vec<Transition<WORDS>>) {
    let mut reader = Reader(book);
    let [_, relations, moves, records, relations_at] = [(); 5].map(|()| reader.number());
    reader.take(6);
    let parents = reader.take(relations_at - 16);
    let relations: Vec<&[u8]> = (0..relations).map(|_| reader.take(4)).collect();
    let atoms: Vec<Vec<Atom>> =
        (0..moves).map(|_| atoms(parents, &relations, reader.take(6))).collect();
    let mut transitions = Vec::new();
    for _ in 0..records {
        let head = reader.take(4);
        assert!(head[1] > 0, "a book with a record of no steps is not of good form");
        reader.take(usize::from(head[0]));
        let mut before: State<WORDS> = reader.state();
        for _ in 0..head[1] {
            let bytes = reader.take(5);
            let (step, went) = (ground::<WORDS>(bytes, &atoms), bytes[0] < 128);
            let after: State<WORDS> = match form {
                Form::Full => reader.state(),
                Form::Short => reader.turned(before.clone()),
            };
            assert!(went || before == after, "a step that did not go changes nothing");
            transitions.push(Transition { step, went, before, after: after.clone() });
            before = after;
        }
    }
    (atoms, transitions)
}

/// Climbs from a kind to its parent, and on, until it comes to the one named or
/// to a kind that has no parent. Without parents no kind has one.
fn suits(parents: &[u8], kind: u8, named: u8) -> bool {
    let above = |&kind: &u8| parents.get(usize::from(kind) - 1).copied().filter(|&up| up > 0);
    std::iter::successors(Some(kind), above).any(|kind| kind == named)
}

fn atoms(parents: &[u8], relations: &[&[u8]], entry: &[u8]) -> Vec<Atom> {
    let parameters = || 0..usize::from(entry[0]);
    let fillers = |kind: u8| -> Vec<Option<usize>> {
        match kind {
            0 => vec![None],
            _ => parameters().filter(|&p| suits(parents, entry[1 + p], kind)).map(Some).collect(),
        }
    };
    let mut atoms = Vec::new();
    for (relation, kinds) in (1..).zip(relations) {
        for &first in &fillers(kinds[1]) {
            for &second in &fillers(kinds[2]) {
                atoms.push(Atom { relation, parameters: [first, second] });
            }
        }
    }
    atoms
}

pub(super) fn read_order<const WORDS: usize>(order: &[u8], atoms: &[Vec<Atom>]) -> Plan<WORDS> {
    let mut reader = Reader(order);
    let [objects, starts, goal, steps] = [(); 4].map(|()| reader.number());
    reader.take(8 + objects);
    let starts = (0..starts).map(|_| reader.state()).collect();
    let entry = |bytes: &[u8]| (bytes[0] == 1, State::<WORDS>::fact(&bytes[1..]));
    let goal = (0..goal).map(|_| entry(reader.take(4))).collect();
    let steps = (0..steps).map(|_| ground::<WORDS>(reader.take(5), atoms)).collect();
    Plan { starts, steps, goal }
}
