//! Plans in whose state more than 256 facts hold: "all others stay, however many
//! hold". 256 limits the facts of a state that is filed and of a start alone.
//!
//! Every hall here has 16 objects of one kind, and every start the 256 facts of
//! relation 1 over them.

use crate::answer::Answer;
use crate::calls::Job::Learn;
use crate::gen::{BookDraft, Fact, OrderDraft, RecordDraft, Step};
use crate::limits::{END_SHEET_LENGTH, RULES_LENGTH};
use crate::vectors::hall::{end_sheet, sheet};
use crate::vectors::paper::{check, missed, unmet};
use crate::vectors::Vector;

const PAIR: [u8; 4] = [2, 1, 1, 0];
const SINGLE: [u8; 4] = [1, 1, 0, 0];

/// The facts of a relation over the objects 1 to `objects`, in order.
fn facts(relation: u8, objects: u8) -> Vec<Fact> {
    let over = 1..=objects;
    over.clone()
        .flat_map(|first| over.clone().map(move |second| [relation, first, second]))
        .collect()
}

fn order(goal: &[(u8, Fact)], steps: &[Step]) -> OrderDraft {
    OrderDraft {
        objects: vec![1; 16],
        starts: vec![facts(1, 16)],
        goal: goal.to_vec(),
        steps: steps.to_vec(),
    }
}

/// The start with these facts, which are not of relation 1, and without those.
fn end(added: &[Fact], removed: &[Fact]) -> Vec<u8> {
    let mut facts = facts(1, 16);
    facts.retain(|fact| !removed.contains(fact));
    facts.extend(added);
    end_sheet(&facts)
}

const fn marked(object: u8) -> Fact {
    [2, object, 0]
}
const fn mark(object: u8) -> Step {
    [1, object, 0, 0, 0]
}
const fn look(object: u8) -> Step {
    [2, object, 0, 0, 0]
}
const fn unmark(object: u8) -> Step {
    [3, object, 0, 0, 0]
}
const fn clear(object: u8) -> Step {
    [4, object, 0, 0, 0]
}

/// Four moves of one parameter x. All need 1(x, x). Marking needs 2(x) not to
/// hold and adds it; the others need it to hold. Unmarking removes 2(x), and
/// clearing 1(x, x); looking changes nothing.
fn marks() -> BookDraft {
    let (bare, both, left) = (vec![[1, 1, 1]], vec![[1, 1, 1], marked(1)], vec![marked(1)]);
    BookDraft {
        kinds: 1,
        relations: vec![PAIR, SINGLE],
        moves: vec![[1, 1, 0, 0, 0, 0]; 4],
        records: vec![RecordDraft {
            objects: vec![1],
            states: vec![bare.clone(), both.clone(), both.clone(), bare, both, left],
            steps: vec![mark(1), look(1), unmark(1), mark(1), clear(1)],
        }],
        ..BookDraft::default()
    }
}

/// All 16 objects marked, and then one more step.
fn all_marked(last: Step) -> Vec<Step> {
    (1..=16).map(mark).chain([last]).collect()
}

pub fn plans() -> Vec<Vector> {
    let mut vectors = passes();
    vectors.extend(stops());
    vectors.extend(misses());
    vectors.extend(several_starts());
    vectors.push(one_a_step());
    vectors.extend(all_facts());
    vectors
}

fn named(name: &str) -> String {
    format!("over 256 facts: {name}")
}

fn passes() -> Vec<Vector> {
    let pass = |name, goal: &[(u8, Fact)], steps: &[Step], added: &[Fact], removed: &[Fact]| {
        let order = order(goal, steps).bytes();
        check(&named(name), marks().bytes(), order, Answer::success(steps.len()))
            .after(end(added, removed))
    };
    let all: Vec<Fact> = (1..=16).map(marked).collect();
    let but_9: Vec<Fact> = all.iter().copied().filter(|&fact| fact != marked(9)).collect();
    vec![
        pass("one more", &[(1, marked(16))], &[mark(16)], &[marked(16)], &[]),
        pass("sixteen more", &[], &all_marked(look(1)), &all, &[]),
        pass("the 257th is needed to hold", &[], &[mark(3), look(3)], &[marked(3)], &[]),
        pass("the 272nd is needed to hold", &[(1, marked(16))], &all_marked(look(16)), &all, &[]),
        pass("one of the later ones removed", &[], &all_marked(unmark(9)), &but_9, &[]),
        pass(
            "one of the first ones removed",
            &[(0, [1, 1, 1]), (1, [1, 16, 16])],
            &[mark(1), mark(2), clear(1)],
            &[marked(1), marked(2)],
            &[[1, 1, 1]],
        ),
    ]
}

fn stops() -> Vec<Vector> {
    let stop = |name, steps: &[Step], at| {
        let order = order(&[], steps).bytes();
        check(&named(name), marks().bytes(), order, unmet(at))
    };
    vec![
        stop("the 257th is needed not to hold", &[mark(5), mark(5)], 2),
        stop("the 272nd is needed not to hold", &all_marked(mark(16)), 17),
        stop("a fact that was never added is needed", &[mark(1), mark(2), look(3)], 3),
        stop("a fact that was removed is needed", &[mark(2), mark(1), clear(1), look(1)], 4),
    ]
}

fn misses() -> Vec<Vector> {
    let miss = |name, goal: &[(u8, Fact)], steps: &[Step], entry| {
        let order = order(goal, steps).bytes();
        check(&named(name), marks().bytes(), order, missed(entry))
    };
    let last_two = [(1, marked(15)), (1, marked(16))];
    vec![
        miss("an entry of 0 about the 257th", &[(0, marked(3))], &[mark(3)], 1),
        miss(
            "an entry of 0 about the 258th",
            &[(1, marked(1)), (0, marked(2))],
            &[mark(1), mark(2)],
            2,
        ),
        miss("an entry of 1 about one removed", &last_two, &all_marked(unmark(16)), 2),
    ]
}

/// All objects are marked from each of several starts of 256 facts.
fn several_starts() -> Vec<Vector> {
    let case = |name, last: Vec<Fact>, goal: &[(u8, Fact)], answer| {
        let mut order = order(goal, &all_marked(look(1)));
        let first = order.starts[0].clone();
        order.starts.extend([first, last]);
        check(&named(name), marks().bytes(), order.bytes(), answer)
    };
    // In place of one fact another that is marked already.
    let but = |fact: Fact| -> Vec<Fact> {
        facts(1, 16).into_iter().filter(|&held| held != fact).chain([marked(16)]).collect()
    };
    let lacking = facts(1, 16).into_iter().filter(|&fact| fact != [1, 16, 1]).collect();
    vec![
        case("three starts", facts(1, 16), &[(1, marked(16))], Answer::success(17)),
        case("three starts, the last stops", but([1, 2, 1]), &[], unmet(16).from_start(3)),
        case("three starts, the last stops earlier", but([1, 5, 5]), &[], unmet(5).from_start(3)),
        case("three starts, the last misses", lacking, &[(1, [1, 16, 1])], missed(1).from_start(3)),
    ]
}

/// A move of two parameters that needs relation 1 of them throughout, relation
/// 2 of them nowhere, and adds 2(1, 2): 64 different pairs, 320 facts at the end.
fn one_a_step() -> Vector {
    let before = facts(1, 2);
    let after = [&before[..], &[[2, 1, 2]]].concat();
    let book = BookDraft {
        kinds: 1,
        relations: vec![PAIR; 2],
        moves: vec![[2, 1, 1, 0, 0, 0]],
        records: vec![RecordDraft {
            objects: vec![1; 2],
            states: vec![before, after],
            steps: vec![[1, 1, 2, 0, 0]],
        }],
        ..BookDraft::default()
    };
    let pairs = facts(2, 16).into_iter().filter(|[_, first, second]| first < second);
    let added: Vec<Fact> = pairs.take(64).collect();
    let steps: Vec<Step> =
        added.iter().map(|&[_, first, second]| [1, first, second, 0, 0]).collect();
    check(&named("64 steps"), book.bytes(), order(&[], &steps).bytes(), Answer::success(64))
        .after(end(&added, &[]))
}

/// 16 relations and a move of four parameters that needs relation 1 of them and
/// adds all others. Any two objects are in some step, so all 4,096 facts hold at
/// the end. The second recorded step frees the move of needs not to hold.
fn all_facts() -> Vec<Vector> {
    let all: Vec<Fact> = (1..=16).flat_map(|relation| facts(relation, 4)).collect();
    let book = BookDraft {
        kinds: 1,
        relations: vec![PAIR; 16],
        moves: vec![[4, 1, 1, 1, 1, 0]],
        records: vec![RecordDraft {
            objects: vec![1; 4],
            states: vec![facts(1, 4), all.clone(), all],
            steps: vec![[1, 1, 2, 3, 4]; 2],
        }],
        ..BookDraft::default()
    };
    // Of the objects 1 2, 3 4, and so on to 15 16, every two pairs.
    let steps: Vec<Step> = (1..=13)
        .step_by(2)
        .flat_map(|a| (a + 2..=15).step_by(2).map(move |b| [1, a, a + 1, b, b + 1]))
        .collect();
    let [needed, added] = [0..16, 16..256].map(|range| range.collect::<Vec<usize>>());
    vec![
        check(
            &named("all 4,096"),
            book.bytes(),
            order(&[(1, [16, 16, 16])], &steps).bytes(),
            Answer::success(28),
        )
        .after(vec![0xff; END_SHEET_LENGTH]),
        Vector::new("learned: 240 facts added", &[Learn], book.bytes(), Answer::success(2))
            .output(RULES_LENGTH)
            .after(sheet(&[[&needed, &[], &added, &[]]])),
    ]
}
