//! The form of several starts, by hand: row 16. The orders are M2's with its start
//! three times: the counts stand at 20, 31 and 42, the goal at 53.

use crate::answer::{Answer, Refusal};
use crate::gen::faults::starts::ended;
use crate::gen::{BookDraft, OrderDraft};
use crate::vectors::hall::{changed, m2, small_hall, START};
use crate::vectors::paper::check;
use crate::vectors::Vector;

const COUNTS: [usize; 3] = [20, 31, 42];
const GOAL: usize = 53;

fn three() -> OrderDraft {
    OrderDraft { starts: vec![START.to_vec(); 3], ..m2() }
}

fn wrong(name: &str, order: Vec<u8>, place: usize) -> Vector {
    check(&format!("16: {name}"), small_hall().bytes(), order, Refusal::Start.at(place))
}

pub fn all() -> Vec<Vector> {
    let mut vectors = Vec::new();
    for (which, count_at) in ["first", "second", "last"].into_iter().zip(COUNTS) {
        vectors.extend(counts(which, count_at));
        vectors.extend(facts(which, count_at));
        vectors.extend(cuts(which, count_at));
    }
    vectors.extend(left_over());
    vectors.extend(behind_the_goal_offset());
    vectors.extend(other_rows());
    vectors
}

fn counts(which: &str, at: usize) -> Vec<Vector> {
    let case = |what: &str, count: [u8; 2], place: usize| {
        let order = changed(three().bytes(), &[(at, &count)]);
        wrong(&format!("{which} of three starts, {what}"), order, place)
    };
    // The fourth fact is the next count and what follows, and none of relation 0;
    // of the last start the goal cuts it. A fact that is not counted is read as
    // the next count, 516, and behind the last start it is left over.
    vec![
        case("257 facts", [1, 1], at),
        case("32,771 facts", [0x80, 3], at),
        case("256 facts counted", [1, 0], at + 11),
        case("a fact more counted", [0, 4], at + 11),
        case("a fact fewer counted", [0, 2], at + 8),
        case("no fact counted", [0, 0], at + 2),
    ]
}

fn facts(which: &str, at: usize) -> Vec<Vector> {
    let case = |what: &str, fact: usize, bytes: &[u8], place: usize| {
        let order = changed(three().bytes(), &[(at + 2 + 3 * fact, bytes)]);
        wrong(&format!("{which} of three starts, {what}"), order, at + 2 + 3 * place)
    };
    vec![
        case("first fact wrong", 0, &[3], 0),
        case("last fact wrong", 2, &[2, 5, 0], 2),
        case("facts decrease", 0, &[2, 3, 0, 1, 1, 2], 1),
        case("last facts decrease", 1, &[2, 4, 0, 2, 3, 0], 2),
        case("facts equal", 1, &[1, 1, 2], 1),
        case("last facts equal", 2, &[2, 3, 0], 2),
        case("two facts wrong", 1, &[3, 0, 0, 3, 0, 0], 1),
    ]
}

/// Its starts end within this one, and the goal follows.
fn cuts(which: &str, at: usize) -> Vec<Vector> {
    (0..11)
        .map(|left| {
            let place = if left < 2 { at } else { at + 2 + (left - 2) / 3 * 3 };
            wrong(
                &format!("{which} of three starts, cut behind {left} bytes"),
                ended(&three(), at + left),
                place,
            )
        })
        .collect()
}

fn left_over() -> Vec<Vector> {
    let bytes = |count: usize| ended(&three(), GOAL + count);
    let counted = |count: u8| changed(three().bytes(), &[(3, &[count])]);
    // The longest order whose header is right: 65,855 bytes.
    let mut longest = m2();
    longest.steps.resize(64, [1, 1, 2, 3, 0]);
    let mut vectors: Vec<Vector> = [1, 2, 3, 4, 5, 11, 100, 1000]
        .map(|count| wrong(&format!("{count} bytes left over"), bytes(count), GOAL))
        .to_vec();
    // A start more than counted is of good form, and so is an empty one.
    vectors.extend([
        wrong("a start fewer counted", counted(2), COUNTS[2]),
        wrong("two starts fewer counted", counted(1), COUNTS[1]),
        wrong("a start more counted", counted(4), GOAL),
        wrong("16 starts counted", counted(16), GOAL),
        wrong("65,500 bytes left over", ended(&longest, 65_531), 31),
    ]);
    vectors
}

/// What is cut could be read behind the goal offset, and would be right there.
fn behind_the_goal_offset() -> Vec<Vector> {
    // Object 1 is a spot, 2 a bank. The entry that spot 3 is clear, 01 02 03 00,
    // begins as the fact that bank 2 is at spot 3.
    let goal = |starts: Vec<_>| OrderDraft {
        objects: vec![2, 1, 2],
        starts,
        goal: vec![(1, [2, 3, 0])],
        steps: Vec::new(),
    };
    let (one, two) = (goal(vec![vec![[1, 2, 3]]]), goal(vec![vec![[2, 3, 0]], vec![[1, 2, 3]]]));
    // The step 01 00 00 00 00 begins as a count of 256.
    let bare = BookDraft { moves: vec![[0; 6]], ..BookDraft::default() };
    let step = |starts| OrderDraft {
        starts: vec![Vec::new(); starts],
        steps: vec![[1, 0, 0, 0, 0]],
        ..OrderDraft::default()
    };
    let count_cut = |name: &str, starts: usize, place: usize| {
        let order = ended(&step(starts), place);
        check(&format!("16: {name}"), bare.bytes(), order, Refusal::Start.at(place))
    };
    vec![
        wrong("the goal would be its fact", ended(&one, 21), 21),
        wrong("the goal would be the fact of the second", ended(&two, 26), 26),
        count_cut("a step would be its count", 1, 16),
        count_cut("a step would be the count of the second", 2, 18),
        check("starts: two of no facts", bare.bytes(), step(2).bytes(), Answer::success(1)),
    ]
}

/// Row 16 after 15 and before 17 and 18, in any start.
fn other_rows() -> Vec<Vector> {
    let case = |name, changes: &[(usize, &[u8])], answer| {
        check(name, small_hall().bytes(), changed(three().bytes(), changes), answer)
    };
    let (last_fact, step) = (COUNTS[2] + 8, GOAL + 4);
    let start = Refusal::Start.at(last_fact);
    vec![
        case("15 before 16 of the first count", &[(19, &[3]), (20, &[9])], {
            Refusal::OrderObject.at(19)
        }),
        case("16 of the last start before 17", &[(last_fact, &[3]), (GOAL, &[2])], start),
        case("16 of the last start before 18", &[(last_fact, &[3]), (step, &[2])], start),
        case("16: the first of two starts", &[(COUNTS[1], &[9]), (last_fact, &[3])], {
            Refusal::Start.at(COUNTS[1])
        }),
        case(
            "16: a fact of the first and of the last start",
            &[(COUNTS[0] + 5, &[3]), (last_fact, &[3])],
            Refusal::Start.at(COUNTS[0] + 5),
        ),
        case("17 behind three starts", &[(GOAL, &[2])], Refusal::GoalEntry.at(GOAL)),
        case("18 behind three starts", &[(step + 5, &[2])], Refusal::PlanStep.at(step + 5)),
        check(
            "16 of bytes left over before 17",
            small_hall().bytes(),
            changed(ended(&three(), GOAL + 1), &[(GOAL + 1, &[2])]),
            Refusal::Start.at(GOAL),
        ),
        check(
            "16 of a fact before bytes left over",
            small_hall().bytes(),
            changed(ended(&three(), GOAL + 1), &[(COUNTS[1] + 5, &[3])]),
            Refusal::Start.at(COUNTS[1] + 5),
        ),
    ]
}
