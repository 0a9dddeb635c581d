//! Header offsets and lengths that are one off, and gaps between sections whose
//! offsets tell of them: rows 3 and 14.

use crate::answer::{Answer, Refusal};
use crate::calls::Job;
use crate::gen::OrderDraft;
use crate::vectors::hall::{changed, m2, small_hall, ROLL_2_3};
use crate::vectors::paper::check;
use crate::vectors::Vector;

pub fn all() -> Vec<Vector> {
    let mut vectors = books();
    vectors.extend(orders());
    vectors
}

/// With one more zero byte at `at`, and the offsets of these fields one more.
fn gap(mut bytes: Vec<u8>, at: usize, fields: std::ops::RangeInclusive<usize>) -> Vec<u8> {
    bytes.insert(at, 0);
    for field in fields {
        bytes[2 * field + 1] += 1;
    }
    bytes
}

/// The header's last four fields, each one less and one more.
fn one_off(bytes: &[u8], names: [&str; 4]) -> Vec<(String, Vec<u8>)> {
    let mut changes = Vec::new();
    for (field, name) in (4..8).zip(names) {
        let at = 2 * field + 1;
        for (new, what) in [(bytes[at] - 1, "one less"), (bytes[at] + 1, "one more")] {
            changes.push((format!("{name} {what}"), changed(bytes.to_vec(), &[(at, &[new])])));
        }
    }
    changes
}

fn books() -> Vec<Vector> {
    let hall = small_hall().bytes();
    let names = ["relations offset", "moves offset", "records offset", "end"];
    let mut cases = one_off(&hall, names);
    cases.push(("a byte behind the end".into(), [&hall[..], &[0]].concat()));
    cases.push(("the last byte cut off".into(), hall[..57].to_vec()));
    cases.push(("a gap before the relations".into(), gap(hall.clone(), 16, 4..=7)));
    cases.push(("a gap before the moves".into(), gap(hall.clone(), 24, 5..=7)));
    cases.push(("a gap before the records".into(), gap(hall, 30, 6..=7)));
    let vector = |(what, book)| {
        Vector::new(format!("3: {what}"), &Job::OF_BOTH_FORMS, book, Refusal::HeaderOffsets.at(0))
    };
    cases.into_iter().map(vector).collect()
}

fn orders() -> Vec<Vector> {
    let m2 = m2().bytes();
    let names = ["objects offset", "start offset", "goal offset", "steps offset"];
    let mut cases = one_off(&m2, names);
    cases.push(("15 bytes of an order".into(), m2[..15].to_vec()));
    cases.push(("an empty order".into(), Vec::new()));
    cases.push(("a byte behind the steps".into(), [&m2[..], &[0]].concat()));
    cases.push(("the last byte of an order cut off".into(), m2[..m2.len() - 1].to_vec()));
    cases.push(("the last step cut off".into(), m2[..m2.len() - 5].to_vec()));
    cases.push(("one step more than counted".into(), [&m2[..], &ROLL_2_3].concat()));
    cases.push(("a gap before the objects".into(), gap(m2.clone(), 16, 4..=7)));
    cases.push(("a gap before the start".into(), gap(m2.clone(), 20, 5..=7)));
    cases.push(("a gap before the steps".into(), gap(m2, 35, 7..=7)));
    let hall = || small_hall().bytes();
    let vector =
        |(what, order)| check(&format!("14: {what}"), hall(), order, Refusal::OrderHeader.at(0));
    let mut vectors: Vec<Vector> = cases.into_iter().map(vector).collect();
    let empty = OrderDraft { starts: vec![Vec::new()], ..OrderDraft::default() };
    let ended = |goal: u8| {
        let bytes = &empty.bytes()[..usize::from(goal)];
        changed(bytes.to_vec(), &[(13, &[goal, 0, goal])])
    };
    vectors.extend([
        check("limit: order of 18 bytes", hall(), ended(18), Answer::success(0))
            .after(vec![0; 512]),
        check("16: order of 17 bytes", hall(), ended(17), Refusal::Start.at(16)),
        check("16: order of 16 bytes", hall(), ended(16), Refusal::Start.at(16)),
    ]);
    vectors
}
