//! One fault that a row names, in an otherwise good case: twice each, once in
//! as few bytes as drawing finds and once in a larger case.

use crate::answer::Answer;
use crate::calls::{Form, Job};
use crate::gen::hall::book;
use crate::gen::plan::order;
use crate::gen::stream::addition::AddStream;
use crate::gen::{faults, Aim, BookDraft, Label, Rng};
use crate::vectors::paper::check;
use crate::vectors::Vector;

const TRIES: u64 = 300;

/// Bytes of a larger case.
const LARGER: std::ops::RangeInclusive<usize> = 90..=250;

/// Draws many; answers the shortest and the first of a larger length, if any.
/// The seed comes from the name, so that a new fault leaves the others' vectors.
fn two_of(name: &str, draw: impl Fn(&mut Rng) -> Vector) -> Vec<Vector> {
    let seed = name.bytes().fold(0xcbf2_9ce4_8422_2325, |hash: u64, byte| {
        (hash ^ u64::from(byte)).wrapping_mul(0x100_0000_01b3)
    });
    let drawn: Vec<Vector> =
        (0..TRIES).map(|index| draw(&mut Rng::new(seed.wrapping_add(index)))).collect();
    let length = |vector: &&Vector| vector.book.len() + vector.order.len() + vector.record.len();
    let shortest = drawn.iter().min_by_key(length);
    let larger = drawn.iter().find(|vector| LARGER.contains(&length(vector)));
    let mut two: Vec<Vector> = shortest.into_iter().chain(larger).cloned().collect();
    two.dedup();
    if let [_, second] = &mut two[..] {
        second.name.push_str(", larger");
    }
    two
}

fn name(answer: u32, part: &str, label: Label) -> String {
    format!("{answer}: {part}, {label}")
}

/// Rows 1 to 10, 21 and 24: each of the four calls meets them.
pub fn books() -> Vec<Vector> {
    let aims = faults::front::aims().into_iter().chain(faults::records::aims(Form::Full));
    aims.flat_map(|aim| {
        let name = name(aim.refusal as u32, "book", aim.label);
        two_of(&name, |rng| {
            let (_, book, answer) = aim.hit(rng, |rng| book::to_damage(Form::Full, rng));
            Vector::new(&name, &Job::OF_BOTH_FORMS, book, answer)
        })
    })
    .collect()
}

/// Rows 6 to 10 and 24 in a short book: each call that reads one meets them.
pub fn short_books() -> Vec<Vector> {
    let of_aim = |aim: Aim<BookDraft>| {
        let name = name(aim.refusal as u32, "short book", aim.label);
        let jobs = [Job::LookOver, Job::Learn, Job::Check, Job::Add, Job::ToFull];
        two_of(&name, |rng| {
            let (_, book, answer) = aim.hit(rng, |rng| book::to_damage(Form::Short, rng));
            Vector::new(&name, &jobs, book, answer).form(Form::Short.number())
        })
    };
    faults::records::aims(Form::Short).into_iter().flat_map(of_aim).collect()
}

/// Rows 14 to 18.
pub fn orders() -> Vec<Vector> {
    faults::orders::aims()
        .into_iter()
        .flat_map(|aim| {
            let name = name(aim.refusal as u32, "order", aim.label);
            two_of(&name, |rng| {
                let (plan, order, answer) = aim.hit(rng, order::draw);
                check(&name, plan.book.bytes(), order, answer)
            })
        })
        .collect()
}

/// Adding: faults of the record added, then what only adding meets.
pub fn additions() -> Vec<Vector> {
    let stream = AddStream::of_steps_that_went(Form::Full, 0);
    let with_fault = stream.record_aims().iter().enumerate().flat_map(|(index, aim)| {
        let name = name(aim.refusal as u32, "record added", aim.label);
        let stream = &stream;
        two_of(&name.clone(), move |rng| {
            let (book, record, answer) = stream.damaged_record(index, rng);
            let output = book.len() + record.len();
            Vector::new(&name, &[Job::Add], book, answer).record(record).output(output)
        })
    });
    let others = AddStream::OTHERS.into_iter().flat_map(|what| {
        // Two of a full length are among the limits.
        let full = what.starts_with("new length");
        let drawn = (!full).then(|| {
            two_of(what, |rng| {
                let case = stream.case_of(what, 0, 0, rng);
                let answer = case.aimed.expect("all of these are aimed");
                let after = after_adding(&case.book, &case.other, answer);
                Vector::new(format!("added: {what}"), &[Job::Add], case.book, answer)
                    .record(case.other)
                    .output(case.output)
                    .after(after)
            })
        });
        drawn.unwrap_or_default()
    });
    with_fault.chain(others).collect()
}

fn after_adding(book: &[u8], record: &[u8], answer: Answer) -> Vec<u8> {
    match answer.number {
        0 => crate::vectors::added(book, record, usize::from(book[7]) + 1),
        _ => Vec::new(),
    }
}
