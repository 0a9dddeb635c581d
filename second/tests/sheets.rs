//! What the rule sheet does not depend on, and memory left untouched.

use second::calls::{unpacked, Form, Job};
use second::gen::hall::{book, Dynamics};
use second::gen::stream::mixed::BookStream;
use second::gen::{BookDraft, Rng};
use second::{learn, Second};

fn sheet(draft: &BookDraft) -> (u32, Vec<u8>) {
    let mut sheet = vec![0; 128 * draft.moves.len()];
    let answer = learn::learn(&draft.bytes(), draft.form, &mut sheet);
    (answer.number, sheet)
}

/// Books that follow their rules, with at least one step.
fn books(count: usize) -> impl Iterator<Item = (BookDraft, Rng)> {
    (0..)
        .map(Rng::new)
        .filter_map(|mut rng| {
            let draft = book::of_shape(&book::SMALL, Dynamics::Follows, &mut rng).book;
            (draft.steps() > 0).then_some((draft, rng))
        })
        .take(count)
}

/// Renumbering the objects of each record leaves the sheet the same.
#[test]
fn object_numbers_do_not_matter() {
    let mut renumbered = 0;
    for (draft, mut rng) in books(2_000) {
        let mut other = draft.clone();
        for record in &mut other.records {
            let mut numbers: Vec<u8> = (1..=record.objects.len() as u8).collect();
            rng.shuffle(&mut numbers);
            *record = record.renumbered(&numbers);
        }
        renumbered += usize::from(draft.bytes() != other.bytes());
        assert_eq!(sheet(&draft).0, 0);
        assert_eq!(sheet(&draft), sheet(&other));
    }
    assert!(renumbered > 1_000, "{renumbered}");
}

/// A move's 128 bytes come from its own steps: the other moves' may be cut off.
#[test]
fn other_moves_do_not_matter() {
    let mut compared = 0;
    for (draft, _) in books(2_000) {
        let whole = sheet(&draft).1;
        for number in 1..=draft.moves.len() as u8 {
            let mut own = draft.clone();
            own.records = draft
                .records
                .iter()
                .flat_map(|record| {
                    (0..record.steps.len()).filter(|&index| record.steps[index][0] == number).map(
                        |index| second::gen::RecordDraft {
                            objects: record.objects.clone(),
                            states: record.states[index..=index + 1].to_vec(),
                            steps: vec![record.steps[index]],
                        },
                    )
                })
                .collect();
            let part = 128 * (usize::from(number) - 1)..128 * usize::from(number);
            assert_eq!(sheet(&own).1[part.clone()], whole[part]);
            compared += usize::from(own.steps() > 0 && own.steps() < draft.steps());
        }
    }
    assert!(compared > 500, "{compared}");
}

/// The two forms of a book give the same sheet, and the same number without one.
#[test]
fn the_form_does_not_matter() {
    let mut met = [0; 2];
    for seed in 0..3_000 {
        let mut rng = Rng::new(seed);
        let dynamics = if rng.chance(30) { Dynamics::Follows } else { Dynamics::Slips };
        let draft = book::of_shape(&book::SMALL, dynamics, &mut rng).book;
        assert_eq!(sheet(&draft), sheet(&draft.twin()), "seed {seed}");
        met[usize::from(sheet(&draft).0 == 0)] += usize::from(draft.steps() > 0);
    }
    assert!(met.iter().all(|&times| times > 500), "{met:?}");
}

#[test]
fn refusals_leave_lent_memory_untouched() {
    for form in Form::BOTH {
        let stream = BookStream::new(form, 11);
        let mut refused = 0;
        for index in 0..2_000 {
            let case = stream.case(index);
            for (job, length) in Job::ALL.into_iter().zip([0, 128, 512, 700, 700, 700]) {
                if !job.forms().contains(&form) {
                    continue;
                }
                let mut lent = vec![0x3c; length];
                let packed = job.run(&Second, &case.book, case.form, &[1, 2, 3], &mut lent);
                if unpacked(packed).number != 0 {
                    refused += 1;
                    assert!(lent.iter().all(|&byte| byte == 0x3c), "{} {index}", job.name());
                }
            }
        }
        assert!(refused > 5_000, "{refused}");
    }
}
