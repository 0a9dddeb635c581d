//! Learning and checking by the paper's words: the definition gives the vectors'
//! answers, this implementation does as defined, and wrong ones do not.

use second::calls::{unpacked, Calls, Form, Job};
use second::compare::{self, By, Capped, Run};
use second::gen::{BookDraft, OrderDraft};
use second::{definition, vectors, Answer, Refusal, Second};

/// The definition as calls, for inputs of good form.
fn defined() -> impl Calls {
    By(|job: Job, book: &[u8], told: u32, order: &[u8], output: &mut [u8]| {
        let form = if told == 0 { Form::Full } else { Form::Short };
        let book = BookDraft::parse(book, form).in_form(Form::Full);
        let defined = match job {
            Job::Learn => definition::learn(&book, form),
            _ => definition::check(&book, form, &OrderDraft::parse(order)),
        };
        if let Some(bytes) = defined.written {
            output.copy_from_slice(&bytes);
        }
        defined.answer.packed()
    })
}

#[test]
fn the_definition_gives_the_vectors_answers() {
    for (job, numbers) in [(Job::Learn, &[0, 11, 12, 28][..]), (Job::Check, &[0, 19, 20])] {
        let of_job: Vec<vectors::Vector> = vectors::all()
            .into_iter()
            .filter(|vector| vector.jobs.contains(&job) && numbers.contains(&vector.answer.number))
            .map(|vector| vectors::Vector { jobs: vec![job], ..vector })
            .collect();
        let (runs, failures) = vectors::run(&of_job, &defined());
        let failures: Vec<String> = failures.iter().map(ToString::to_string).collect();
        assert_eq!(failures, Vec::<String>::new());
        assert!(runs > 200, "{runs} vectors of {}", job.name());
    }
}

#[test]
fn this_implementation_does_as_defined() {
    let run = Run { seed: 0, count: 6_000 };
    let met = compare::definition(run, &Second).unwrap_or_else(|difference| panic!("{difference}"));
    println!("{met}");
    assert_eq!(met.missing(), Vec::<String>::new());
}

/// Each is right but for one thing, in one form of a book.
#[test]
fn wrong_ones_are_found() {
    type Change = fn(Answer, &mut [u8]) -> Answer;
    let wrongs: [(&str, Job, Change); 9] = [
        ("no fact is needed not to hold", Job::Learn, |answer, sheet| {
            if answer.number == 0 && !sheet.is_empty() {
                sheet[32..64].fill(0);
            }
            answer
        }),
        ("11 at the step's state", Job::Learn, |answer, _| match answer.number {
            11 => Answer { place: answer.place + 5, ..answer },
            _ => answer,
        }),
        ("12 by the first move", Job::Check, |answer, _| match answer.number {
            12 => Refusal::EffectConflict.at(1),
            _ => answer,
        }),
        ("28 at the step's state", Job::Learn, |answer, _| match answer.number {
            28 => Answer { place: answer.place + 5, ..answer },
            _ => answer,
        }),
        ("28 is 12", Job::Check, |answer, _| match answer.number {
            28 => Refusal::EffectConflict.at(1),
            _ => answer,
        }),
        ("stops at step 1", Job::Check, |answer, _| match answer.number {
            19 => Answer { place: 1, ..answer },
            _ => answer,
        }),
        ("passes every plan", Job::Check, |answer, _| match answer.number {
            19 | 20 => Answer::success(1),
            _ => answer,
        }),
        ("fails by the first start", Job::Check, |answer, _| match answer.position {
            0 => answer,
            _ => answer.from_start(1),
        }),
        ("the end sheet lacks its first byte", Job::Check, |answer, end| {
            if answer.number == 0 {
                end[0] = 0;
            }
            answer
        }),
    ];
    let run = Run { seed: 3, count: 500 };
    for ((what, wrong, change), form) in
        wrongs.into_iter().flat_map(|wrong| [0, 1].map(|form| (wrong, form)))
    {
        let calls = By(|job: Job, book: &[u8], told: u32, other: &[u8], output: &mut [u8]| {
            let answer = unpacked(job.run(&Second, book, told, other, output));
            let is_wrong = job == wrong && told == form;
            if is_wrong { change(answer, output) } else { answer }.packed()
        });
        assert!(compare::definition(run, &calls).is_err(), "not found: {what}, form {form}");
    }
    assert!(compare::definition(run, &Capped).is_err(), "not found: a state of 256 facts");
}
