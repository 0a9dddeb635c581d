//! The test vectors: the file is the one that is printed, this implementation
//! passes them, and wrong ones do not. The bin `mistakes` builds the planted
//! mistakes and runs the file on them; here they are held to the sources.

use std::collections::BTreeSet;
use std::path::Path;
use std::sync::LazyLock;

#[path = "../mistakes/list.rs"]
mod list;

use second::calls::{unpacked, Form, Job};
use second::compare::By;
use second::vectors::{all, missing, parse, print, run, Vector};
use second::{Answer, Second};

static ALL: LazyLock<Vec<Vector>> = LazyLock::new(all);

#[test]
fn the_file_is_what_is_printed() {
    let file = concat!(env!("CARGO_MANIFEST_DIR"), "/../tests/vectors/vectors.txt");
    let text = std::fs::read_to_string(file).expect("the file is there");
    assert!(text == print(&ALL), "run `vectors print` and store what it prints");
    assert!(text.len() < 1 << 20, "{} bytes", text.len());
}

#[test]
fn text_and_back() {
    assert_eq!(parse(&print(&ALL)), Ok(ALL.clone()));
    let good = "vector a\njobs learn\nnumber 1\nplace 0\n\nend 1\n";
    assert!(parse(good).is_ok());
    for (right, wrong) in [
        ("vector a\n", ""),
        ("vector a\n", " 00\nvector a\n"),
        ("jobs learn\n", ""),
        ("learn", "fly"),
        ("number 1\n", ""),
        ("place", "plaice"),
        ("number 1\n", "form\nnumber 1\n"),
        ("number 1\n", "form short\nnumber 1\n"),
        ("number 1\n", "form 4294967296\nnumber 1\n"),
        ("end 1\n", ""),
        ("end 1", "end 2"),
    ] {
        let changed = good.replace(right, wrong);
        assert!(parse(&changed).is_err(), "{changed}");
    }
}

#[test]
fn names_differ_and_every_number_is_there() {
    let names: BTreeSet<&str> = ALL.iter().map(|vector| vector.name.as_str()).collect();
    assert_eq!(names.len(), ALL.len());
    assert_eq!(missing(&ALL), Vec::new());
}

#[test]
fn this_implementation_passes() {
    let (_, failures) = run(&ALL, &Second);
    let failures: Vec<String> = failures.iter().map(ToString::to_string).collect();
    assert_eq!(failures, Vec::<String>::new());
}

/// The vectors of one job on books of one form, for that job alone.
fn of(job: Job, form: Form) -> Vec<Vector> {
    let has = |vector: &&Vector| vector.jobs.contains(&job) && vector.form_for(job) == form;
    ALL.iter().filter(has).map(|vector| Vector { jobs: vec![job], ..vector.clone() }).collect()
}

/// Whether vectors find this implementation with its answers changed.
fn found(vectors: &[Vector], change: impl Fn(Answer) -> Answer) -> bool {
    let calls = By(|job: Job, book: &[u8], told: u32, other: &[u8], output: &mut [u8]| {
        change(unpacked(job.run(&Second, book, told, other, output))).packed()
    });
    !run(vectors, &calls).1.is_empty()
}

#[test]
fn a_wrong_number_place_or_position_is_found() {
    for (job, &form) in
        Job::ALL.into_iter().flat_map(|job| job.forms().iter().map(move |form| (job, form)))
    {
        let vectors = of(job, form);
        for number in job.numbers() {
            let one = |answer: Answer| u32::from(answer.number == number);
            let wrong_number = |a: Answer| Answer { number: a.number + one(a), ..a };
            let wrong_place = |a: Answer| Answer { place: a.place + one(a), ..a };
            let wrong_position = |a: Answer| Answer { position: a.position + one(a), ..a };
            let what = format!("{} {form:?} {number}", job.name());
            assert!(found(&vectors, wrong_number), "number: {what}");
            assert!(found(&vectors, wrong_place), "place: {what}");
            assert!(found(&vectors, wrong_position), "position: {what}");
        }
    }
}

/// The cheats that the paper names.
#[test]
fn a_cheat_is_found() {
    let passes_all = |answer: Answer| match answer.number {
        19 | 20 => Answer::success(1),
        _ => answer,
    };
    let stops_at_1 = |answer: Answer| match answer.number {
        19 => Answer { place: 1, ..answer },
        _ => answer,
    };
    let one_step = |answer: Answer| match answer.number {
        0 => Answer::success(1),
        _ => answer,
    };
    for form in Form::BOTH {
        let checked = of(Job::Check, form);
        assert!(found(&checked, passes_all) && found(&checked, stops_at_1));
        assert!(found(&of(Job::LookOver, form), one_step));
    }
}

/// As if the output were cleared before its length is looked at.
#[test]
fn a_written_byte_is_found() {
    for job in [Job::Learn, Job::Check, Job::Add, Job::ToShort, Job::ToFull] {
        let calls = By(|made: Job, book: &[u8], told: u32, other: &[u8], output: &mut [u8]| {
            let packed = made.run(&Second, book, told, other, output);
            if made == job && unpacked(packed).number == 13 {
                output.fill(0);
            }
            packed
        });
        assert!(!run(&ALL, &calls).1.is_empty(), "{}", job.name());
    }
}

/// A plan's state has no limit, so a checker that keeps 256 facts is found: some
/// vector has a start of 256 and adds to it.
#[test]
fn plans_go_beyond_256_facts() {
    let facts = |vector: &Vector| vector.after.iter().map(|byte| byte.count_ones()).sum::<u32>();
    let passed = |vector: &&Vector| vector.jobs == [Job::Check] && vector.answer.number == 0;
    let counts: BTreeSet<u32> = ALL.iter().filter(passed).map(facts).collect();
    for count in [256, 257, 272, 320, 4096] {
        assert!(counts.contains(&count), "{count}");
    }
}

#[test]
fn every_mistake_stands_in_the_sources_once() {
    let here = Path::new(env!("CARGO_MANIFEST_DIR"));
    let mistakes = list::all(&here.join("mistakes")).expect("the list can be read");
    assert!(mistakes.len() >= 750, "{}", mistakes.len());
    for mistake in &mistakes {
        for edit in &mistake.edits {
            let source = std::fs::read_to_string(here.join("src").join(&edit.file));
            let source = source.expect("the file is there");
            let wrong = edit.apply(&source).unwrap_or_else(|e| panic!("{}: {e}", mistake.name));
            assert_ne!(wrong, source, "{}", mistake.name);
        }
    }
}

/// Of each row its condition, its place and where it stands have been mistaken.
#[test]
fn every_row_has_its_mistakes() {
    let here = Path::new(env!("CARGO_MANIFEST_DIR"));
    let mistakes = list::all(&here.join("mistakes")).expect("the list can be read");
    let about = |what: &str| mistakes.iter().any(|mistake| mistake.about.starts_with(what));
    for row in (1..=24).chain([27, 28]) {
        assert!(about(&format!("row {row}, condition")), "{row}");
        assert!(about(&format!("row {row}, place")), "{row}");
        assert!(row == 20 || about(&format!("row {row} before row")), "{row}");
    }
}
