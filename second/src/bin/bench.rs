//! Times the built static library and this implementation on the same books.
//!
//! `bench [repeats]`; prints the median of the repeats for each call, the least
//! in parentheses, and the library's time as a multiple of this implementation's.
//! Each book is timed full and as its short twin, if that is no longer than a book
//! may be. On the book of many bound facts a plan is checked from 16 starts as well.

use std::process::ExitCode;

#[cfg(archive)]
#[path = "shared/library.rs"]
mod library;

#[cfg(archive)]
#[path = "shared/timing.rs"]
mod timing;

#[cfg(archive)]
fn main() -> ExitCode {
    use second::calls::Form;
    use second::gen::extreme::fullbook;
    use second::gen::Rng;

    let repeats = std::env::args().nth(1).map_or(Ok(201), |argument| argument.parse::<usize>());
    let Ok(repeats @ 1..) = repeats else {
        eprintln!("usage: bench [repeats]");
        return ExitCode::from(2);
    };
    let mut rng = Rng::new(2024);
    let timing = timing::Timing { repeats };
    timed::book("dense", &fullbook::dense(&mut rng), &timing);
    let many_steps = fullbook::many_steps(&mut rng);
    timed::book("many steps", &many_steps, &timing);
    // As many of the records as leave a short twin.
    let fewer = many_steps.fitting(Form::Short).twin();
    timed::book("many steps, fewer records", &fewer, &timing);
    let many_atoms = fullbook::many_atoms(&mut rng);
    timed::book("many bound facts", &many_atoms, &timing);
    timed::starts(&many_atoms, &timing);
    let not_gone = fullbook::every_third_not_gone(&mut rng);
    timed::book("every third step not gone", &not_gone, &timing);
    ExitCode::SUCCESS
}

#[cfg(archive)]
mod timed {
    use second::calls::{Calls, Form};
    use second::gen::draft::went;
    use second::gen::{BookDraft, OrderDraft};
    use second::limits::{BOOK_LIMIT, END_SHEET_LENGTH, RULES_LENGTH, START_LIMIT};
    use second::{add, check, convert, form, learn};

    use crate::library::Library;
    use crate::timing::Timing;

    /// Each call on one book, full and short.
    pub fn book(name: &str, full: &BookDraft, timing: &Timing) {
        let order = filed_order(full).bytes();
        for draft in [full.clone(), full.twin()] {
            let (form, bytes, steps) = (draft.form.name(), draft.length(), draft.steps());
            if bytes > BOOK_LIMIT {
                println!("{name}, {form}: {bytes} bytes are no book");
                continue;
            }
            let repeats = timing.repeats;
            println!("{name}, {form}: {bytes} bytes, {steps} steps, median (least) of {repeats}");
            readers(&draft, &order, timing);
            writers(&draft, timing);
        }
    }

    fn readers(draft: &BookDraft, order: &[u8], timing: &Timing) {
        let library = Library::default();
        let (book, form) = (draft.bytes(), draft.form);
        timing.compare(
            "look over",
            || library.look_over(&book, form.number()),
            || form::look_over(&book, form).packed(),
        );
        let [mut theirs, mut ours] = [(); 2].map(|()| vec![0; RULES_LENGTH * draft.moves.len()]);
        timing.compare(
            "learn",
            || library.learn(&book, form.number(), &mut theirs),
            || learn::learn(&book, form, &mut ours).packed(),
        );
        let [mut theirs, mut ours] = [[0; END_SHEET_LENGTH]; 2];
        timing.compare(
            "check",
            || library.check(&book, form.number(), order, &mut theirs),
            || check::check(&book, form, order, &mut ours).packed(),
        );
    }

    /// The calls that write a book.
    fn writers(draft: &BookDraft, timing: &Timing) {
        let library = Library::default();
        let (book, form) = (draft.bytes(), draft.form);
        let mut old = draft.clone();
        let record = old.records.pop().expect("a book that is timed has records").bytes();
        let old = old.bytes();
        let [mut theirs, mut ours] = [(); 2].map(|()| vec![0; BOOK_LIMIT]);
        timing.compare(
            "add the last record",
            || library.add(&old, form.number(), &record, &mut theirs),
            || add::add(&old, form, &record, &mut ours).packed(),
        );
        match form {
            Form::Full => timing.compare(
                "to short",
                || library.to_short(&book, &mut theirs),
                || convert::to_short(&book, &mut ours).packed(),
            ),
            Form::Short => timing.compare(
                "to full",
                || library.to_full(&book, &mut theirs),
                || convert::to_full(&book, &mut ours).packed(),
            ),
        }
    }

    /// The same plan from 16 starts. They are equal, so that each passes and is
    /// carried out to its end.
    pub fn starts(draft: &BookDraft, timing: &Timing) {
        let library = Library::default();
        let (book, form) = (draft.bytes(), draft.form);
        let mut order = filed_order(draft);
        order.starts = vec![order.starts.swap_remove(0); START_LIMIT];
        let order = order.bytes();
        let [mut theirs, mut ours] = [[0; END_SHEET_LENGTH]; 2];
        println!("the same, full, from 16 starts");
        timing.compare(
            "check",
            || library.check(&book, form.number(), &order, &mut theirs),
            || check::check(&book, form, &order, &mut ours).packed(),
        );
    }

    /// The steps of the last record of a full book that went, as a plan, which passes.
    fn filed_order(draft: &BookDraft) -> OrderDraft {
        let record = draft.records.last().expect("a book that is timed has records").clone();
        let end = record.states.last().expect("a record has a state");
        OrderDraft {
            goal: end.iter().take(64).map(|&fact| (1, fact)).collect(),
            starts: vec![record.states[0].clone()],
            objects: record.objects,
            steps: record.steps.into_iter().filter(went).collect(),
        }
    }
}

#[cfg(not(archive))]
fn main() -> ExitCode {
    eprintln!("no libchangeover.a: build it, or set CHANGEOVER_LIB_DIR to its folder");
    ExitCode::from(2)
}
