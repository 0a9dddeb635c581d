//! Steps that did not go, from the paper: 128 is added to their move, the states before and
//! after them are equal (27), they teach nothing, and some learned need was unmet (28).

mod shared;

use second::calls::{unpacked, Form, Job};
use second::gen::draft::{action, went};
use second::gen::hall::{book, Dynamics};
use second::gen::plan::{any, crowded_hall, tiny};
use second::gen::{BookDraft, Rng};
use second::judge::{judge, judge_absent, verdicts, Verdict};
use second::{form, learn, listing, Answer, Refusal, Second};
use shared::{hex, order};

const FRONT: &str = "02010200 01020000 | 030102020000";
/// The small hall's record, full and short.
const FILED: &str = "0301001C 010202 0002 010102 020300 0101020300 0002 010103 020200";
const TURNED: &str = "03010022 010202 0002 010102 020300 0101020300 \
                      0004 010102 010103 020200 020300";
/// The roll was tried with spot 3 not clear, full and short.
const BARRED: &str = "03010016 010202 0001 010102 8101020300 0001 010102";
const BARRED_SHORT: &str = "03010013 010202 0001 010102 8101020300 0000";
/// The roll was tried as it went in the record above.
const MET: &str = "0301001C 010202 0002 010102 020300 8101020300 0002 010102 020300";
const MET_SHORT: &str = "03010016 010202 0002 010102 020300 8101020300 0000";

/// The small hall with these records, or what is meant for such.
fn hall(records: &[&str]) -> Vec<u8> {
    let bytes = hex(&records.concat());
    let numbers = format!("{:04x} 0010 0018 001E {:04x}", records.len(), 30 + bytes.len());
    [hex(&format!("0002 0002 0001 {numbers} {FRONT}")), bytes].concat()
}

/// The filed record, the one that a need bars and the one that none bars.
fn records(form: Form) -> [&'static str; 3] {
    match form {
        Form::Full => [FILED, BARRED, MET],
        Form::Short => [TURNED, BARRED_SHORT, MET_SHORT],
    }
}

fn learned(book: &[u8], form: Form) -> (Answer, Vec<u8>) {
    let mut sheet = vec![0xa5; 128];
    let answer = learn::learn(book, form, &mut sheet);
    (answer, sheet)
}

#[test]
fn learned_as_without_the_step() {
    for form in Form::BOTH {
        let [filed, barred, _] = records(form);
        let (answer, sheet) = learned(&hall(&[filed]), form);
        assert_eq!(answer, Answer::success(1));
        for (records, steps) in
            [(&[filed, barred][..], 2), (&[barred, filed], 2), (&[barred, filed, barred, filed], 4)]
        {
            assert_eq!(form::look_over(&hall(records), form), Answer::success(steps));
            assert_eq!(learned(&hall(records), form), (Answer::success(steps), sheet.clone()));
        }
    }
    let lines = "1 1 1 2 H R\n1 1 1 3 N A\n1 2 2 0 N A\n1 2 3 0 H R\n";
    let text = format!("moves 1 records 2 steps 2\n{lines}");
    assert_eq!(listing::rules(&hall(&[FILED, BARRED])), text);
}

#[test]
fn all_needs_met_is_28_at_the_first_such_step() {
    for form in Form::BOTH {
        let [filed, barred, met] = records(form);
        let untouched = vec![0xa5; 128];
        let at = |place: usize| (Refusal::NeedsMet.at(place), untouched.clone());
        let step = |before: &[&str]| hall(before).len() + 15;
        assert_eq!(learned(&hall(&[filed, met]), form), at(step(&[filed])));
        assert_eq!(learned(&hall(&[met, filed]), form), at(45));
        assert_eq!(learned(&hall(&[filed, barred, met]), form), at(step(&[filed, barred])));
        assert_eq!(learned(&hall(&[filed, met, met]), form), at(step(&[filed])));
        assert_eq!(form::look_over(&hall(&[filed, met]), form), Answer::success(2));
    }
    let book = hall(&[FILED, MET]);
    assert_eq!(listing::rules(&book), "refused 28 73\n");
    assert_eq!(listing::plan(&book, &[]), "refused 28 73\n");
}

/// A record of such steps alone has steps, and its move is one never recorded.
#[test]
fn never_recorded() {
    for form in Form::BOTH {
        for record in &records(form)[1..] {
            let (answer, sheet) = learned(&hall(&[record]), form);
            assert_eq!(answer, Answer::success(1));
            assert_eq!(sheet, learned(&hall(&[]), form).1);
        }
    }
    let both = "1 1 1 2 B K\n1 1 1 3 B K\n1 2 2 0 B K\n1 2 3 0 B K\n";
    assert_eq!(listing::rules(&hall(&[BARRED])), format!("moves 1 records 1 steps 1\n{both}"));
}

/// Every call that reads a book of this form answers this, and writes nothing.
fn answered(book: &[u8], form: Form, answer: Answer) {
    for job in Job::ALL.into_iter().filter(|job| job.forms().contains(&form)) {
        for lent in [0, 128, 512, 600] {
            let mut output = vec![0xa5; lent];
            let given = unpacked(job.run(&Second, book, form.number(), &[], &mut output));
            assert_eq!(given, answer, "{} {form:?} {book:02x?}", job.name());
            assert!(output.iter().all(|&byte| byte == 0xa5), "a refusal writes");
        }
    }
}

#[test]
fn states_that_differ_are_27_at_the_step() {
    let (front, at_42) = ("010202 0001 010102 8101020300", Refusal::StatesDiffer.at(42));
    for after in ["0000", "0002 010102 020300", "0001 010103", "0001 020300"] {
        let length = 4 + hex(front).len() + hex(after).len();
        let record = format!("0301{length:04x} {front} {after}");
        answered(&hall(&[&record]), Form::Full, at_42);
        answered(&hall(&[FILED, &record]), Form::Full, Refusal::StatesDiffer.at(70));
        // A byte left in the record is met later.
        let left = format!("0301{:04x} {front} {after} 00", length + 1);
        answered(&hall(&[&left]), Form::Full, at_42);
    }
    answered(&hall(&[&format!("03010016 {front} 0001 020300")]), Form::Short, at_42);
    // A fault of the state after it is met first.
    for form in Form::BOTH {
        let wrong = format!("03010016 {front} 0001 030103");
        answered(&hall(&[&wrong]), form, Refusal::State.at(49));
    }
}

#[test]
fn moves_that_are_none() {
    for form in Form::BOTH {
        let barred = records(form)[1];
        for (step, refusal) in [
            ("8001020300", Refusal::Step),
            ("8201020300", Refusal::Step),
            ("FF01020300", Refusal::Step),
            ("8102020300", Refusal::Step),
            ("8101020301", Refusal::Step),
            ("8101020200", Refusal::ObjectTwice),
        ] {
            let book = hall(&[&barred.replace("8101020300", step)]);
            answered(&book, form, refusal.at(42));
        }
        let objects = [1, 2, 2];
        for number in [128, 129, 130, 255] {
            let plan = order(&objects, &[], &[], &[[number, 1, 2, 3, 0]]);
            let mut end = [0; 512];
            let said = Job::Check.run(&Second, &hall(&[barred]), form.number(), &plan, &mut end);
            assert_eq!(unpacked(said), Refusal::PlanStep.at(21));
        }
    }
}

#[test]
fn converted_with_their_mark() {
    for (full, short) in
        [([FILED, BARRED], [TURNED, BARRED_SHORT]), ([FILED, MET], [TURNED, MET_SHORT])]
    {
        let (full, short) = (hall(&full), hall(&short));
        for (job, from, to) in [(Job::ToShort, &full, &short), (Job::ToFull, &short, &full)] {
            let mut output = vec![0; to.len()];
            let said = unpacked(job.run(&Second, from, 0, &[], &mut output));
            assert_eq!(said, Answer::success(to.len()));
            assert_eq!(&output, to);
        }
    }
}

#[test]
fn added_and_left_to_learning() {
    for form in Form::BOTH {
        let [filed, barred, met] = records(form);
        for record in [barred, met] {
            let (old, new) = (hall(&[filed]), hall(&[filed, record]));
            let mut output = vec![0; new.len()];
            let said = Job::Add.run(&Second, &old, form.number(), &hex(record), &mut output);
            assert_eq!(unpacked(said), Answer::success(new.len()));
            assert_eq!(output, new);
        }
        let differs = "03010016 010202 0001 010102 8101020300 0001 010103";
        let old = hall(&[filed]);
        let said = Job::Add.run(&Second, &old, form.number(), &hex(differs), &mut []);
        assert_eq!(unpacked(said), Refusal::StatesDiffer.at(old.len() + 12));
    }
}

/// A list fits such a step if it has an unmet need there; no list bars a move that has no
/// bound facts.
#[test]
fn the_judge_holds_lists_that_bar_the_step() {
    let plan = order(&[1, 2, 2], &[[1, 1, 2], [2, 3, 0]], &[], &[[1, 1, 2, 3, 0]]);
    for form in Form::BOTH {
        let [filed, barred, met] = records(form);
        let said = verdicts(&hall(&[filed]), form, &plan);
        assert!(matches!(said[..], [Verdict::Passes { steps: 1, .. }]));
        assert_eq!(verdicts(&hall(&[filed, barred]), form, &plan), said);
        assert_eq!(verdicts(&hall(&[filed, met]), form, &plan), [Verdict::Impossible]);
        let absent = judge_absent(&hall(&[filed, met]), form, &plan);
        assert_eq!(absent[0].verdict, said[0]);
        assert_eq!(verdicts(&hall(&[met]), form, &plan), [Verdict::Stops { step: 1 }]);
    }
    let bare = hex("0000 0000 0001 0001 0010 0010 0016 0023 000000000000 \
                    0001000D 0000 8100000000 0000");
    let nothing = order(&[], &[], &[], &[]);
    for form in Form::BOTH {
        assert_eq!(judge(&bare, form, &nothing)[0].verdict, Verdict::Impossible);
        assert_eq!(learn::learn(&bare, form, &mut [0; 128]), Refusal::NeedsMet.at(28));
    }
}

/// What drawn books have of such steps.
#[derive(Debug, Default)]
struct Met {
    books: usize,
    with_such: usize,
    of_these_learned: usize,
    needs_met: usize,
    /// Records of such steps alone, and of both.
    alone: usize,
    mixed: usize,
    /// Such steps of a move of which none went.
    never_recorded: usize,
}

impl Met {
    fn count(&mut self, book: &BookDraft) {
        let steps = || book.records.iter().flat_map(|record| &record.steps);
        let went_of = |index: usize| steps().any(|step| went(step) && action(step) == index);
        let not_gone = || steps().filter(|step| !went(step));
        self.books += usize::from(!book.records.is_empty());
        self.with_such += usize::from(book.has_inapplicable());
        self.never_recorded += usize::from(not_gone().any(|step| !went_of(action(step))));
        for record in &book.records {
            let such = record.steps.iter().filter(|step| !went(step)).count();
            self.alone += usize::from(such == record.steps.len());
            self.mixed += usize::from((1..record.steps.len()).contains(&such));
        }
        let mut sheet = vec![0; 128 * book.moves.len()];
        match learn::learn(&book.bytes(), book.form, &mut sheet).number {
            0 => self.of_these_learned += usize::from(book.has_inapplicable()),
            28 => self.needs_met += 1,
            _ => {}
        }
    }
}

/// Most books have such steps, and most of those that have them learn.
#[test]
fn drawn_books_have_steps_that_did_not_go() {
    type Draw = fn(Form, &mut Rng) -> BookDraft;
    let draws: [(&str, usize, Draw); 5] = [
        ("any size", 3_000, |form, rng| book::any_size(form, Dynamics::Follows, rng).1),
        ("to damage", 3_000, book::to_damage_any),
        ("any plan", 3_000, |_, rng| any::draw(rng).book),
        ("tiny", 3_000, |_, rng| tiny::draw(rng).book),
        ("crowded", 300, |_, rng| crowded_hall::draw(rng).book),
    ];
    for (what, count, draw) in draws {
        let mut met = Met::default();
        for index in 0..count {
            met.count(&draw(Form::BOTH[index % 2], &mut Rng::of_case(31, index)));
        }
        println!("{what}: {met:?}");
        assert!(10 * met.with_such > 4 * met.books, "{what}: {met:?}");
        assert!(3 * met.of_these_learned > met.with_such, "{what}: {met:?}");
        assert!(25 * met.needs_met > met.with_such, "{what}: {met:?}");
        assert!(met.alone.min(met.mixed) > count / 10, "{what}: {met:?}");
    }
}
