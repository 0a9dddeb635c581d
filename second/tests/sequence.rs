//! The sequence of a book's records does not matter, in either form: the same sheet and
//! the same verdict, and of an impossible book the same refusal, by 12 with its move.
//! The place of 11 and of 28 is an offset, and may be another. The comparison finds others to
//! which the sequence matters.

use std::cell::RefCell;

use second::calls::{unpacked, Calls, Form, Job};
use second::compare::{self, By, Run};
use second::gen::draft::sequence;
use second::gen::hall::{book, Dynamics};
use second::gen::plan::{order, tiny};
use second::gen::Rng;
use second::judge::{verdicts, Verdict};
use second::{check, form, learn, Answer, Second};

/// Of what is drawn by the second and third a good part is impossible, by the last most.
const DYNAMICS: [Dynamics; 4] =
    [Dynamics::Follows, Dynamics::Slips, Dynamics::Slips, Dynamics::Random];

/// The answer of learning, and the sheet.
fn learned(book: &[u8], form: Form) -> (Answer, Vec<u8>) {
    let mut sheet = vec![0x3c; 128 * usize::from(book[5])];
    let answer = learn::learn(book, form, &mut sheet);
    (answer, sheet)
}

/// The answer of checking, and the end sheet.
fn checked(book: &[u8], form: Form, order: &[u8]) -> (Answer, Vec<u8>) {
    let mut end = vec![0x3c; 512];
    let answer = check::check(book, form, order, &mut end);
    (answer, end)
}

/// Both must be the same but for the place of 11 and 28; answers whether that is another.
fn assert_alike(one: &(Answer, Vec<u8>), other: &(Answer, Vec<u8>), case: &str) -> bool {
    let place = if one.0.is_at_step() { other.0.place } else { one.0.place };
    assert_eq!(Answer { place, ..one.0 }, other.0, "{case}");
    assert!(one.1 == other.1, "{case}: other bytes");
    one.0.place != place
}

/// Drawn books of good form, each in two sequences, by the number of its draw and with
/// what else is drawn.
fn in_two_sequences<T>(
    seed: u64,
    count: usize,
    draw: impl Fn(&mut Rng) -> (Vec<u8>, T),
) -> impl Iterator<Item = (usize, [Vec<u8>; 2], T)> {
    (0..count).filter_map(move |index| {
        let rng = &mut Rng::of_case(seed, index);
        let (book, more) = draw(rng);
        let other = sequence::permuted(&book, rng)?;
        Some((index, [book, other], more))
    })
}

#[test]
fn learning_in_another_sequence() {
    for form in Form::BOTH {
        let draw = |rng: &mut Rng| {
            let dynamics = *rng.pick(&DYNAMICS).expect("there are four");
            (book::any_size(form, dynamics, rng).1.bytes(), ())
        };
        // Learned, refused by 11 at the same place and elsewhere, by 12, and by 28 likewise.
        let mut met = [0; 6];
        for (index, books, ()) in in_two_sequences(21, 6_000, draw) {
            let [looked, other] = [0, 1].map(|n| form::look_over(&books[n], form));
            assert_eq!(looked, other, "{form:?} {index}");
            let [one, other] = books.map(|book| learned(&book, form));
            let elsewhere = assert_alike(&one, &other, &format!("{form:?} {index}"));
            met[match one.0.number {
                0 => 0,
                11 => 1 + usize::from(elsewhere),
                12 => 3,
                _ => 4 + usize::from(elsewhere),
            }] += 1;
        }
        println!("{form:?}: learned, 11, 11 elsewhere, 12, 28, 28 elsewhere: {met:?}");
        assert!(met[0].min(met[2]).min(met[3]) > 500 && met[1] > 50, "{form:?} {met:?}");
        assert!(met[4] > 5 && met[5] > 100, "{form:?} {met:?}");
    }
}

#[test]
fn checking_in_another_sequence() {
    for form in Form::BOTH {
        let draw = |rng: &mut Rng| {
            let shape = if rng.chance(85) { book::SMALL } else { book::MEDIUM };
            let dynamics = *rng.pick(&DYNAMICS[..2]).expect("there are two");
            let world = book::of_shape(&shape, dynamics, rng);
            let order = order::for_world(&world, &shape, rng).bytes();
            (world.book.fitting(form).bytes(), order)
        };
        // Passes from one start and from several, 19, 20, of these from a later start,
        // 11, 12.
        let mut met = [0; 7];
        for (index, books, order) in in_two_sequences(22, 8_000, draw) {
            let [one, other] = books.map(|book| checked(&book, form, &order));
            assert_alike(&one, &other, &format!("{form:?} {index}"));
            met[match one.0.number {
                0 => usize::from(order[3] > 1),
                19 => 2,
                20 => 3,
                11 => 5,
                _ => 6,
            }] += 1;
            met[4] += usize::from(one.0.position > 1);
        }
        println!("{form:?}: 0 of one start and several, 19, 20, later, 11, 12: {met:?}");
        assert!(met.iter().all(|&times| times > 500), "{form:?} {met:?}");
    }
}

/// The judge knows no sheet: he holds the rule lists that fit each record.
#[test]
fn the_judge_in_another_sequence() {
    for form in Form::BOTH {
        let draw = |rng: &mut Rng| {
            let plan = tiny::draw(rng);
            (plan.book.in_form(form).bytes(), plan.order.bytes())
        };
        // Impossible, stops, misses, passes.
        let mut met = [0; 4];
        for (index, books, order) in in_two_sequences(23, 2_500, draw) {
            let [said, other] = [0, 1].map(|n| verdicts(&books[n], form, &order));
            assert_eq!(said, other, "{form:?} hall {index}");
            let [one, other] = books.map(|book| checked(&book, form, &order));
            assert_alike(&one, &other, &format!("{form:?} hall {index}"));
            let impossible = said[0] == Verdict::Impossible;
            assert_eq!(impossible, matches!(one.0.number, 11 | 12 | 28), "{form:?} hall {index}");
            met[match said[0] {
                Verdict::Impossible => 0,
                Verdict::Stops { .. } => 1,
                Verdict::Misses { .. } => 2,
                Verdict::Passes { .. } => 3,
            }] += 1;
        }
        println!("{form:?}: impossible, 19, 20, 0: {met:?}");
        assert!(met.iter().all(|&times| times > 100), "{form:?} {met:?}");
    }
}

/// What is made of the answer to a book, the answer to the same in another sequence and
/// its output.
type Again = fn(Answer, Answer, &mut [u8]) -> Answer;

/// Right of every book by itself, but not of one that has the records of the book before
/// in another sequence.
fn wrong_again(wrong: Job, change: Again) -> impl Calls {
    // One for each form, since a book's twin is asked for in between.
    type Last = Option<(Vec<u8>, Answer)>;
    let before: RefCell<[Last; 2]> = RefCell::default();
    By(move |job: Job, book: &[u8], form: u32, other: &[u8], output: &mut [u8]| {
        let answer = unpacked(job.run(&Second, book, form, other, output));
        if job != wrong || unpacked(Second.look_over(book, form)).number != 0 {
            return answer.packed();
        }
        let last = before.borrow_mut()[usize::from(form > 0)].replace((book.to_vec(), answer));
        let changed = match last {
            Some((last, said)) if last != book && unsequenced(&last) == unsequenced(book) => {
                change(said, answer, output)
            }
            _ => answer,
        };
        changed.packed()
    })
}

/// The first sections of a good book, and its records in the order of their bytes.
fn unsequenced(book: &[u8]) -> (&[u8], Vec<&[u8]>) {
    let (front, mut records) = sequence::parts(book);
    records.sort_unstable();
    (front, records)
}

#[test]
fn the_comparison_finds_another_sequence() {
    let wrongs: [(&str, Job, Again); 7] = [
        ("a step more looked over", Job::LookOver, |_, answer, _| add_to_place(0, answer)),
        ("a bit of the sheet", Job::Learn, |_, answer, sheet| {
            if answer.number == 0 && !sheet.is_empty() {
                sheet[0] ^= 1;
            }
            answer
        }),
        ("another move", Job::Learn, |_, answer, _| add_to_place(12, answer)),
        ("another step", Job::Check, |_, answer, _| add_to_place(19, answer)),
        // Right but for the place of 11, which the other one alone can't tell.
        ("what was said before", Job::Learn, |before, _, _| before),
        ("what was said before by 11", Job::Check, |before, answer, _| match answer.number {
            11 => before,
            _ => answer,
        }),
        ("what was said before by 28", Job::Learn, |before, answer, _| match answer.number {
            28 => before,
            _ => answer,
        }),
    ];
    for (what, job, change) in wrongs {
        for form in Form::BOTH {
            let run = Run { seed: 7, count: 4_000 };
            let outcome = compare::job(job, form, run, &wrong_again(job, change));
            let difference = outcome.err().unwrap_or_else(|| panic!("not found: {what}"));
            assert!(difference.note.contains("another sequence"), "{what}: {difference}");
        }
    }
}

/// The place is one greater if the answer is of this number.
fn add_to_place(number: u32, answer: Answer) -> Answer {
    Answer { place: answer.place + u32::from(answer.number == number), ..answer }
}
