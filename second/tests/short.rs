//! Short books: the small hall by hand, the limits of what turns and of what is left,
//! and drawn books beside their twins in the other form.

mod shared;

use second::calls::{unpacked, Calls, Form, Job};
use second::gen::extreme::{fullbook, turns};
use second::gen::hall::{book, Dynamics};
use second::gen::plan::order;
use second::gen::{extreme, BookDraft, Rng};
use second::{add, check, convert, form, learn, Answer, Refusal, Second};
use shared::{hex, set};

fn full_hall() -> Vec<u8> {
    hex("0002 0002 0001 0001 0010 0018 001E 003A | 02010200 01020000 | 030102020000 | \
         0301001C 010202 0002 010102 020300 0101020300 0002 010103 020200")
}

/// The bank leaves spot 2 for spot 3; spot 2 is cleared and spot 3 is not any more.
fn short_hall() -> Vec<u8> {
    hex("0002 0002 0001 0001 0010 0018 001E 0040 | 02010200 01020000 | 030102020000 | \
         03010022 010202 0002 010102 020300 0101020300 0004 010102 010103 020200 020300")
}

/// What a converter writes for a book of this form, with room for any.
fn converted(book: &[u8], form: Form) -> Result<Vec<u8>, Answer> {
    let mut out = vec![0x3c; 60_010];
    let answer = match form {
        Form::Full => convert::to_short(book, &mut out),
        Form::Short => convert::to_full(book, &mut out),
    };
    let untouched = |bytes: &[u8]| bytes.iter().all(|&byte| byte == 0x3c);
    if answer.number != 0 {
        assert!(untouched(&out), "a refusal writes");
        return Err(answer);
    }
    assert!(untouched(&out[answer.place as usize..]), "bytes beyond the new book stay");
    out.truncate(answer.place as usize);
    Ok(out)
}

#[test]
fn the_small_hall_there_and_back() {
    assert_eq!(converted(&full_hall(), Form::Full), Ok(short_hall()));
    assert_eq!(converted(&short_hall(), Form::Short), Ok(full_hall()));
    assert_eq!(form::look_over(&short_hall(), Form::Short), Answer::success(1));
}

#[test]
fn the_small_hall_learned_and_checked() {
    let mut sheet = vec![0xee; 128];
    assert_eq!(learn::learn(&short_hall(), Form::Short, &mut sheet), Answer::success(1));
    let sets = [&[1, 24], &[2, 20], &[2, 20], &[1, 24]].map(|bits| set(32, bits));
    assert_eq!(sheet, sets.concat());
    let order = shared::order(
        &[1, 2, 2, 2],
        &[[1, 1, 2], [2, 3, 0], [2, 4, 0]],
        &[(1, [1, 1, 4])],
        &[[1, 1, 2, 3, 0], [1, 1, 3, 4, 0]],
    );
    let mut end = [0xa5; 512];
    let answer = check::check(&short_hall(), Form::Short, &order, &mut end);
    assert_eq!(answer, Answer::success(2));
    assert_eq!(end[..], set(512, &[3, 256 + 16, 256 + 32]));
}

/// 0 is a full book, any other number a short one.
#[test]
fn every_number_but_0_is_short() {
    let learned = |form: u32| {
        let mut sheet = vec![0; 128];
        assert_eq!(Second.learn(&short_hall(), form, &mut sheet) >> 48, 0);
        sheet
    };
    for form in [2, 255, 256, 1 << 16, 1 << 31, u32::MAX] {
        assert_eq!(learned(form), learned(1), "{form}");
    }
    assert_ne!(learned(0), learned(1));
}

/// The output may be longer than the new book, and not shorter.
#[test]
fn outputs() {
    for (job, book, length) in
        [(Job::ToShort, full_hall(), 64), (Job::ToFull, short_hall(), 58usize)]
    {
        for lent in 0..80 {
            let mut out = vec![7; lent];
            let answer = unpacked(job.run(&Second, &book, 0, &[], &mut out));
            let expected =
                if lent < length { Refusal::Output.at(0) } else { Answer::success(length) };
            assert_eq!(answer, expected, "{} {lent}", job.name());
            let written = out.iter().rposition(|&byte| byte != 7).map_or(0, |last| last + 1);
            assert_eq!(written, if lent < length { 0 } else { length });
        }
    }
}

/// Each limit of what turns and of what is left, in drawn books.
#[test]
fn limits_of_turns() {
    for index in 0..40 * turns::COUNT {
        let (what, (book, aimed)) = turns::case(index % turns::COUNT, &mut Rng::of_case(2, index));
        assert_eq!(form::look_over(&book, Form::Short), aimed, "{what}, {index}");
        match converted(&book, Form::Short) {
            Ok(full) => assert_eq!(converted(&full, Form::Full), Ok(book), "{what}, {index}"),
            Err(refusal) => assert_eq!(refusal, aimed, "{what}, {index}"),
        }
    }
}

/// A book of good form that may learn or not.
fn draw(form: Form, index: usize) -> BookDraft {
    let mut rng = Rng::of_case(3, index);
    let dynamics = [Dynamics::Follows, Dynamics::Slips, Dynamics::Random][index % 3];
    book::any_size(form, dynamics, &mut rng).1
}

/// Converting there and back restores every byte, and what is converted is good. The
/// other form is at times shorter and at times longer; 23 is met if it is too long.
#[test]
fn drawn_books_there_and_back() {
    for form in Form::BOTH {
        // Shorter, longer, too long; and books that do not learn.
        let mut met = [0; 4];
        for index in 0..4_000 {
            let draft = draw(form, index);
            let (book, twin) = (draft.bytes(), draft.twin());
            if twin.length() > 60_000 {
                assert_eq!(converted(&book, form), Err(Refusal::ConvertedLength.at(0)));
                met[2] += 1;
                continue;
            }
            let other = converted(&book, form).expect("a good book is converted");
            assert!(other == twin.bytes(), "{form:?} {index}");
            assert!(converted(&other, form.other()) == Ok(book.clone()), "{form:?} {index}");
            let looked = form::look_over(&other, form.other());
            assert_eq!(looked, Answer::success(draft.steps()));
            met[usize::from(other.len() > book.len())] += 1;
            let sheet = &mut vec![0; 128 * draft.moves.len()];
            met[3] += usize::from(learn::learn(&book, form, sheet).number != 0);
        }
        assert!(met[0].min(met[1]).min(met[3]) > 300 && met[2] > 0, "{form:?} {met:?}");
    }
}

/// 23 from 60,001 bytes on, before 13.
#[test]
fn the_limit_of_a_converted_book() {
    for (form, length) in Form::BOTH
        .into_iter()
        .flat_map(|form| [59_999, 60_000, 60_001, 65_536, 70_000].map(|length| (form, length)))
    {
        let long = fullbook::draft_of_length(length, &mut Rng::new(8));
        let book = BookDraft { form: form.other(), ..long.clone() }.twin().bytes();
        assert!(book.len() < 60_000 && form::look_over(&book, form).number == 0);
        let outcome = converted(&book, form);
        if length > 60_000 {
            assert_eq!(outcome, Err(Refusal::ConvertedLength.at(0)));
            let none = &mut [][..];
            let answer = match form {
                Form::Full => convert::to_short(&book, none),
                Form::Short => convert::to_full(&book, none),
            };
            assert_eq!(answer, Refusal::ConvertedLength.at(0));
        } else {
            assert!(outcome == Ok(long.bytes()), "{form:?} {length}");
        }
    }
}

/// Plans get the same number, place, position and end sheet by either form.
#[test]
fn twins_check_alike() {
    let mut met = [0; 3];
    for index in 0..3_000 {
        let plan = order::draw(&mut Rng::of_case(4, index));
        let order = plan.order.bytes();
        let checked = |form: Form| {
            let mut end = vec![0x3c; 512];
            let answer = check::check(&plan.book.in_form(form).bytes(), form, &order, &mut end);
            (answer, end)
        };
        let full = checked(Form::Full);
        assert_eq!(full, checked(Form::Short), "{index}");
        met[match full.0.number {
            0 => 0,
            19 => 1,
            _ => 2,
        }] += 1;
    }
    assert!(met.iter().all(|&times| times > 200), "{met:?}");
}

/// A record added in the book's form: the new book is the twin of the other new book.
#[test]
fn twins_are_added_to_alike() {
    let mut compared = 0;
    for index in 0..2_000 {
        let mut draft = draw(Form::Full, index);
        if draft.length().max(draft.twin().length()) > 60_000 || draft.records.is_empty() {
            continue;
        }
        let whole = draft.clone();
        draft.records.pop();
        let added = |form: Form| {
            let mut new = vec![0; 60_000];
            let record = whole.in_form(form).records.pop().expect("there is one").bytes();
            let answer = add::add(&draft.in_form(form).bytes(), form, &record, &mut new);
            new.truncate(answer.place as usize);
            (answer.number, new)
        };
        let [(0, full), (0, short)] = Form::BOTH.map(added) else { panic!("{index} is refused") };
        assert!(full == whole.bytes() && short == whole.twin().bytes(), "{index}");
        assert!(converted(&full, Form::Full) == Ok(short), "{index}");
        compared += 1;
    }
    assert!(compared > 1_500, "{compared}");
}

/// Books at the limits of either form are answered as their makers say.
#[test]
fn extreme_books_of_both_forms() {
    for form in Form::BOTH {
        for index in 0..extreme::count(form) {
            let case = extreme::case(form, index, &mut Rng::of_case(5, index));
            let looked = unpacked(Second.look_over(&case.book, case.form));
            assert_eq!(Some(looked), case.aimed, "{form:?}, {}", case.label);
        }
    }
}
