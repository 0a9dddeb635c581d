//! Records without steps, from the paper: 24 at the record's offset, directly after 6
//! of its head and before its objects, in both forms of a book and in every call.

mod shared;

use second::calls::{unpacked, Form, Job};
use second::gen::hall::{book, Dynamics};
use second::gen::plan::{order, tiny};
use second::gen::{BookDraft, Rng};
use second::judge::verdicts;
use second::{listing, Answer, Refusal, Second};
use shared::hex;

const FRONT: &str = "02010200 01020000 | 030102020000";
/// The small hall's record, full and short.
const FILED: &str = "0301001C 010202 0002 010102 020300 0101020300 0002 010103 020200";
const TURNED: &str = "03010022 010202 0002 010102 020300 0101020300 \
                      0004 010102 010103 020200 020300";
/// The same with its first state alone: the form left empty.
const EMPTY: &str = "0300000F 010202 0002 010102 020300";
const MET: Answer = Refusal::NoSteps.at(30);

fn good(form: Form) -> &'static str {
    match form {
        Form::Full => FILED,
        Form::Short => TURNED,
    }
}

/// The small hall with these records, or what is meant for such.
fn hall(records: &[&str]) -> Vec<u8> {
    let bytes = hex(&records.concat());
    let numbers = format!("{:04x} 0010 0018 001E {:04x}", records.len(), 30 + bytes.len());
    [hex(&format!("0002 0002 0001 {numbers} {FRONT}")), bytes].concat()
}

/// Every call that reads a book of this form answers this, whatever output is lent,
/// and writes nothing.
fn answered(book: &[u8], form: Form, answer: Answer) {
    let jobs = Job::ALL.into_iter().filter(|job| job.forms().contains(&form));
    for (job, lent) in jobs.flat_map(|job| [0, 128, 512, 600].map(|lent| (job, lent))) {
        let mut output = vec![0xa5; lent];
        let other = if job == Job::Add { hex(good(form)) } else { Vec::new() };
        let given = unpacked(job.run(&Second, book, form.number(), &other, &mut output));
        assert_eq!(given, answer, "{} {form:?} {book:02x?}", job.name());
        assert!(output.iter().all(|&byte| byte == 0xa5), "a refusal writes");
    }
}

#[test]
fn a_record_without_steps_is_24_at_its_offset() {
    for form in Form::BOTH {
        let at_second = Refusal::NoSteps.at(hall(&[good(form)]).len());
        answered(&hall(&[EMPTY]), form, MET);
        answered(&hall(&["000000060000"]), form, MET);
        answered(&hall(&[EMPTY, good(form)]), form, MET);
        answered(&hall(&[EMPTY, EMPTY]), form, MET);
        answered(&hall(&[good(form), EMPTY]), form, at_second);
        answered(&hall(&[good(form), EMPTY, good(form)]), form, at_second);
    }
    assert_eq!(listing::rules(&hall(&[EMPTY])), "refused 24 30\n");
    assert_eq!(listing::plan(&hall(&[EMPTY]), &[]), "refused 24 30\n");
}

#[test]
fn every_6_of_the_head_comes_first() {
    for form in Form::BOTH {
        for head in ["", "00", "0000", "000000", "11000004", "00000003", "00000000", "00000005"] {
            answered(&hall(&[head]), form, Refusal::Record.at(30));
        }
        answered(&hall(&[&EMPTY.replace("000F", "0010")]), form, Refusal::Record.at(30));
        answered(&hall(&[&EMPTY.replace("0300", "1100")]), form, Refusal::Record.at(30));
    }
}

#[test]
fn nothing_behind_the_head_comes_first() {
    for form in Form::BOTH {
        // The head alone, objects cut, an object and a fact wrong, a count over 256.
        for record in [
            "00000004",
            "03000004",
            "030000060102",
            "0300000F 010302 0002 010102 020300",
            "0300000F 010202 0002 030102 020300",
            "0300000F 010202 0101 010102 020300",
            // Bytes left in the record, and behind it in the book.
            "03000010 010202 0002 010102 020300 00",
            "0300000F 010202 0002 010102 020300 00",
        ] {
            answered(&hall(&[record]), form, MET);
        }
        let left_in = good(form).replace("0301", "0300");
        answered(&hall(&[&left_in]), form, MET);
    }
}

/// Records are walked in file order, each to its end.
#[test]
fn the_first_wrong_record_decides() {
    for form in Form::BOTH {
        let step = good(form).replace("0101020300", "0201020300");
        answered(&hall(&[&step, EMPTY]), form, Refusal::Step.at(45));
        answered(&hall(&[EMPTY, &step]), form, MET);
    }
}

#[test]
fn adding_one_is_refused_at_the_old_length() {
    let add = |book: &[u8], form: Form, record: &str, lent: usize| {
        let mut output = vec![0xa5; lent];
        let given = Job::Add.run(&Second, book, form.number(), &hex(record), &mut output);
        assert!(output.iter().all(|&byte| byte == 0xa5), "a refusal writes");
        unpacked(given)
    };
    for (form, lent) in Form::BOTH.into_iter().flat_map(|form| [0, 200].map(|lent| (form, lent))) {
        let old = hall(&[good(form)]);
        let (met, head) = (Refusal::NoSteps.at(old.len()), Refusal::Record.at(old.len()));
        assert_eq!(add(&old, form, EMPTY, lent), met);
        assert_eq!(add(&old, form, "03000004", lent), met);
        assert_eq!(add(&old, form, &EMPTY.replace("0102", "0302"), lent), met);
        assert_eq!(add(&old, form, &format!("{EMPTY} 00"), lent), met);
        assert_eq!(add(&old, form, "11000004", lent), head);
        assert_eq!(add(&old, form, "000000", lent), head);
        assert_eq!(add(&old, form, "00000003", lent), head);
        assert_eq!(add(&hall(&[]), form, EMPTY, lent), MET);
        let full = hall(&["03010010 010202 0000 0101020300 0000"; 64]);
        assert_eq!(add(&full, form, EMPTY, lent), Refusal::HeaderCounts.at(0));
    }
}

/// No drawn book that is to be good has such a record.
#[test]
fn drawn_books_have_steps_in_every_record() {
    let has_steps = |draft: &BookDraft| draft.records.iter().all(|record| !record.steps.is_empty());
    for index in 0..2_000 {
        let mut rng = Rng::of_case(8, index);
        let form = Form::BOTH[index % 2];
        assert!(has_steps(&book::any_size(form, Dynamics::Slips, &mut rng).1));
        assert!(has_steps(&book::to_damage(form, &mut rng)));
        assert!(has_steps(&order::draw(&mut rng).book) && has_steps(&tiny::draw(&mut rng).book));
    }
}

/// The judge is given books of good form.
#[test]
#[should_panic(expected = "not of good form")]
fn the_judge_is_told_of_none() {
    let order = shared::order(&[1, 2, 2], &[], &[], &[]);
    let _ = verdicts(&hall(&[FILED, EMPTY]), Form::Full, &order);
}
