//! The form of steps that did not go: rows 9 and 10 as of any step, row 8 of the state
//! after it, then row 27 if that is not the state before; before all that follows.

use super::{barred, tried, unbarred, CLEAR_2, CLEAR_3, NOT_ROLLED};
use crate::answer::{Answer, Refusal};
use crate::calls::Form;
use crate::calls::Job::{self, LookOver};
use crate::gen::draft::put_number;
use crate::gen::extreme::turns;
use crate::gen::{BookDraft, Fact, RecordDraft, Step};
use crate::limits::FACT_LIMIT;
use crate::vectors::hall::{
    empty_end, filed, one_fact, story, unbound, with, AT_2, ROLL_2_3, STAYS, STAYS_OUT, UP,
};
use crate::vectors::short::converted_lengths::of_length;
use crate::vectors::{added, jobs, Vector};

type Case = (String, Vec<u8>, Answer);

pub fn all(form: Form) -> Vec<Vector> {
    let mut cases = steps(form);
    cases.extend(differ(form));
    cases.extend(same(form));
    cases.extend(state_first(form));
    cases.extend(before_the_rest(form));
    cases.extend(among_records(form));
    cases.extend(far(form));
    let vector = |(name, book, answer): Case| {
        let every: &[Job] = if answer.number == 0 { &[LookOver] } else { &jobs(form) };
        Vector::new(name, every, book, answer).form(form.number())
    };
    cases.into_iter().map(vector).collect()
}

/// The roll tried with one state before it and another after it.
fn from_to(before: &[Fact], after: &[Fact]) -> RecordDraft {
    RecordDraft { states: vec![before.to_vec(), after.to_vec()], ..barred() }
}

/// A case of the full book in this form, whose answer is at a step of a record.
fn at_step(form: Form, name: &str, book: BookDraft, row: Refusal, of: (usize, usize)) -> Case {
    let book = book.in_form(form);
    let place = book.layout().records[of.0].steps[of.1];
    (name.into(), book.bytes(), row.at(place))
}

/// Rows 9 and 10: no such move and wrong objects, with equal states and with others.
fn steps(form: Form) -> Vec<Case> {
    let mut cases = Vec::new();
    for (name, step, row) in [
        ("9: move 128", [128, 1, 2, 3, 0], Refusal::Step),
        ("9: move 128, no objects", [128, 0, 0, 0, 0], Refusal::Step),
        ("9: 128 more than no move", [130, 1, 2, 3, 0], Refusal::Step),
        ("9: 160", [160, 1, 2, 3, 0], Refusal::Step),
        ("9: 161", [161, 1, 2, 3, 0], Refusal::Step),
        ("9: 192", [192, 1, 2, 3, 0], Refusal::Step),
        ("9: 255", [255, 1, 2, 3, 0], Refusal::Step),
        ("9: an object of another kind", [129, 2, 2, 3, 0], Refusal::Step),
        ("9: no such object", [129, 1, 2, 4, 0], Refusal::Step),
        ("9: used object 0", [129, 1, 2, 0, 0], Refusal::Step),
        ("9: unused object not 0", [129, 1, 2, 3, 1], Refusal::Step),
        ("10: an object twice", [129, 1, 2, 2, 0], Refusal::ObjectTwice),
    ] {
        for (which, record) in
            [("", barred()), (", states differ", from_to(&[AT_2], &[AT_2, CLEAR_3]))]
        {
            let book = with([RecordDraft { steps: vec![step], ..record }]);
            cases.push(at_step(form, &format!("{name}{which}"), book, row, (0, 0)));
        }
    }
    let mut cut = with([barred()]).in_form(form);
    let at = cut.layout().records[0].steps[0];
    cut.records[0].states[1].clear();
    let mut bytes = cut.bytes();
    bytes.truncate(at + 4);
    renew(&mut bytes);
    cases.push(("9: cut".into(), bytes, Refusal::Step.at(at)));
    // The last of 32 moves and the first beyond, of no parameters.
    for (step, row) in [(160, Refusal::StatesDiffer), (161, Refusal::Step)] {
        let book = one_fact(32, [story(UP, &[step])]);
        cases.push(at_step(form, &format!("{step} of 32 moves"), book, row, (0, 0)));
    }
    cases
}

/// The one record's length and the book's end, which is where the bytes end.
fn renew(bytes: &mut [u8]) {
    let end = bytes.len();
    put_number(bytes, 32, end - 30);
    put_number(bytes, 14, end);
}

/// Row 27 in a record of one step, and as the first, a middle and the last step.
fn differ(form: Form) -> Vec<Case> {
    let alone = |name: &str, before: &[Fact], after: &[Fact]| {
        let book = with([from_to(before, after)]);
        at_step(form, name, book, Refusal::StatesDiffer, (0, 0))
    };
    let mut cases = vec![
        alone("27: a fact more, the last", &[AT_2], &[AT_2, CLEAR_3]),
        alone("27: a fact more, the first", &[CLEAR_3], &[AT_2, CLEAR_3]),
        alone("27: a fact more than none", &[], &[CLEAR_2]),
        alone("27: a fact fewer, the last", &[AT_2, CLEAR_3], &[AT_2]),
        alone("27: a fact fewer, the first", &[AT_2, CLEAR_3], &[CLEAR_3]),
        alone("27: no fact left", &[AT_2, CLEAR_3], &[]),
        alone("27: another relation", &[[1, 1, 3]], &[CLEAR_3]),
        alone("27: another first object", &[CLEAR_2], &[CLEAR_3]),
        alone("27: another second object", &[AT_2], &[[1, 1, 3]]),
        alone("27: the first fact another", &[AT_2, CLEAR_3], &[[1, 1, 3], CLEAR_3]),
        alone("27: the last fact another", &[AT_2, CLEAR_2], &[AT_2, CLEAR_3]),
        alone("27: as the roll that goes", &[AT_2, CLEAR_3], &[[1, 1, 3], CLEAR_2]),
    ];
    // Whether the fact holds, and the moves; the step at fault.
    for (name, states, moves, step) in [
        ("27: the first of three", &[false, true, true, false][..], &[129, 1, 1][..], 0),
        ("27: the second of three", &[false, true, false, false], &[1, 129, 1], 1),
        ("27: the last of three", &[false, true, true, false], &[1, 129, 129], 2),
        ("27: the first of two such", &[false, true, false], &[129, 129], 0),
        // The same as two steps before, and as at first.
        ("27: as before the step before", &[false, true, false], &[1, 129], 1),
        ("27: as at first", &[true, true, false, true], &[1, 1, 129], 2),
    ] {
        let book = one_fact(1, [story(states, moves)]);
        cases.push(at_step(form, name, book, Refusal::StatesDiffer, (0, step)));
    }
    cases
}

/// Row 27 is not met by equal states, whatever stands before them.
fn same(form: Form) -> Vec<Case> {
    let good = |name: &str, book: BookDraft| {
        (name.to_string(), book.in_form(form).bytes(), Answer::success(book.steps()))
    };
    let full = tried(&[AT_2, [1, 1, 3], CLEAR_2, CLEAR_3]);
    vec![
        good("27 not met: no fact", with([tried(&[])])),
        good("27 not met: every fact", with([full])),
        good("27 not met: not as at first", one_fact(1, [story(&[false, true, true], &[1, 129])])),
        good("27 not met: not as in the record before", {
            one_fact(1, [story(STAYS, &[129]), story(STAYS_OUT, &[129])])
        }),
        good("27 not met: all steps", one_fact(1, [story(&[true; 65], &[129; 64])])),
        good("27 not met: 256 facts", many_facts(&[FACT_LIMIT; 2])),
        good("a step that went and changed nothing", one_fact(1, [story(STAYS, &[1])])),
    ]
}

/// A record of a step that did not go, with so many facts before it and after it.
fn many_facts(counts: &[usize; 2]) -> BookDraft {
    let states = counts.map(|count| turns::facts()[..count].to_vec());
    let record =
        RecordDraft { objects: vec![1; 16], states: states.into(), steps: vec![[129, 0, 0, 0, 0]] };
    BookDraft { form: Form::Full, records: vec![record], ..turns::front() }
}

/// Row 8 of the state after the step comes first, and is at its count or fact.
fn state_first(form: Form) -> Vec<Case> {
    let book = with([from_to(&[AT_2], &[AT_2, CLEAR_3])]).in_form(form);
    let (bytes, after) = (book.bytes(), book.layout().records[0].states[1]);
    let facts = book.records[0].states[1].len();
    let changed =
        |at: usize, new: &[u8]| crate::vectors::hall::changed(bytes.clone(), &[(after + at, new)]);
    let last = 3 * facts - 1;
    let mut cut = bytes[..bytes.len() - 1].to_vec();
    renew(&mut cut);
    let mut half = bytes[..after + 1].to_vec();
    renew(&mut half);
    let case = |name: &str, book: Vec<u8>, at: usize| {
        (format!("8 before 27: {name}"), book, Refusal::State.at(after + at))
    };
    let mut cases = vec![
        case("a count of 513", changed(0, &[2, 1]), 0),
        case("half a count", half, 0),
        case("no such relation", changed(last, &[3]), last),
        case("a fact more than there are", changed(1, &[facts as u8 + 1]), 2 + 3 * facts),
        case("the last fact cut", cut, last),
    ];
    // Over 256 facts after the step: at the count in either form.
    for counts in [[FACT_LIMIT, FACT_LIMIT + 1], [0, FACT_LIMIT + 1]] {
        let book = many_facts(&counts).in_form(form);
        let at = book.layout().records[0].states[1];
        let name = format!("8 before 27: 257 facts from {}", counts[0]);
        cases.push((name, book.bytes(), Refusal::State.at(at)));
    }
    let most = many_facts(&[FACT_LIMIT - 1, FACT_LIMIT]);
    cases.push(at_step(form, "27: 256 facts from 255", most, Refusal::StatesDiffer, (0, 0)));
    let fewer = many_facts(&[FACT_LIMIT, FACT_LIMIT - 1]);
    cases.push(at_step(form, "27: 255 facts from 256", fewer, Refusal::StatesDiffer, (0, 0)));
    cases
}

/// Row 27 before the next step and its state, both tails and the next record.
fn before_the_rest(form: Form) -> Vec<Case> {
    let differs = |steps: &[Step]| RecordDraft {
        states: vec![vec![AT_2], vec![AT_2, CLEAR_3], vec![AT_2, CLEAR_3]],
        steps: steps.to_vec(),
        ..filed()
    };
    let next = |name: &str, step: Step| {
        let book = with([differs(&[NOT_ROLLED, step])]);
        at_step(form, name, book, Refusal::StatesDiffer, (0, 0))
    };
    let mut cases = vec![
        next("27 before 9 of the next step", [2, 1, 2, 3, 0]),
        next("27 before 10 of the next step", [1, 1, 2, 2, 0]),
        next("27 before a step that is right", ROLL_2_3),
    ];
    let book = with([differs(&[NOT_ROLLED, ROLL_2_3])]).in_form(form);
    let layout = book.layout().records.swap_remove(0);
    let (bytes, met) = (book.bytes(), Refusal::StatesDiffer.at(layout.steps[0]));
    let count = crate::vectors::hall::changed(bytes.clone(), &[(layout.states[2], &[2, 1])]);
    cases.push(("27 before 8 of the next state".into(), count, met));
    let mut cut = bytes[..layout.steps[1] + 2].to_vec();
    renew(&mut cut);
    cases.push(("27 before 9 of a cut step".into(), cut, met));
    let one = with([from_to(&[AT_2], &[AT_2, CLEAR_3])]).in_form(form);
    let met = Refusal::StatesDiffer.at(one.layout().records[0].steps[0]);
    let mut tail = [one.bytes(), vec![0]].concat();
    let end = tail.len();
    put_number(&mut tail, 14, end);
    cases.push(("27 before 6 of the book's tail".into(), tail.clone(), met));
    renew(&mut tail);
    cases.push(("27 before 6 of the record's tail".into(), tail, met));
    cases.push(("27 before 6 of a head".into(), added(&one.bytes(), &[17, 1, 0, 4], 2), met));
    cases.push(("27 before 24".into(), added(&one.bytes(), &[0, 0, 0, 4], 2), met));
    cases
}

/// Records are walked in file order, and all of them before 11, 12 and 28.
fn among_records(form: Form) -> Vec<Case> {
    let wrong = || from_to(&[AT_2], &[AT_2, CLEAR_3]);
    let met = |name: &str, records: &[RecordDraft], record: usize| {
        let book = with(records.to_vec());
        at_step(form, name, book, Refusal::StatesDiffer, (record, 0))
    };
    let twice = RecordDraft { steps: vec![[1, 1, 2, 2, 0]], ..filed() };
    vec![
        met("27: the second of two records", &[filed(), wrong()], 1),
        met("27: the first of two records", &[wrong(), filed()], 0),
        met("27: both of two records", &[wrong(), wrong()], 0),
        met("27 before 10 of a later record", &[wrong(), twice.clone()], 0),
        met("27 before 11", &[unbound(), wrong()], 1),
        met("27 before 12", &[filed(), empty_end(), wrong()], 2),
        met("27 before 28", &[filed(), unbarred(), wrong()], 2),
        at_step(
            form,
            "10 of an earlier record before 27",
            with([twice, wrong()]),
            Refusal::ObjectTwice,
            (0, 0),
        ),
    ]
}

/// Places that one byte, or two with a sign, do not hold.
fn far(form: Form) -> Vec<Case> {
    [300, 40_000]
        .map(|length| {
            let mut book = of_length(form, length);
            book.records.push(RecordDraft {
                objects: vec![1],
                states: vec![Vec::new(), vec![[1, 1, 1]]],
                steps: vec![[129, 0, 0, 0, 0]],
            });
            let at = book.layout().records.last().map(|record| record.steps[0]);
            let answer = Refusal::StatesDiffer.at(at.expect("the record pushed"));
            (format!("27 far, at {length}"), book.bytes(), answer)
        })
        .into()
}
