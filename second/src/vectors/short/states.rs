//! Row 8 in a short book: how many facts turn, what they leave, and the place.
//!
//! The hall has 16 objects and 512 facts of two of them, 256 of each of relations 1
//! and 2, and the fact of relation 3, which has no places, behind them.

use super::converting;
use crate::answer::{Answer, Refusal};
use crate::calls::Form;
use crate::calls::Job::{self, Add, Check, Learn, LookOver, ToFull};
use crate::gen::draft::put_number;
use crate::gen::extreme::turns;
use crate::gen::{BookDraft, Fact, RecordDraft, Step};
use crate::limits::OBJECT_LIMIT;
use crate::vectors::Vector;

const STEP: Step = [1, 0, 0, 0, 0];
/// Numbers of a short book; all but the first are 0 or less in fewer bits.
const FEW_FORMS: [u32; 4] = [1, 256, 0x1_0000, 0x8000_0000];
/// Behind all others, and of no relation.
const WRONG: Fact = [4, 0, 0];
/// The last fact of the hall.
const LAST: Fact = [3, 0, 0];

pub fn all() -> Vec<Vector> {
    let mut vectors = limits();
    vectors.extend(left());
    vectors.extend(to_the_end());
    vectors.extend(carried());
    vectors.extend(first_states());
    vectors.extend(forms());
    vectors.extend(converted());
    vectors.iter_mut().for_each(|vector| vector.name.insert_str(0, "turns: "));
    vectors
}

/// The facts of a relation.
fn of_relation(relation: u8) -> Vec<Fact> {
    turns::facts().into_iter().filter(|fact| fact[0] == relation).collect()
}

/// The first state and the lists after each step.
fn record(lists: &[&[Fact]]) -> RecordDraft {
    RecordDraft {
        objects: vec![1; OBJECT_LIMIT],
        states: lists.iter().map(|list| list.to_vec()).collect(),
        steps: vec![STEP; lists.len() - 1],
    }
}

fn book(records: impl IntoIterator<Item = RecordDraft>) -> BookDraft {
    BookDraft { records: records.into_iter().collect(), ..turns::front() }
}

fn good(name: &str, records: impl IntoIterator<Item = RecordDraft>) -> Vector {
    let book = book(records);
    Vector::new(name, &[LookOver], book.bytes(), Answer::success(book.steps())).form(1)
}

/// Every call that reads a short book meets it.
fn refused(name: &str, book: Vec<u8>, place: usize) -> Vector {
    let jobs = [LookOver, Learn, Check, Add, ToFull];
    Vector::new(name, &jobs, book, Refusal::State.at(place)).form(1)
}

/// 8 at the count of the last list of the last record.
fn at_count(name: &str, records: impl IntoIterator<Item = RecordDraft>) -> Vector {
    let book = book(records);
    let layout = book.layout();
    let place = layout.records.last().and_then(|record| record.states.last());
    refused(name, book.bytes(), *place.expect("a record has a state"))
}

/// 8 at the count of the last record's first state.
fn at_first<const N: usize>(name: &str, records: [RecordDraft; N]) -> Vector {
    let book = book(records);
    refused(name, book.bytes(), book.layout().records[N - 1].states[0])
}

/// 8 at the last fact.
fn at_last_fact(name: &str, record: RecordDraft) -> Vector {
    let book = book([record]).bytes();
    let place = book.len() - 3;
    refused(name, book, place)
}

/// The book of one record without its last bytes.
fn cut(record: RecordDraft, bytes: usize) -> Vec<u8> {
    let draft = book([record]);
    let mut book = draft.bytes();
    book.truncate(book.len() - bytes);
    let (at, end) = (draft.front_length(), book.len());
    put_number(&mut book, at + 2, end - at);
    put_number(&mut book, 14, end);
    book
}

/// 512 facts may turn, 513 not.
fn limits() -> Vec<Vector> {
    let (one, both) = (of_relation(1), turns::facts());
    let more = [&both[..], &[LAST]].concat();
    let mut wrong = more.clone();
    wrong[1] = wrong[0];
    let announced = |count: usize| {
        let draft = book([record(&[&[], &[]])]);
        let (mut book, at) = (draft.bytes(), draft.layout().records[0].states[1]);
        put_number(&mut book, at, count);
        (book, at)
    };
    let [(none, first), (over, count), (most, last)] = [512, 513, 0xffff].map(announced);
    vec![
        good("512", [record(&[&one, &both])]),
        at_count("513", [record(&[&one, &more])]),
        at_count("513, two of them equal", [record(&[&one, &wrong])]),
        refused("512 announced, none there", none, first + 2),
        refused("513 announced, none there", over, count),
        refused("65,535 announced", most, last),
        good("none", [record(&[&one, &[], &[]])]),
    ]
}

/// 256 facts may be left, 257 not, whatever held on the way.
fn left() -> Vec<Vector> {
    let (one, two, both) = (of_relation(1), of_relation(2), turns::facts());
    // All of relation 1 but one fact vanish, and one of relation 2 appears.
    let many = [&one[1..], &two[..1]].concat();
    let shared = |count: usize| [&one[100..], &two[..100 + count]].concat();
    vec![
        good("256 left of 256", [record(&[&one, &shared(56)])]),
        at_count("257 left of 256", [record(&[&one, &two[..1]])]),
        at_count("257 left, 156 removed", [record(&[&one, &shared(57)])]),
        good("256 from none", [record(&[&[], &one])]),
        at_count("257 from none", [record(&[&[], &[&one[..], &two[..1]].concat()])]),
        at_count("512 left", [record(&[&one, &two])]),
        good("2 left", [record(&[&one, &many])]),
        // Added facts come first, so 512 hold before one is removed.
        good("512 on the way", [record(&[&two, &both])]),
        good("257 on the way", [record(&[&two, &[one[0], two[255]]])]),
        at_count("258 on the way, 257 left", [record(&[&two, &[one[0], one[1], two[9]]])]),
    ]
}

/// The list is read to its end before what it leaves is looked at; both before the
/// next step and the record's tail, and after the step before.
fn to_the_end() -> Vec<Vector> {
    let two = of_relation(2);
    let over: [Fact; 2] = [[1, 1, 1], [1, 1, 2]];
    let at_end = |name, fact: Fact| at_last_fact(name, record(&[&two, &[over[0], over[1], fact]]));
    let cut_at = |name, bytes: usize| {
        let whole = book([record(&[&two, &over])]).bytes();
        refused(name, cut(record(&[&two, &over]), bytes), whole.len() - 3)
    };
    let list_at = book([record(&[&two, &over])]).layout().records[0].states[1];
    let mut next_wrong = record(&[&two, &over, &[]]);
    next_wrong.steps[1] = [2, 0, 0, 0, 0];
    let mut tail = cut(record(&[&two, &over]), 0);
    tail.push(0);
    let (at, end) = (turns::front().length(), tail.len());
    put_number(&mut tail, at + 2, end - at);
    put_number(&mut tail, 14, end);
    vec![
        at_end("257 left before a wrong fact", WRONG),
        at_end("257 left before an equal fact", over[1]),
        at_end("257 left before a fact out of order", [1, 1, 1]),
        cut_at("257 left before a cut fact", 1),
        cut_at("257 left before a fact that is not there", 3),
        refused("257 left, the next step wrong", book([next_wrong]).bytes(), list_at),
        refused("257 left, a byte behind", tail, list_at),
        step_first("the step before is wrong", &[2, 0, 0], Refusal::Step),
        step_first("the step before has an object twice", &[1, 3, 3], Refusal::ObjectTwice),
    ]
}

/// Rows 9 and 10 of a step before what its list leaves.
fn step_first(name: &str, step: &[u8; 3], refusal: Refusal) -> Vector {
    let mut book = book([record(&[&of_relation(1), &[[2, 1, 1]]])]);
    book.moves = vec![[2, 1, 1, 0, 0, 0]];
    book.records[0].steps[0] = [step[0], step[1], step[2], 0, 0];
    let place = book.layout().records[0].steps[0];
    let jobs = [LookOver, Learn, Check, Add, ToFull];
    Vector::new(name, &jobs, book.bytes(), refusal.at(place)).form(1)
}

/// What a list leaves is what the next one turns; a record begins anew.
fn carried() -> Vec<Vector> {
    let (one, two) = (of_relation(1), of_relation(2));
    let (last, first) = (&one[255..], &two[..1]);
    vec![
        at_count("257 by the second list", [record(&[&one[..255], last, first])]),
        at_count("257 after one turned back", [record(&[&one, last, last, first])]),
        at_count("257 after one that did not stay", [record(&[&one, last, first, last])]),
        good("256 again after one vanished", [record(&[&one, last, first, first, last])]),
        good("256 in each of two records", [record(&[&one, &[]]), record(&[&[], &two])]),
        good("256 at the end of one record", [record(&[&[], &one]), record(&[&two, &[]])]),
        at_count("257 in the second record", [record(&[&one, &[]]), record(&[&two, &one[7..8]])]),
        // If a record went on with what the last one left, 256 would be left here.
        at_count(
            "257 from none in the second record",
            [record(&[&one, &[]]), record(&[&[], &one, first])],
        ),
    ]
}

/// A record's first state is a list of what holds, in a short book as well.
fn first_states() -> Vec<Vector> {
    let (one, two) = (of_relation(1), of_relation(2));
    let more = [&one[..], &two[..1]].concat();
    vec![
        good("first state of 256", [record(&[&one, &[]])]),
        at_first("first state of 257", [record(&[&more, &more])]),
        at_first("second record's first state of 257", {
            [record(&[&one, &one]), record(&[&more, &more])]
        }),
    ]
}

/// 256 facts give way to 256 others, all of which turn; and back.
fn converted() -> Vec<Vector> {
    let full =
        BookDraft { form: Form::Full, ..book([record(&[&of_relation(1), &of_relation(2), &[]])]) };
    [full.twin(), full]
        .map(|draft| converting::converted("512 and 256", &draft, draft.twin().length()))
        .into()
}

/// Books that are good in one form alone, so that looking over and adding show
/// which form they read.
fn forms() -> Vec<Vector> {
    let (one, two) = (of_relation(1), of_relation(2));
    let turned = record(&[&one[..1], &[&one[..], &two[..1]].concat()]);
    let listed = record(&[&two[..1], &one]);
    let [short, full] = [turned, listed].map(|record| (book([record.clone()]), record.bytes()));
    let count_at = |draft: &BookDraft| draft.layout().records[0].states[1];
    let front = || turns::front().bytes();
    let added = |name: String, (new, record): &(BookDraft, Vec<u8>), form: u32, good: bool| {
        let answer =
            if good { Answer::success(new.length()) } else { Refusal::State.at(count_at(new)) };
        Vector::new(name, &[Add], front(), answer)
            .form(form)
            .record(record.clone())
            .output(new.length())
            .after(if good { new.bytes() } else { Vec::new() })
    };
    let every = |name: &str, (draft, _): &(BookDraft, Vec<u8>), form: Form| {
        let place = Refusal::State.at(count_at(draft));
        Vector::new(name, &Job::OF_BOTH_FORMS, draft.bytes(), place).form(form.number())
    };
    let looked = |name: String, (draft, _): &(BookDraft, Vec<u8>), form: u32| {
        Vector::new(name, &[LookOver], draft.bytes(), Answer::success(1)).form(form)
    };
    let mut vectors = vec![
        every("257 listed in a full book", &short, Form::Full),
        every("256 turned that are listed", &full, Form::Short),
        looked("256 listed in a full book".into(), &full, 0),
        added("257 listed, added to a full book".into(), &short, 0, false),
        added("256 turned that are listed, added".into(), &full, 1, false),
        added("256 listed, added to a full book".into(), &full, 0, true),
    ];
    for form in FEW_FORMS {
        vectors.push(looked(format!("257, form {form}"), &short, form));
        vectors.push(added(format!("257, added, form {form}"), &short, form, true));
    }
    vectors
}
