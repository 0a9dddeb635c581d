//! The paper's marked cases and limits, to the letter.

mod shared;

use second::calls::Form;
use second::gen::extreme::fullbook;
use second::gen::Rng;
use second::{add, form, learn, listing, Answer, Refusal};
use shared::{hex, passes, refused, set};

fn small_hall() -> Vec<u8> {
    hex("0002 0002 0001 0001 0010 0018 001E 003A | 02010200 01020000 | 030102020000 | \
         0301001C 010202 0002 010102 020300 0101020300 0002 010103 020200")
}

/// M6: record count 0 and end 30, the record left out.
fn unrecorded() -> Vec<u8> {
    hex("0002 0002 0001 0000 0010 0018 001E 001E 02010200 01020000 030102020000")
}

/// Bank 1 and spots 2, 3, 4.
fn order(start: &[[u8; 3]], goal: &[(u8, [u8; 3])], steps: &[[u8; 5]]) -> Vec<u8> {
    shared::order(&[1, 2, 2, 2], start, goal, steps)
}

/// Bank at 2, spots 3 and 4 clear.
const START: [[u8; 3]; 3] = [[1, 1, 2], [2, 3, 0], [2, 4, 0]];
const AT_2: (u8, [u8; 3]) = (1, [1, 1, 2]);
const AT_4: (u8, [u8; 3]) = (1, [1, 1, 4]);
const ROLLS: [[u8; 5]; 2] = [[1, 1, 2, 3, 0], [1, 1, 3, 4, 0]];

/// The end sheet's number of a fact of the small hall.
const fn at(spot: usize) -> usize {
    spot - 1
}
const fn clear(spot: usize) -> usize {
    256 + 16 * (spot - 1)
}

#[test]
fn m1_listing() {
    let text = "moves 1 records 1 steps 1\n1 1 1 2 H R\n1 1 1 3 N A\n1 2 2 0 N A\n1 2 3 0 H R\n";
    assert_eq!(listing::rules(&small_hall()), text);
    assert_eq!(form::look_over(&small_hall(), Form::Full), Answer::success(1));
}

#[test]
fn m1_sheet() {
    let mut sheet = vec![0xff; 128];
    assert_eq!(learn::learn(&small_hall(), Form::Full, &mut sheet), Answer::success(1));
    // Atoms 1 and 2 are "bank at spot", 20 and 24 "spot clear".
    assert_eq!(sheet, [[1, 24], [2, 20], [2, 20], [1, 24]].map(|atoms| set(32, &atoms)).concat());
}

#[test]
fn m2_passes() {
    passes(&small_hall(), &order(&START, &[AT_4], &ROLLS), 2, &[at(4), clear(2), clear(3)]);
}

/// The files for the two programs are M1's book and M2's order.
#[test]
fn example_files() {
    assert_eq!(include_bytes!("../../examples/small_hall/book").to_vec(), small_hall());
    let order = order(&START, &[AT_4], &ROLLS);
    assert_eq!(include_bytes!("../../examples/small_hall/order").to_vec(), order);
}

#[test]
fn m3_a_need_that_does_not_hold() {
    let start = [[1, 1, 2], [2, 2, 0], [2, 3, 0], [2, 4, 0]];
    refused(&small_hall(), &order(&start, &[AT_4], &ROLLS), Refusal::NeedUnmet.at(1).from_start(1));
}

#[test]
fn m4_no_steps_passes() {
    passes(&small_hall(), &order(&START, &[AT_2], &[]), 0, &[at(2), clear(3), clear(4)]);
}

#[test]
fn m5_no_steps_misses() {
    refused(&small_hall(), &order(&START, &[AT_4], &[]), Refusal::GoalMissed.at(1).from_start(1));
}

#[test]
fn m6_never_recorded() {
    for roll in [[1, 1, 2, 3, 0], [1, 1, 3, 4, 0], [1, 1, 4, 2, 0]] {
        refused(
            &unrecorded(),
            &order(&START, &[], &[roll]),
            Refusal::NeedUnmet.at(1).from_start(1),
        );
    }
    let text = "moves 1 records 0 steps 0\n1 1 1 2 B K\n1 1 1 3 B K\n1 2 2 0 B K\n1 2 3 0 B K\n";
    assert_eq!(listing::rules(&unrecorded()), text);
}

#[test]
fn m7_no_atoms_passes() {
    let book = hex("0000 0000 0001 0000 0010 0010 0016 0016 000000000000");
    let order = hex("0000 0001 0000 0001 0010 0010 0012 0012 0000 0100000000");
    passes(&book, &order, 1, &[]);
    assert_eq!(listing::rules(&book), "moves 1 records 0 steps 0\n");
}

#[test]
fn m8_object_twice() {
    let order = order(&START, &[], &[[1, 1, 2, 2, 0]]);
    refused(&small_hall(), &order, Refusal::PlanStep.at(31));
}

#[test]
fn m9_conflict() {
    let record = hex("03010016 010202 0002 010102 020300 0101020300 0000");
    let mut book = vec![0; 80];
    assert_eq!(add::add(&small_hall(), Form::Full, &record, &mut book), Answer::success(80));
    assert_eq!(book[7], 2);
    refused(&book, &order(&START, &[AT_4], &ROLLS), Refusal::EffectConflict.at(1));
    assert_eq!(listing::rules(&book), "refused 12 1\n");
    let mut sheet = vec![7; 128];
    assert_eq!(learn::learn(&book, Form::Full, &mut sheet), Refusal::EffectConflict.at(1));
    assert_eq!(sheet, vec![7; 128]);
}

#[test]
fn m10_cut_to_15_bytes() {
    let book = &small_hall()[..15];
    assert_eq!(form::look_over(book, Form::Full), Refusal::Length.at(0));
    assert_eq!(listing::rules(book), "refused 1 0\n");
    assert_eq!(listing::plan(&[], &[]), "refused 1 0\n");
}

#[test]
fn limits_of_length() {
    let mut rng = Rng::new(1);
    assert_eq!(form::look_over(&fullbook::of_length(60_000, &mut rng), Form::Full).number, 0);
    assert_eq!(
        form::look_over(&fullbook::of_length(60_001, &mut rng), Form::Full),
        Refusal::Length.at(0)
    );
}

#[test]
fn limits_of_facts() {
    for facts in [256, 257] {
        // Two relations of two places over 16 objects, one record of one step, after
        // which nothing holds.
        let mut book =
            hex("0001 0002 0001 0001 0010 0018 001E 0000 02010100 02010100 000000000000");
        book.extend([16, 1]);
        book.extend((4 + 16 + 2 + 3 * facts as u16 + 7).to_be_bytes());
        book.extend([1; 16]);
        let count_at = book.len();
        book.extend((facts as u16).to_be_bytes());
        for n in 0..facts {
            book.extend([1 + (n / 256) as u8, (n / 16 % 16) as u8 + 1, (n % 16) as u8 + 1]);
        }
        book.extend(hex("0100000000 0000"));
        let end = (book.len() as u16).to_be_bytes();
        book[14..16].copy_from_slice(&end);
        let answer = if facts == 256 { Answer::success(1) } else { Refusal::State.at(count_at) };
        assert_eq!(form::look_over(&book, Form::Full), answer);
    }
}

#[test]
fn books_that_are_timed_have_the_lengths_they_are_named_by() {
    let mut rng = Rng::new(3);
    for (draft, length, steps) in [
        (fullbook::dense(&mut rng), 59_741, 75),
        (fullbook::many_steps(&mut rng), 55_076, 4_096),
        (fullbook::many_atoms(&mut rng), 19_932, 128),
    ] {
        let book = draft.bytes();
        assert_eq!(book.len(), length);
        let mut sheet = vec![0; 128 * draft.moves.len()];
        assert_eq!(learn::learn(&book, Form::Full, &mut sheet), Answer::success(steps));
    }
}
