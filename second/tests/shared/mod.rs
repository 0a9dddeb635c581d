//! Books and orders from the paper's hexadecimal text, and what learning and
//! checking them must come to.

#![allow(dead_code, reason = "not every test needs all of it")]

use second::calls::Form;
use second::{check, learn, listing, Answer};

pub fn hex(text: &str) -> Vec<u8> {
    let digits: Vec<u8> =
        text.chars().filter_map(|c| c.to_digit(16)).map(|digit| digit as u8).collect();
    digits.chunks_exact(2).map(|pair| pair[0] << 4 | pair[1]).collect()
}

/// The answer of learning from a full book, and the sheet.
pub fn learned(book: &[u8]) -> (Answer, Vec<u8>) {
    let mut sheet = vec![0xee; 128 * usize::from(book[5])];
    let answer = learn::learn(book, Form::Full, &mut sheet);
    (answer, sheet)
}

/// An order of one start for objects of these kinds.
pub fn order(
    objects: &[u8],
    start: &[[u8; 3]],
    goal: &[(u8, [u8; 3])],
    steps: &[[u8; 5]],
) -> Vec<u8> {
    let start_at = 16 + objects.len();
    let goal_at = start_at + 2 + 3 * start.len();
    let steps_at = goal_at + 4 * goal.len();
    let counts = [objects.len(), 1, goal.len(), steps.len()];
    let header = counts.into_iter().chain([16, start_at, goal_at, steps_at]);
    let mut bytes: Vec<u8> = header.flat_map(|number| (number as u16).to_be_bytes()).collect();
    bytes.extend(objects);
    bytes.extend((start.len() as u16).to_be_bytes());
    bytes.extend(start.iter().flatten());
    for (holds, fact) in goal {
        bytes.push(*holds);
        bytes.extend(fact);
    }
    bytes.extend(steps.iter().flatten());
    bytes
}

fn check_all(book: &[u8], order: &[u8]) -> (Answer, Vec<u8>) {
    let mut end = vec![0xa5; 512];
    let answer = check::check(book, Form::Full, order, &mut end);
    (answer, end)
}

pub fn refused(book: &[u8], order: &[u8], answer: Answer) {
    let (given, end) = check_all(book, order);
    assert_eq!(given, answer);
    assert_eq!(end, vec![0xa5; 512], "a refusal leaves lent memory untouched");
    let text = format!("refused {} {}\n", answer.number, answer.place);
    assert_eq!(listing::plan(book, order), text);
}

/// Passes with these facts at the end, by their numbers in the end sheet.
pub fn passes(book: &[u8], order: &[u8], steps: usize, facts: &[usize]) {
    let (given, end) = check_all(book, order);
    assert_eq!(given, Answer::success(steps));
    assert_eq!(end, set(512, facts));
    assert_eq!(listing::plan(book, order), format!("passes {steps}\n"));
}

/// This many bytes with just these bits, as in the paper's sheets.
pub fn set(length: usize, bits: &[usize]) -> Vec<u8> {
    let mut bytes = vec![0; length];
    for bit in bits {
        bytes[bit / 8] |= 1 << (bit % 8);
    }
    bytes
}
