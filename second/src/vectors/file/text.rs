//! The vectors' file: blocks of lines, one for each vector. tests/vectors/README.md
//! describes it for a reader who has no Rust.

use std::fmt::Write;

use super::bytes::{decode, encode};
use super::Vector;
use crate::answer::Answer;
use crate::calls::Job;

const HEAD: &str = "\
# Test vectors for the hall changeover calls. README.md says how to read them.
# Written by `second/target/release/vectors print`.
";
const WIDTH: usize = 100;
/// Of a vector that has no number yet.
const NO_ANSWER: Answer = Answer { number: u32::MAX, place: 0, position: 0 };

/// The bytes that each key had last.
#[derive(Default)]
struct Before {
    book: Vec<u8>,
    order: Vec<u8>,
    record: Vec<u8>,
    after: Vec<u8>,
}

#[must_use]
pub fn print(vectors: &[Vector]) -> String {
    let mut text = String::from(HEAD);
    let mut before = Before::default();
    for vector in vectors {
        let jobs: Vec<&str> = vector.jobs.iter().map(|job| job.name()).collect();
        write!(text, "\nvector {}\njobs {}\n", vector.name, jobs.join(" ")).expect(WRITES);
        print_bytes(&mut text, "book", &vector.book, &mut before.book);
        print_unless_0(&mut text, "form", vector.form);
        print_bytes(&mut text, "order", &vector.order, &mut before.order);
        print_bytes(&mut text, "record", &vector.record, &mut before.record);
        print_unless_0(&mut text, "output", vector.output as u32);
        let Answer { number, place, position } = vector.answer;
        writeln!(text, "number {number}\nplace {place}").expect(WRITES);
        print_unless_0(&mut text, "position", position);
        print_bytes(&mut text, "after", &vector.after, &mut before.after);
    }
    writeln!(text, "\nend {}", vectors.len()).expect(WRITES);
    text
}

const WRITES: &str = "a string takes all that is written";

fn print_unless_0(text: &mut String, key: &str, number: u32) {
    if number > 0 {
        writeln!(text, "{key} {number}").expect(WRITES);
    }
}

/// The bytes of a key, if it has any; the next one that has some is told them as
/// those before.
fn print_bytes(text: &mut String, key: &str, bytes: &[u8], before: &mut Vec<u8>) {
    if bytes.is_empty() {
        return;
    }
    text.push_str(key);
    print_parts(text, key.len(), &encode(bytes, before));
    *before = bytes.to_vec();
}

/// Parts on lines of at most [`WIDTH`], but for parts that are longer; a line
/// that goes on begins with a blank.
fn print_parts(text: &mut String, mut column: usize, parts: &[String]) {
    for part in parts {
        // A part that is plain hexadecimal may be broken between any two bytes.
        let whole = !part.bytes().all(|digit| digit.is_ascii_hexdigit());
        let mut rest = part.as_str();
        while !rest.is_empty() {
            if column + 3 > WIDTH || (whole && column + 1 + rest.len() > WIDTH) {
                text.push('\n');
                column = 0;
            }
            let room = if whole { rest.len() } else { (WIDTH - column - 1) / 2 * 2 };
            let (now, later) = rest.split_at(room.min(rest.len()));
            text.push(' ');
            text.push_str(now);
            column += 1 + now.len();
            rest = later;
        }
    }
    text.push('\n');
}

/// The vectors of a file, or what is wrong with it.
pub fn parse(text: &str) -> Result<Vec<Vector>, String> {
    let mut vectors: Vec<Vector> = Vec::new();
    let mut before = Before::default();
    let mut entries = entries(text)?;
    // A file that was cut has lost its last line.
    let (last, count) = entries.pop().ok_or("no line")?;
    for (key, value) in entries {
        if key == "vector" {
            vectors.push(Vector::new(value, &[], Vec::new(), NO_ANSWER));
            continue;
        }
        let vector = vectors.last_mut().ok_or("a line before the first vector")?;
        take(vector, &mut before, &key, &value)
            .map_err(|error| format!("vector {}, {key}: {error}", vector.name))?;
    }
    if last != "end" || count != vectors.len().to_string() {
        return Err(format!("{} vectors, and no end that says so", vectors.len()));
    }
    match vectors.iter().find(|v| v.jobs.is_empty() || v.answer.number == NO_ANSWER.number) {
        Some(vector) => Err(format!("vector {}: no jobs or no number", vector.name)),
        None => Ok(vectors),
    }
}

/// One line of a vector.
fn take(vector: &mut Vector, before: &mut Before, key: &str, value: &str) -> Result<(), String> {
    let number = || value.parse::<u32>().map_err(|error| error.to_string());
    match key {
        "jobs" => vector.jobs = parse_jobs(value)?,
        "book" => vector.book = take_bytes(value, &mut before.book)?,
        "form" => vector.form = number()?,
        "order" => vector.order = take_bytes(value, &mut before.order)?,
        "record" => vector.record = take_bytes(value, &mut before.record)?,
        "output" => vector.output = number()? as usize,
        "number" => vector.answer.number = number()?,
        "place" => vector.answer.place = number()?,
        "position" => vector.answer.position = number()?,
        "after" => vector.after = take_bytes(value, &mut before.after)?,
        _ => return Err("no such key".into()),
    }
    Ok(())
}

/// The bytes of a key, and if there are any, these as the ones before.
fn take_bytes(value: &str, before: &mut Vec<u8>) -> Result<Vec<u8>, String> {
    let bytes = decode(value, before)?;
    if !bytes.is_empty() {
        before.clone_from(&bytes);
    }
    Ok(bytes)
}

/// Each key with its value, the lines that go on put together.
fn entries(text: &str) -> Result<Vec<(String, String)>, String> {
    let mut entries: Vec<(String, String)> = Vec::new();
    for line in text.lines().filter(|line| !line.trim().is_empty() && !line.starts_with('#')) {
        if line.starts_with(' ') {
            let (_, value) = entries.last_mut().ok_or("the first line goes on")?;
            value.push_str(line);
        } else {
            let (key, value) = line.split_once(' ').unwrap_or((line, ""));
            entries.push((key.into(), value.into()));
        }
    }
    Ok(entries)
}

fn parse_jobs(value: &str) -> Result<Vec<Job>, String> {
    let job = |name: &str| {
        let found = Job::ALL.into_iter().find(|job| job.name() == name);
        found.ok_or_else(|| format!("no such job: {name}"))
    };
    value.split_whitespace().map(job).collect()
}
