//! The same book with its records in another sequence, as if forms had come in late.

use crate::gen::rng::Rng;
use crate::limits::HEADER_LENGTH;

/// The same records, each as often, in a sequence that gives other bytes. The book
/// must be of good form; `None` if it has no two records that differ.
pub fn permuted(book: &[u8], rng: &mut Rng) -> Option<Vec<u8>> {
    let (front, records) = parts(book);
    if records.windows(2).all(|pair| pair[0] == pair[1]) {
        return None;
    }
    loop {
        let mut sequence = records.clone();
        rearrange(&mut sequence, rng);
        if sequence != records {
            return Some([front, &sequence.concat()].concat());
        }
    }
}

/// The bytes before the records of a good book, and those of each record.
pub fn parts(book: &[u8]) -> (&[u8], Vec<&[u8]>) {
    let number = |at: usize| usize::from(u16::from_be_bytes([book[at], book[at + 1]]));
    debug_assert!(number(12) >= HEADER_LENGTH);
    let mut at = number(12);
    let records = (0..number(6)).map(|_| {
        let record = &book[at..at + number(at + 2)];
        at += record.len();
        record
    });
    (&book[..number(12)], records.collect())
}

/// Any sequence most of the time. Those that move a single record, or turn all
/// round, are few among them, so they are drawn by themselves as well.
fn rearrange(records: &mut [&[u8]], rng: &mut Rng) {
    match rng.below(10) {
        0 => records.reverse(),
        1 => records.rotate_left(1),
        2 => {
            let at = rng.below(records.len() - 1);
            records.swap(at, at + 1);
        }
        _ => rng.shuffle(records),
    }
}

#[cfg(test)]
mod tests {
    use super::{parts, permuted};
    use crate::calls::Form;
    use crate::gen::hall::{book, Dynamics};
    use crate::gen::Rng;

    /// A book's records are the same afterwards, and a book that has no other
    /// sequence is left out.
    #[test]
    fn the_records_stay_and_the_bytes_do_not() {
        let mut drawn = 0;
        for seed in 0..2_000 {
            let rng = &mut Rng::new(seed as u64);
            let bytes = book::any_size(Form::BOTH[seed % 2], Dynamics::Random, rng).1.bytes();
            let (front, mut records) = parts(&bytes);
            assert_eq!([front, &records.concat()].concat(), bytes);
            records.sort_unstable();
            let Some(other) = permuted(&bytes, rng) else {
                assert_eq!(records.first(), records.last());
                continue;
            };
            let (other_front, mut others) = parts(&other);
            others.sort_unstable();
            assert!(other != bytes && other_front == front && others == records, "{seed}");
            drawn += 1;
        }
        assert!(drawn > 1_000, "{drawn}");
    }
}
