//! The drafts of a good book and of a good order, from their bytes.

use super::{BookDraft, Fact, OrderDraft, RecordDraft};
use crate::calls::Form;

impl BookDraft {
    /// Reads a book of good form; its states are listed as this form has them.
    ///
    /// # Panics
    /// If the book is cut.
    #[must_use]
    pub fn parse(bytes: &[u8], form: Form) -> Self {
        let mut rest = bytes;
        let numbers: [usize; 8] = std::array::from_fn(|_| number(&mut rest));
        let [kinds, relations, moves, records, relations_at, ..] = numbers;
        Self {
            form,
            kinds,
            parents: take(&mut rest, relations_at - 16).to_vec(),
            relations: (0..relations).map(|_| array(&mut rest)).collect(),
            moves: (0..moves).map(|_| array(&mut rest)).collect(),
            records: (0..records).map(|_| record(&mut rest)).collect(),
        }
    }
}

impl OrderDraft {
    /// Reads an order of good form.
    ///
    /// # Panics
    /// If the order is cut.
    #[must_use]
    pub fn parse(bytes: &[u8]) -> Self {
        let mut rest = bytes;
        let numbers: [usize; 8] = std::array::from_fn(|_| number(&mut rest));
        let [objects, starts, goal, steps, ..] = numbers;
        Self {
            objects: take(&mut rest, objects).to_vec(),
            starts: (0..starts).map(|_| state(&mut rest)).collect(),
            goal: (0..goal).map(|_| (array::<1>(&mut rest)[0], array(&mut rest))).collect(),
            steps: (0..steps).map(|_| array(&mut rest)).collect(),
        }
    }
}

fn record(rest: &mut &[u8]) -> RecordDraft {
    let [objects, steps, _, _] = array(rest);
    let mut record =
        RecordDraft { objects: take(rest, usize::from(objects)).to_vec(), ..Default::default() };
    record.states.push(state(rest));
    for _ in 0..steps {
        record.steps.push(array(rest));
        record.states.push(state(rest));
    }
    record
}

fn state(rest: &mut &[u8]) -> Vec<Fact> {
    (0..number(rest)).map(|_| array(rest)).collect()
}

fn number(rest: &mut &[u8]) -> usize {
    usize::from(u16::from_be_bytes(array(rest)))
}

fn array<const N: usize>(rest: &mut &[u8]) -> [u8; N] {
    take(rest, N).try_into().expect("as many bytes")
}

fn take<'a>(rest: &mut &'a [u8], count: usize) -> &'a [u8] {
    let (taken, behind) = rest.split_at(count);
    *rest = behind;
    taken
}

#[cfg(test)]
mod tests {
    use crate::calls::Form;
    use crate::gen::hall::{book, Dynamics};
    use crate::gen::plan::order;
    use crate::gen::{BookDraft, OrderDraft, Rng};

    #[test]
    fn bytes_and_back() {
        for seed in 0..300 {
            let form = Form::BOTH[seed % 2];
            let mut rng = Rng::new(seed as u64);
            let bytes = book::any_size(form, Dynamics::Random, &mut rng).1.bytes();
            assert_eq!(BookDraft::parse(&bytes, form).bytes(), bytes);
            let bytes = order::draw(&mut rng).order.bytes();
            assert_eq!(OrderDraft::parse(&bytes).bytes(), bytes);
        }
    }
}
