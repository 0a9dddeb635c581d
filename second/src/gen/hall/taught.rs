//! Records from which exactly the hidden rules are learned, so that the answer
//! to a plan follows from these rules alone.

use super::World;
use crate::gen::draft::RecordDraft;
use crate::gen::rng::Rng;
use crate::limits::FACT_LIMIT;

impl World {
    /// Files two records of one step for each move. A lifted atom that is needed
    /// neither way has another value before each of the two, so that no other
    /// need is learned and each effect is seen. The hidden rules must have no
    /// effect that gives an atom the value needed, for that is never seen.
    pub fn teach(&mut self, rng: &mut Rng) {
        for index in 0..self.rules.len() {
            let values: Vec<bool> = self.rules[index].iter().map(|_| rng.chance(50)).collect();
            for turned in [false, true] {
                let record = self.one_step(index, |atom| values[atom] != turned, rng);
                self.book.records.push(record);
            }
        }
        rng.shuffle(&mut self.book.records);
    }

    /// A record of one step of this move, with `free` values of the atoms that
    /// are needed neither way.
    fn one_step(&self, index: usize, free: impl Fn(usize) -> bool, rng: &mut Rng) -> RecordDraft {
        let (entry, atoms) = (self.book.moves[index], &self.rules[index]);
        let mut objects = Vec::new();
        let mut step = [index as u8 + 1, 0, 0, 0, 0];
        for parameter in 1..=usize::from(entry[0]) {
            objects.extend(rng.pick(&self.book.suiting(entry[parameter])));
            step[parameter] = objects.len() as u8;
        }
        if self.book.kinds > 0 {
            objects.extend((0..rng.below(4)).map(|_| rng.range(1, self.book.kinds) as u8));
        }
        let others = (FACT_LIMIT - atoms.len()).min(20);
        let mut before = self.state(&objects, others, rng);
        for (number, atom) in atoms.iter().enumerate() {
            let fact = atom.fact(&step);
            if atom.rule.needed.unwrap_or_else(|| free(number)) {
                before.insert(fact);
            } else {
                before.remove(&fact);
            }
        }
        let after = self.apply(&step, &before).expect("the needs are met");
        let states = [before, after].map(|state| state.into_iter().collect()).to_vec();
        let mut numbers: Vec<u8> = (1..=objects.len() as u8).collect();
        rng.shuffle(&mut numbers);
        RecordDraft { objects, states, steps: vec![step] }.renumbered(&numbers)
    }
}
