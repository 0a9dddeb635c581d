//! Books, records and orders before they are bytes, and where each part then
//! lies. A draft may break any limit: the bytes are laid out all the same.

pub mod facts;
pub mod kinds;
mod parsed;
pub mod sequence;
pub mod twin;

use crate::calls::Form;

pub type Fact = [u8; 3];
pub type Step = [u8; 5];

/// Whether a recorded step went; else 128 is added to its move.
#[must_use]
pub const fn went(step: &Step) -> bool {
    step[0] < 128
}

/// The step of a record, filed as one that did not go.
#[must_use]
pub const fn not_gone(step: Step) -> Step {
    [step[0] | 128, step[1], step[2], step[3], step[4]]
}

/// The index of a step's move, whether it went or not.
#[must_use]
pub const fn action(step: &Step) -> usize {
    (step[0] % 128) as usize - 1
}

#[derive(Clone, Debug, Default)]
pub struct BookDraft {
    /// What the states of its records say.
    pub form: Form,
    pub kinds: usize,
    /// A byte for each kind, or none: the relations then begin at 16.
    pub parents: Vec<u8>,
    pub relations: Vec<[u8; 4]>,
    pub moves: Vec<[u8; 6]>,
    pub records: Vec<RecordDraft>,
}

#[derive(Clone, Debug, Default)]
pub struct RecordDraft {
    pub objects: Vec<u8>,
    /// One more than the steps. In a short book those after the first are the facts
    /// that turn.
    pub states: Vec<Vec<Fact>>,
    pub steps: Vec<Step>,
}

#[derive(Clone, Debug, Default)]
pub struct OrderDraft {
    pub objects: Vec<u8>,
    /// The facts of each start.
    pub starts: Vec<Vec<Fact>>,
    pub goal: Vec<(u8, Fact)>,
    pub steps: Vec<Step>,
}

/// The offsets of a record's parts in its book.
pub struct RecordLayout {
    pub at: usize,
    pub end: usize,
    pub objects: usize,
    /// Where the count of each state stands; its first fact stands 2 behind.
    pub states: Vec<usize>,
    pub steps: Vec<usize>,
}

pub struct BookLayout {
    pub relations: usize,
    pub moves: usize,
    pub records_at: usize,
    pub records: Vec<RecordLayout>,
}

pub struct OrderLayout {
    /// Where the count of each start stands; its first fact stands 2 behind.
    pub starts: Vec<usize>,
    pub goal: usize,
    pub steps: usize,
}

pub(crate) fn push_number(bytes: &mut Vec<u8>, number: usize) {
    bytes.extend_from_slice(&(number as u16).to_be_bytes());
}

/// Overwrites a two-byte number.
pub(crate) fn put_number(bytes: &mut [u8], at: usize, number: usize) {
    bytes[at..at + 2].copy_from_slice(&(number as u16).to_be_bytes());
}

impl RecordDraft {
    #[must_use]
    pub fn length(&self) -> usize {
        let facts: usize = self.states.iter().map(Vec::len).sum();
        4 + self.objects.len() + 2 * self.states.len() + 3 * facts + 5 * self.steps.len()
    }

    #[must_use]
    pub fn bytes(&self) -> Vec<u8> {
        let mut bytes = Vec::with_capacity(self.length());
        self.write(&mut bytes);
        bytes
    }

    fn write(&self, bytes: &mut Vec<u8>) {
        bytes.extend([self.objects.len() as u8, self.steps.len() as u8]);
        push_number(bytes, self.length());
        bytes.extend_from_slice(&self.objects);
        for (index, state) in self.states.iter().enumerate() {
            if index > 0 {
                bytes.extend_from_slice(&self.steps[index - 1]);
            }
            push_number(bytes, state.len());
            bytes.extend(state.iter().flatten());
        }
    }

    /// The same trajectory with other object numbers: object n becomes
    /// `numbers[n - 1]`.
    #[must_use]
    pub fn renumbered(&self, numbers: &[u8]) -> Self {
        let number = |object: u8| match object {
            0 => 0,
            _ => numbers[usize::from(object) - 1],
        };
        let mut objects = vec![0; self.objects.len()];
        for (&kind, &new) in self.objects.iter().zip(numbers) {
            objects[usize::from(new) - 1] = kind;
        }
        let state = |facts: &Vec<Fact>| {
            let mut facts: Vec<Fact> =
                facts.iter().map(|&[relation, a, b]| [relation, number(a), number(b)]).collect();
            facts.sort_unstable();
            facts
        };
        let step =
            |&[action, a, b, c, d]: &Step| [action, number(a), number(b), number(c), number(d)];
        Self {
            objects,
            states: self.states.iter().map(state).collect(),
            steps: self.steps.iter().map(step).collect(),
        }
    }

    fn layout(&self, at: usize) -> RecordLayout {
        let objects = at + 4;
        let (mut states, mut steps) = (Vec::new(), Vec::new());
        let mut cursor = objects + self.objects.len();
        for (index, state) in self.states.iter().enumerate() {
            if index > 0 {
                steps.push(cursor);
                cursor += 5;
            }
            states.push(cursor);
            cursor += 2 + 3 * state.len();
        }
        RecordLayout { at, end: cursor, objects, states, steps }
    }
}

impl BookDraft {
    #[must_use]
    pub fn front_length(&self) -> usize {
        self.moves_at() + 6 * self.moves.len()
    }

    fn relations_at(&self) -> usize {
        16 + self.parents.len()
    }

    fn moves_at(&self) -> usize {
        self.relations_at() + 4 * self.relations.len()
    }

    #[must_use]
    pub fn length(&self) -> usize {
        self.front_length() + self.records.iter().map(RecordDraft::length).sum::<usize>()
    }

    #[must_use]
    pub fn steps(&self) -> usize {
        self.records.iter().map(|record| record.steps.len()).sum()
    }

    /// Whether some recorded step did not go.
    #[must_use]
    pub fn has_inapplicable(&self) -> bool {
        self.records.iter().flat_map(|record| &record.steps).any(|step| !went(step))
    }

    #[must_use]
    pub fn bytes(&self) -> Vec<u8> {
        let length = self.length();
        let mut bytes = Vec::with_capacity(length);
        let counts = [self.kinds, self.relations.len(), self.moves.len(), self.records.len()];
        let offsets = [self.relations_at(), self.moves_at(), self.front_length(), length];
        for number in counts.into_iter().chain(offsets) {
            push_number(&mut bytes, number);
        }
        bytes.extend_from_slice(&self.parents);
        bytes.extend(self.relations.iter().flatten());
        bytes.extend(self.moves.iter().flatten());
        for record in &self.records {
            record.write(&mut bytes);
        }
        bytes
    }

    #[must_use]
    pub fn layout(&self) -> BookLayout {
        let mut at = self.front_length();
        let records = self
            .records
            .iter()
            .map(|record| {
                let layout = record.layout(at);
                at = layout.end;
                layout
            })
            .collect();
        BookLayout {
            relations: self.relations_at(),
            moves: self.moves_at(),
            records_at: self.front_length(),
            records,
        }
    }
}

impl OrderDraft {
    #[must_use]
    pub fn layout(&self) -> OrderLayout {
        let mut cursor = 16 + self.objects.len();
        let start = |facts: &Vec<Fact>| {
            let at = cursor;
            cursor += 2 + 3 * facts.len();
            at
        };
        let starts = self.starts.iter().map(start).collect();
        OrderLayout { starts, goal: cursor, steps: cursor + 4 * self.goal.len() }
    }

    #[must_use]
    pub fn bytes(&self) -> Vec<u8> {
        let layout = self.layout();
        let mut bytes = Vec::new();
        let counts = [self.objects.len(), self.starts.len(), self.goal.len(), self.steps.len()];
        let offsets = [16, 16 + self.objects.len(), layout.goal, layout.steps];
        for number in counts.into_iter().chain(offsets) {
            push_number(&mut bytes, number);
        }
        bytes.extend_from_slice(&self.objects);
        for start in &self.starts {
            push_number(&mut bytes, start.len());
            bytes.extend(start.iter().flatten());
        }
        for (holds, fact) in &self.goal {
            bytes.push(*holds);
            bytes.extend_from_slice(fact);
        }
        bytes.extend(self.steps.iter().flatten());
        bytes
    }
}
