//! The number, the place and the position that every call answers with.

/// Number 0 is success; any other number is a [`Refusal`].
#[derive(Clone, Copy, Debug, PartialEq, Eq, PartialOrd, Ord, Hash)]
pub struct Answer {
    pub number: u32,
    pub place: u32,
    /// That of the start, from 1, by which a plan fails; 0 unless by 19 or 20.
    pub position: u32,
}

/// The rows of the paper's table, by number. 21 stands between 3 and 4, 22 between
/// the counts and the offsets of 14, 23 directly before 13, 24 between 6 of a record's
/// head and 7, 27 behind the 8 of the state after its step, 28 between 12 and 13.
#[derive(Clone, Copy, Debug, PartialEq, Eq, PartialOrd, Ord, Hash)]
#[repr(u32)]
pub enum Refusal {
    Length = 1,
    HeaderCounts = 2,
    HeaderOffsets = 3,
    Relation = 4,
    Move = 5,
    Record = 6,
    Object = 7,
    State = 8,
    Step = 9,
    ObjectTwice = 10,
    UnboundChange = 11,
    EffectConflict = 12,
    Output = 13,
    OrderHeader = 14,
    OrderObject = 15,
    Start = 16,
    GoalEntry = 17,
    PlanStep = 18,
    NeedUnmet = 19,
    GoalMissed = 20,
    Parent = 21,
    StartCount = 22,
    ConvertedLength = 23,
    NoSteps = 24,
    StatesDiffer = 27,
    NeedsMet = 28,
}

impl Refusal {
    #[must_use]
    pub const fn at(self, place: usize) -> Answer {
        Answer { number: self as u32, place: place as u32, position: 0 }
    }
}

impl Answer {
    #[must_use]
    pub const fn success(place: usize) -> Self {
        Self { number: 0, place: place as u32, position: 0 }
    }

    /// The same by the start of this position, from 1.
    #[must_use]
    pub const fn from_start(self, position: usize) -> Self {
        Self { position: position as u32, ..self }
    }

    /// Whether the place is the offset of a recorded step by which learning refuses: it is
    /// another one in the book's other form, and may be in another sequence of its records.
    #[must_use]
    pub const fn is_at_step(self) -> bool {
        matches!(self.number, 11 | 28)
    }

    /// The form in which the C calls return it: number·2^48 + position·2^32 +
    /// place.
    #[must_use]
    pub const fn packed(self) -> u64 {
        ((self.number as u64) << 48) | ((self.position as u64) << 32) | self.place as u64
    }
}

impl std::fmt::Display for Answer {
    fn fmt(&self, f: &mut std::fmt::Formatter<'_>) -> std::fmt::Result {
        write!(f, "{} at {}", self.number, self.place)?;
        match self.position {
            0 => Ok(()),
            position => write!(f, " from start {position}"),
        }
    }
}
