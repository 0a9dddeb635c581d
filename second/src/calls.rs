//! The six calls as every implementation has them: over bytes, with number,
//! place and position packed into one answer.

use crate::answer::Answer;

/// How the states after a record's first are written in a book.
#[derive(Clone, Copy, Debug, Default, PartialEq, Eq, PartialOrd, Ord)]
pub enum Form {
    /// By the facts that hold.
    #[default]
    Full,
    /// By the facts whose value turns with the step.
    Short,
}

impl Form {
    pub const BOTH: [Self; 2] = [Self::Full, Self::Short];

    /// What a call is told; a short book has every other number as well.
    #[must_use]
    pub const fn number(self) -> u32 {
        match self {
            Self::Full => 0,
            Self::Short => 1,
        }
    }

    #[must_use]
    pub const fn other(self) -> Self {
        match self {
            Self::Full => Self::Short,
            Self::Short => Self::Full,
        }
    }

    #[must_use]
    pub const fn name(self) -> &'static str {
        match self {
            Self::Full => "full",
            Self::Short => "short",
        }
    }
}

/// `form` is 0 for a full book and any other number for a short one.
pub trait Calls {
    fn look_over(&self, book: &[u8], form: u32) -> u64;
    fn learn(&self, book: &[u8], form: u32, sheet: &mut [u8]) -> u64;
    fn check(&self, book: &[u8], form: u32, order: &[u8], end: &mut [u8]) -> u64;
    fn add(&self, book: &[u8], form: u32, record: &[u8], out: &mut [u8]) -> u64;
    fn to_short(&self, book: &[u8], out: &mut [u8]) -> u64;
    fn to_full(&self, book: &[u8], out: &mut [u8]) -> u64;
}

/// One of the six calls.
#[derive(Clone, Copy, Debug, PartialEq, Eq, PartialOrd, Ord)]
pub enum Job {
    LookOver,
    Learn,
    Check,
    Add,
    ToShort,
    ToFull,
}

impl Job {
    pub const ALL: [Self; 6] =
        [Self::LookOver, Self::Learn, Self::Check, Self::Add, Self::ToShort, Self::ToFull];

    /// Those that are told the form of their book.
    pub const OF_BOTH_FORMS: [Self; 4] = [Self::LookOver, Self::Learn, Self::Check, Self::Add];

    #[must_use]
    pub const fn name(self) -> &'static str {
        match self {
            Self::LookOver => "look_over",
            Self::Learn => "learn",
            Self::Check => "check",
            Self::Add => "add",
            Self::ToShort => "to_short",
            Self::ToFull => "to_full",
        }
    }

    /// The forms that this call reads.
    #[must_use]
    pub const fn forms(self) -> &'static [Form] {
        match self {
            Self::ToShort => &[Form::Full],
            Self::ToFull => &[Form::Short],
            _ => &Form::BOTH,
        }
    }

    /// The numbers that this call can answer with.
    pub fn numbers(self) -> Vec<u32> {
        match self {
            Self::LookOver => (0..=10).chain([21, 24, 27]).collect(),
            Self::Learn => (0..=13).chain([21, 24, 27, 28]).collect(),
            Self::Check => (0..=22).chain([24, 27, 28]).collect(),
            Self::Add => (0..=10).chain([13, 21, 24, 27]).collect(),
            Self::ToShort | Self::ToFull => (0..=10).chain([13, 21, 23, 24, 27]).collect(),
        }
    }

    /// Runs this call. `other` is the order or the record, and `output` the
    /// memory lent for what is written; a call that has none takes no notice, nor
    /// does a converter of the form.
    pub fn run(
        self,
        calls: &(impl Calls + ?Sized),
        book: &[u8],
        form: u32,
        other: &[u8],
        output: &mut [u8],
    ) -> u64 {
        match self {
            Self::LookOver => calls.look_over(book, form),
            Self::Learn => calls.learn(book, form, output),
            Self::Check => calls.check(book, form, other, output),
            Self::Add => calls.add(book, form, other, output),
            Self::ToShort => calls.to_short(book, output),
            Self::ToFull => calls.to_full(book, output),
        }
    }
}

/// The number, the place and the position of a packed answer.
#[must_use]
pub const fn unpacked(packed: u64) -> Answer {
    let position = (packed >> 32) as u16 as u32;
    Answer { number: (packed >> 48) as u32, place: packed as u32, position }
}
