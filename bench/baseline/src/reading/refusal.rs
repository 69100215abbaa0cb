//! The numbers of document 01 that a trace can be refused with.

#[derive(Clone, Copy, Debug, PartialEq, Eq)]
pub enum Refusal {
    Line = 1,
    Version = 2,
    Parameter = 3,
    Scale = 4,
    Form = 5,
    Word = 6,
    Presence = 7,
    Time = 8,
    Kind = 9,
    Room = 10,
    Step = 11,
    Series = 12,
    Core = 13,
    Count = 14,
}

/// A refused trace: why, and at which line, counted from 1.
#[derive(Debug, PartialEq, Eq)]
pub struct Refused {
    pub why: Refusal,
    pub line: u64,
}
