//! The refusal list of document 01, and document 02's number 14.

/// A refusal; its discriminant is the number of the papers' list.
#[derive(Clone, Copy, Debug, PartialEq, Eq, Hash, PartialOrd, Ord)]
pub enum Refusal {
    Short = 1,
    Form = 2,
    Size = 3,
    State = 4,
    Tape = 5,
    Pairs = 6,
    Limit = 7,
    StatesFull = 8,
    ArcsFull = 9,
    Delay = 10,
    Weight = 11,
    Width = 12,
    Space = 13,
    PathList = 14,
}

impl Refusal {
    /// All of them, in the list's order.
    pub const ALL: [Refusal; 14] = [
        Refusal::Short,
        Refusal::Form,
        Refusal::Size,
        Refusal::State,
        Refusal::Tape,
        Refusal::Pairs,
        Refusal::Limit,
        Refusal::StatesFull,
        Refusal::ArcsFull,
        Refusal::Delay,
        Refusal::Weight,
        Refusal::Width,
        Refusal::Space,
        Refusal::PathList,
    ];

    /// The number in the papers' list.
    pub fn number(self) -> u64 {
        self as u64
    }

    /// The word beside the number.
    pub fn word(self) -> &'static str {
        match self {
            Refusal::Short => "short",
            Refusal::Form => "form",
            Refusal::Size => "size",
            Refusal::State => "state",
            Refusal::Tape => "tape",
            Refusal::Pairs => "pairs",
            Refusal::Limit => "limit",
            Refusal::StatesFull => "states full",
            Refusal::ArcsFull => "arcs full",
            Refusal::Delay => "delay",
            Refusal::Weight => "weight",
            Refusal::Width => "width",
            Refusal::Space => "space",
            Refusal::PathList => "path",
        }
    }
}

/// Refuses with `refusal`, or with a fault that has one, where `wrong` holds.
pub fn refuse_if<R>(wrong: bool, refusal: R) -> Result<(), R> {
    if wrong {
        Err(refusal)
    } else {
        Ok(())
    }
}
