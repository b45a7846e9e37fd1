//! A fault of a text: the refusal, where it stands, and what should stand there.

use crate::lines::{Field, LineKind};
use crate::refusal::Refusal;

/// Columns of a line of a text. The line and the columns count from 1, both columns included.
#[derive(Clone, Copy, Debug, PartialEq, Eq)]
pub struct Place {
    pub line: usize,
    pub kind: LineKind,
    pub first: usize,
    pub last: usize,
    /// The field that has these columns, if it is one.
    pub field: Option<Field>,
}

impl Place {
    /// The columns of a field.
    pub fn of_field(line: usize, kind: LineKind, field: Field) -> Place {
        Place { line, kind, first: field.start() + 1, last: field.end(), field: Some(field) }
    }

    /// Columns that are no single field.
    pub fn of_columns(line: usize, kind: LineKind, first: usize, last: usize) -> Place {
        Place { line, kind, first, last, field: None }
    }
}

/// What should stand in a place.
#[derive(Clone, Copy, Debug, PartialEq, Eq)]
pub enum Expected {
    /// The bytes that the line lacks.
    RestOfLine,
    LineEnd,
    EndOfText,
    Number,
    /// A number from the one to the other.
    NumberFrom(u64, u64),
    /// An initial or final weight, or a minus sign.
    OptionalWeight,
    Label,
    /// A state of a table that has so many.
    State(u64),
    /// A tape of a table that has so many.
    Tape(u64),
    /// A tape that no field further left names; this one does.
    OtherTape(Field),
    /// A number no greater than the space lent.
    Lent(u64),
    /// A text of no more bytes.
    Bytes(u64),
}

/// Why a text is refused; no place is that of the text as a whole.
#[derive(Clone, Copy, Debug, PartialEq, Eq)]
pub struct Fault {
    pub refusal: Refusal,
    pub place: Option<Place>,
    pub expected: Expected,
}

impl From<Fault> for Refusal {
    fn from(fault: Fault) -> Refusal {
        fault.refusal
    }
}
