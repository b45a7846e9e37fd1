//! The lines of a text and of `agree`'s input: which field stands in which columns, and how long each line is.

use crate::automaton::MOST_LABEL;

/// Columns of a tape, a limit, and a number of pairs or tapes.
const SHORT_NUMBER: usize = 3;
/// Columns of a state, and a number of states or arcs.
const LONG_NUMBER: usize = 6;
/// Columns of a weight.
const WEIGHT: usize = 10;
/// Columns of a label: the first is always blank.
const LABEL: usize = MOST_LABEL + 1;

/// The byte that ends a line.
pub const LINE_END: u8 = 10;

/// A field of a line; pairs and tapes count from 1.
#[derive(Clone, Copy, Debug, PartialEq, Eq)]
pub enum Field {
    PairCount,
    FirstTape(usize),
    SecondTape(usize),
    Limit(usize),
    Tapes,
    States,
    Arcs,
    Initial,
    Final,
    Source,
    Target,
    Weight,
    Label(usize),
}

use Field::{Arcs, Final, FirstTape, Initial, Limit, PairCount, SecondTape, Source, States, Tapes, Target, Weight};

impl Field {
    /// How many columns it has.
    pub fn width(self) -> usize {
        match self {
            PairCount | FirstTape(_) | SecondTape(_) | Limit(_) | Tapes => SHORT_NUMBER,
            States | Arcs | Source | Target => LONG_NUMBER,
            Initial | Final | Weight => WEIGHT,
            Field::Label(_) => LABEL,
        }
    }

    /// How many columns of its line stand before it.
    pub fn start(self) -> usize {
        match self {
            PairCount | Tapes | Initial | Source => 0,
            FirstTape(1) => PairCount.end(),
            FirstTape(pair) => FirstTape(1).start() + (pair - 1) * (Limit(1).end() - FirstTape(1).start()),
            SecondTape(pair) => FirstTape(pair).end(),
            Limit(pair) => SecondTape(pair).end(),
            States => Tapes.end(),
            Arcs => States.end(),
            Final => Initial.end(),
            Target => Source.end(),
            Weight => Target.end(),
            Field::Label(tape) => Weight.end() + (tape - 1) * LABEL,
        }
    }

    /// How many columns of its line stand before what follows it.
    pub fn end(self) -> usize {
        self.start() + self.width()
    }
}

/// What a line is about, with what decides its length; states and arcs count from 0.
#[derive(Clone, Copy, Debug, PartialEq, Eq)]
pub enum LineKind {
    /// The pair line of `agree`, for so many pairs.
    Pairs {
        pairs: usize,
    },
    Header,
    State {
        number: u64,
    },
    Arc {
        number: u64,
        tapes: usize,
    },
    /// What stands behind the last line.
    Behind,
}

impl LineKind {
    /// The last field of the line.
    fn last_field(self) -> Option<Field> {
        match self {
            LineKind::Pairs { pairs: 0 } => Some(PairCount),
            LineKind::Pairs { pairs } => Some(Limit(pairs)),
            LineKind::Header => Some(Arcs),
            LineKind::State { .. } => Some(Final),
            LineKind::Arc { tapes, .. } => Some(Field::Label(tapes)),
            LineKind::Behind => None,
        }
    }

    /// How many bytes the line has, its end included; 0 where there is none.
    pub fn length(self) -> usize {
        self.last_field().map_or(0, |field| field.end() + 1)
    }
}
