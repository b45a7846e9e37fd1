//! Numbers, places and what is expected there, in words.

use super::{Count, Hint, Used};
use crate::automaton::MOST_LABEL;
use crate::fault::{Expected, Place};
use crate::forecast::Forecast;
use crate::lines::{Field, LineKind, LINE_END};
use crate::pairs::Pair;

/// Most bytes that are quoted.
const MOST_QUOTED: usize = 100;

/// A number with a comma before each three digits from its end.
pub fn thousands(number: u64) -> String {
    if number < 1_000 {
        return number.to_string();
    }
    format!("{},{:03}", thousands(number / 1_000), number % 1_000)
}

/// So many of something.
pub fn counted(number: u64, one: &str) -> String {
    format!("{} {one}{}", thousands(number), if number == 1 { "" } else { "s" })
}

/// So many of something, or more than the bound.
pub fn count(count: Count, one: &str) -> String {
    match count {
        Count::Exactly(number) => counted(number, one),
        Count::MoreThan(bound) => format!("more than {}", counted(bound, one)),
    }
}

/// Bytes in quotes: those that are not printable, quotes and backslashes as `\x` and two digits; only the first of many.
pub fn quoted(bytes: &[u8]) -> String {
    let shown = |&byte: &u8| match byte {
        b' '..=b'~' if byte != b'"' && byte != b'\\' => char::from(byte).to_string(),
        _ => format!("\\x{byte:02X}"),
    };
    let text: String = bytes.iter().take(MOST_QUOTED).map(shown).collect();
    match bytes.len().saturating_sub(MOST_QUOTED) {
        0 => format!("\"{text}\""),
        more => format!("\"{text}\" and {} more", counted(more as u64, "byte")),
    }
}

/// The tapes of a pair.
pub fn tapes((first, second): Pair) -> String {
    format!("tape {first} = tape {second}")
}

/// What a line is about.
fn line(kind: LineKind) -> String {
    match kind {
        LineKind::Pairs { .. } => "pair line".to_string(),
        LineKind::Header => "header".to_string(),
        LineKind::State { number } => format!("state {number}"),
        LineKind::Arc { number, .. } => format!("arc {number}"),
        LineKind::Behind => "behind the last line".to_string(),
    }
}

/// What a field holds.
fn field(field: Field) -> String {
    match field {
        Field::PairCount => "number of pairs".to_string(),
        Field::FirstTape(pair) => format!("first tape of pair {pair}"),
        Field::SecondTape(pair) => format!("second tape of pair {pair}"),
        Field::Limit(pair) => format!("limit of pair {pair}"),
        Field::Tapes => "number of tapes".to_string(),
        Field::States => "number of states".to_string(),
        Field::Arcs => "number of arcs".to_string(),
        Field::Initial => "initial weight".to_string(),
        Field::Final => "final weight".to_string(),
        Field::Source => "source".to_string(),
        Field::Target => "target".to_string(),
        Field::Weight => "weight".to_string(),
        Field::Label(tape) => format!("label on tape {tape}"),
    }
}

/// Columns, both included.
fn columns(first: usize, last: usize) -> String {
    if first == last {
        format!("column {first}")
    } else {
        format!("columns {first}-{last}")
    }
}

/// Line and columns of a place, and what they hold.
pub fn place(place: Place) -> String {
    let name = place.field.map_or_else(String::new, |of| format!(" ({})", field(of)));
    format!("line {} ({}), {}{name}", place.line, line(place.kind), columns(place.first, place.last))
}

/// The end of a line.
fn line_end() -> String {
    format!("line end (byte {LINE_END})")
}

/// What should stand in a place; none is the input as a whole.
pub fn expected(expected: Expected, place: Option<Place>) -> String {
    const RIGHT: &str = "at the right of its columns, without leading zeros";
    let width = place.and_then(|place| place.field).map_or(0, Field::width);
    match expected {
        Expected::RestOfLine if place.is_some_and(|place| place.first == place.last) => line_end(),
        Expected::RestOfLine if place.is_some_and(|place| place.first == 1) => format!("a whole line with its {}", line_end()),
        Expected::RestOfLine => format!("the rest of the line with its {}", line_end()),
        Expected::LineEnd => line_end(),
        Expected::EndOfText => "the end of the file".to_string(),
        Expected::Number => format!("a number {RIGHT}"),
        Expected::NumberFrom(least, most) => format!("a number from {} to {}", thousands(least), thousands(most)),
        Expected::OptionalWeight => format!("{} blanks and a minus sign, or a weight {RIGHT}", width - 1),
        Expected::Label => {
            format!("a label: 0 to {MOST_LABEL} symbols, A to Z and 0 to 9, at the right of its columns, the first of them blank")
        }
        Expected::State(0) => "no arc: this table has no states".to_string(),
        Expected::State(1) => "state 0, the only one of this table".to_string(),
        Expected::State(states) => format!("a state of this table, 0 to {}", states - 1),
        Expected::Tape(1) => "tape 1, the only one of this table".to_string(),
        Expected::Tape(tapes) => format!("a tape of this table, 1 to {tapes}"),
        Expected::OtherTape(before) => {
            format!("a tape that is not named yet; this one is, in {}", columns(before.start() + 1, before.end()))
        }
        Expected::Lent(most) => format!("a number up to {}, for which agree lends space", thousands(most)),
        Expected::Bytes(most) => format!("at most {}", counted(most, "byte")),
    }
}

/// A hint in words.
pub fn hint(hint: Hint) -> String {
    match hint {
        Hint::ByteOrderMark => "a byte order mark stands before the text: save the file without it".to_string(),
        Hint::NoPairLine => "line 1 is the header of a table: the pair line must stand before it".to_string(),
        Hint::ArcForState => "the line is as long as one of an arc: the header may count too many states".to_string(),
        Hint::StateForArc => "the line is as long as one of a state: the header may count too few states".to_string(),
        Hint::CarriageReturn => {
            "a carriage return (CR): lines end with byte 10 alone, not with CR LF as under Windows".to_string()
        }
        Hint::Tab => "a tab: columns are filled up with blanks".to_string(),
        Hint::EarlyEnd(columns) => {
            format!("the line ends too early, after {}; blanks at its end count", counted(columns as u64, "column"))
        }
        Hint::LateEnd(column) => format!("the line does not end here, it goes on to column {column}"),
        Hint::NoLineEnd => "the end of the last line is missing".to_string(),
        Hint::EmptyLine => "an empty line behind the last line".to_string(),
        Hint::SmallLetter => "a small letter: labels have capital letters".to_string(),
        Hint::LeadingZero => "a leading zero".to_string(),
        Hint::BlankNumber => "left blank: no number stands here".to_string(),
        Hint::NotAtRight => "blanks stand behind it: it must end in the last of its columns".to_string(),
        Hint::BlankWeight => "left blank: a weight that is absent is a minus sign in the last column".to_string(),
    }
}

/// What the forecast says of a pair.
pub fn forecast(forecast: Forecast) -> String {
    match forecast {
        Forecast::Mixed => "mixed: leftovers may grow without end".to_string(),
        Forecast::Needs { delay, .. } => format!("the pair can need a delay of up to {}", thousands(delay)),
    }
}

/// What of a limit is used.
pub fn used(what: Used) -> String {
    match what {
        Used::Bytes => "bytes of the input".to_string(),
        Used::StatesRead => "states read".to_string(),
        Used::ArcsRead => "arcs read".to_string(),
        Used::Configs => "configurations reached".to_string(),
        Used::ArcsBetween => "arcs between them".to_string(),
        Used::Leftover(pair) => format!("longest leftover of pair {pair}"),
    }
}
