//! A fault of a text with what stands in its place, and a hint in words where a slip is a usual one.

use crate::agree::PAIR_LINE;
use crate::automaton::Room;
use crate::fault::{Expected, Fault, Place};
use crate::lines::{LineKind, LINE_END};
use crate::text::{read_header, read_pair_line, Header, Reader};

/// A fault of a text, and what stands there.
#[derive(Clone, Debug, PartialEq, Eq)]
pub struct TextFault {
    pub fault: Fault,
    /// The bytes of the columns; of a line that is cut those that it has, and behind the last line all that follows.
    pub found: Vec<u8>,
    pub hint: Option<Hint>,
    /// What the header counts, if it can be read.
    pub header: Option<Header>,
    /// How many bytes the input has.
    pub size: u64,
}

impl TextFault {
    /// Looks up what stands at the place of a fault.
    pub fn new(input: &[u8], size: u64, fault: Fault) -> TextFault {
        let found = fault.place.map_or_else(Vec::new, |place| found(input, place, fault.expected));
        let header = header_of(input);
        let hint = fault.place.and_then(|place| hint(input, fault, place, &found, header));
        TextFault { fault, found, hint, header, size }
    }
}

/// What the header of an input counts, if the pair line and the header can be read.
fn header_of(input: &[u8]) -> Option<Header> {
    let mut reader = Reader::new(input);
    read_pair_line(&mut reader).ok()?;
    read_header(&mut reader, Room::AMPLE).ok()
}

/// The input from the start of a line on.
fn from_line(input: &[u8], line: usize) -> &[u8] {
    let before = input.split_inclusive(|&byte| byte == LINE_END).take(line - 1);
    &input[before.map(<[u8]>::len).sum()..]
}

/// How many columns stand before the first line end, if there is one.
fn columns_before_end(bytes: &[u8]) -> Option<usize> {
    bytes.iter().position(|&byte| byte == LINE_END)
}

/// What stands at a place.
fn found(input: &[u8], place: Place, expected: Expected) -> Vec<u8> {
    let line = from_line(input, place.line);
    match expected {
        Expected::RestOfLine | Expected::EndOfText => line.to_vec(),
        _ => line[place.first - 1..place.last].to_vec(),
    }
}

/// A usual slip.
#[derive(Clone, Copy, Debug, PartialEq, Eq)]
pub enum Hint {
    ByteOrderMark,
    /// The first line is a header.
    NoPairLine,
    /// The line of a state is as long as that of an arc.
    ArcForState,
    /// The line of an arc is as long as that of a state.
    StateForArc,
    CarriageReturn,
    Tab,
    /// The line has no more columns than these.
    EarlyEnd(usize),
    /// The line goes on to this column.
    LateEnd(usize),
    /// Only the end of the last line is missing.
    NoLineEnd,
    EmptyLine,
    SmallLetter,
    LeadingZero,
    BlankNumber,
    BlankWeight,
    /// Blanks stand behind the number or label.
    NotAtRight,
}

/// What byte order marks begin with: UTF-8, and UTF-16 in both orders.
const BYTE_ORDER_MARKS: [&[u8]; 3] = [b"\xEF\xBB\xBF", b"\xFF\xFE", b"\xFE\xFF"];

/// The hint for a fault where `found` stands.
fn hint(input: &[u8], fault: Fault, place: Place, found: &[u8], header: Option<Header>) -> Option<Hint> {
    let of_file = (place.line == PAIR_LINE).then(|| pair_line_hint(input)).flatten();
    let line = from_line(input, place.line);
    let end = columns_before_end(line);
    let lacks_end_alone = place.first > 1 && place.first == place.last;
    of_file.or(match fault.expected {
        Expected::RestOfLine => end.map(Hint::EarlyEnd).or(lacks_end_alone.then_some(Hint::NoLineEnd)),
        Expected::LineEnd if found == b"\r" => Some(Hint::CarriageReturn),
        Expected::LineEnd => Some(Hint::LateEnd(end.unwrap_or(line.len()))),
        Expected::EndOfText => (end == Some(0)).then_some(Hint::EmptyLine),
        Expected::Number | Expected::OptionalWeight | Expected::Label => {
            other_line(place.kind, end, header).or(field_hint(found, place, fault.expected))
        }
        _ => None,
    })
}

/// The hint for a file that does not begin with a pair line.
fn pair_line_hint(input: &[u8]) -> Option<Hint> {
    let is_header = || read_header(&mut Reader::new(input), Room::AMPLE).is_ok();
    if BYTE_ORDER_MARKS.iter().any(|mark| input.starts_with(mark)) {
        Some(Hint::ByteOrderMark)
    } else {
        is_header().then_some(Hint::NoPairLine)
    }
}

/// The hint for the line of a state that is one of an arc by its length, or the other way round.
fn other_line(kind: LineKind, end: Option<usize>, header: Option<Header>) -> Option<Hint> {
    let length = end? + 1;
    match kind {
        LineKind::State { number } => {
            let arc = LineKind::Arc { number, tapes: header?.tapes as usize };
            (length == arc.length()).then_some(Hint::ArcForState)
        }
        LineKind::Arc { number, .. } => (length == LineKind::State { number }.length()).then_some(Hint::StateForArc),
        _ => None,
    }
}

/// The hint for a field that has not its form.
fn field_hint(found: &[u8], place: Place, expected: Expected) -> Option<Hint> {
    let early_end = columns_before_end(found).map(|columns| Hint::EarlyEnd(place.first - 1 + columns));
    let is_blank = found.iter().all(|&byte| byte == b' ');
    let is_label = expected == Expected::Label;
    let number = found.trim_ascii_start();
    let has_leading_zero = !is_label && number.starts_with(b"0") && number.iter().all(u8::is_ascii_digit);
    let hint = |is_so: bool, hint: Hint| is_so.then_some(hint);
    hint(found.contains(&b'\r'), Hint::CarriageReturn)
        .or(hint(found.contains(&b'\t'), Hint::Tab))
        .or(early_end)
        .or(hint(is_label && found.iter().any(u8::is_ascii_lowercase), Hint::SmallLetter))
        .or(hint(has_leading_zero, Hint::LeadingZero))
        .or(hint(is_blank && expected == Expected::OptionalWeight, Hint::BlankWeight))
        .or(hint(is_blank, Hint::BlankNumber))
        .or(hint(found.ends_with(b" "), Hint::NotAtRight))
}
