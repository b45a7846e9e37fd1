//! The text of a table: fixed columns, each line ended by byte 10.
//!
//! A field is read by trimming its blanks, and is well-formed only if the writer would write the value back as the same bytes.
//! Of several faults of a line the least number is told, and of those the leftmost.

use crate::automaton::{
    is_symbol, Arc, Automaton, Label, Room, State, MOST_ARCS, MOST_LABEL, MOST_STATES, MOST_TAPES, MOST_WEIGHT,
};
use crate::fault::{Expected, Fault, Place};
use crate::lines::{Field, LineKind, LINE_END};
use crate::pairs::PairRecord;
use crate::refusal::{refuse_if, Refusal};
use std::fmt::Display;

/// What is left of a text, and the number of its next line.
pub struct Reader<'a> {
    rest: &'a [u8],
    line_number: usize,
}

impl<'a> Reader<'a> {
    /// A reader at the start of `text`.
    pub fn new(text: &'a [u8]) -> Self {
        Reader { rest: text, line_number: 1 }
    }

    /// The next line, not taken; 1 where fewer bytes are left than it has.
    fn peek(&self, kind: LineKind) -> Result<Line<'a>, Fault> {
        let short = || Fault {
            refusal: Refusal::Short,
            place: Some(Place::of_columns(self.line_number, kind, self.rest.len() + 1, kind.length())),
            expected: Expected::RestOfLine,
        };
        let bytes = self.rest.get(..kind.length()).ok_or_else(short)?;
        Ok(Line { line_number: self.line_number, kind, bytes })
    }

    /// Takes the next line; 1 where fewer bytes are left than it has.
    fn line(&mut self, kind: LineKind) -> Result<Line<'a>, Fault> {
        let line = self.peek(kind)?;
        self.rest = &self.rest[line.bytes.len()..];
        self.line_number += 1;
        Ok(line)
    }

    /// Nothing follows, else 2.
    fn end(&self) -> Result<(), Fault> {
        let columns = self.rest.iter().take_while(|&&byte| byte != LINE_END).count();
        let place = Place::of_columns(self.line_number, LineKind::Behind, 1, columns.max(1));
        let fault = Fault { refusal: Refusal::Form, place: Some(place), expected: Expected::EndOfText };
        refuse_if(!self.rest.is_empty(), fault)
    }
}

/// A line of a text with all its bytes.
struct Line<'a> {
    line_number: usize,
    kind: LineKind,
    bytes: &'a [u8],
}

impl Line<'_> {
    /// The fault of a field.
    fn fault(&self, refusal: Refusal, field: Field, expected: Expected) -> Fault {
        Fault { refusal, place: Some(Place::of_field(self.line_number, self.kind, field)), expected }
    }

    /// The bytes of a field.
    fn bytes_of(&self, field: Field) -> &[u8] {
        &self.bytes[field.start()..field.end()]
    }

    /// A number, 2 where the writer would not write that field.
    fn number(&self, field: Field) -> Result<u64, Fault> {
        self.formed(parse_number(self.bytes_of(field)), field, Expected::Number)
    }

    /// An initial or final weight; nine blanks and a minus sign are an absent one.
    fn optional_weight(&self, field: Field) -> Result<Option<u64>, Fault> {
        let bytes = self.bytes_of(field);
        if bytes == weight_field(field, None).as_bytes() {
            return Ok(None);
        }
        self.formed(parse_number(bytes), field, Expected::OptionalWeight).map(Some)
    }

    /// The label on a tape.
    fn label(&self, tape: usize) -> Result<Label, Fault> {
        let field = Field::Label(tape);
        self.formed(parse_label(self.bytes_of(field)), field, Expected::Label)
    }

    /// What was read of a field, 2 where it has not its form.
    fn formed<T>(&self, read: Option<T>, field: Field, expected: Expected) -> Result<T, Fault> {
        read.ok_or_else(|| self.fault(Refusal::Form, field, expected))
    }

    /// The line ends with byte 10, else 2.
    fn end(&self) -> Result<(), Fault> {
        let last = self.bytes.len();
        let place = Place::of_columns(self.line_number, self.kind, last, last);
        let fault = Fault { refusal: Refusal::Form, place: Some(place), expected: Expected::LineEnd };
        refuse_if(self.bytes[last - 1] != LINE_END, fault)
    }

    /// A number is in its range, else 3.
    fn judge_size(&self, field: Field, number: u64, least: u64, most: u64) -> Result<(), Fault> {
        let fault = self.fault(Refusal::Size, field, Expected::NumberFrom(least, most));
        refuse_if(!(least..=most).contains(&number), fault)
    }

    /// A weight is in its range, else 3.
    fn judge_weight(&self, field: Field, weight: Option<u64>) -> Result<(), Fault> {
        self.judge_size(field, weight.unwrap_or(0), 0, MOST_WEIGHT)
    }

    /// A number is one of so many states, else 4.
    fn judge_state(&self, field: Field, state: u64, states: u64) -> Result<(), Fault> {
        refuse_if(state >= states, self.fault(Refusal::State, field, Expected::State(states)))
    }

    /// A number is no greater than the space lent, else `refusal`.
    fn judge_space(&self, field: Field, number: u64, most: u64, refusal: Refusal) -> Result<(), Fault> {
        refuse_if(number > most, self.fault(refusal, field, Expected::Lent(most)))
    }
}

/// The number in a field, if the writer would write that field.
fn parse_number(bytes: &[u8]) -> Option<u64> {
    let number: u64 = std::str::from_utf8(bytes).ok()?.trim_start_matches(' ').parse().ok()?;
    (justified(number, bytes.len()).as_bytes() == bytes).then_some(number)
}

/// The label in a field, if it has a label's form.
fn parse_label(bytes: &[u8]) -> Option<Label> {
    let label: Label = bytes.iter().copied().skip_while(|&byte| byte == b' ').collect();
    (label.len() <= MOST_LABEL && label.iter().all(|&byte| is_symbol(byte))).then_some(label)
}

/// A text at the right of so many columns.
fn justified(text: impl Display, width: usize) -> String {
    format!("{text:>width$}")
}

/// A number in the columns of a field.
fn number_field(field: Field, number: u64) -> String {
    justified(number, field.width())
}

/// An initial or final weight in its columns.
fn weight_field(field: Field, weight: Option<u64>) -> String {
    weight.map_or_else(|| justified("-", field.width()), |weight| number_field(field, weight))
}

/// The label of a tape in its columns.
fn label_field(tape: usize, label: &[u8]) -> String {
    justified(String::from_utf8_lossy(label), Field::Label(tape).width())
}

/// The three counts of a header line.
#[derive(Clone, Copy, Debug, PartialEq, Eq)]
pub struct Header {
    pub tapes: u64,
    pub states: u64,
    pub arcs: u64,
}

/// Reads the header line: 1, 2, 3, then the space by 8, 9.
pub fn read_header(reader: &mut Reader, room: Room) -> Result<Header, Fault> {
    let line = reader.line(LineKind::Header)?;
    let tapes = line.number(Field::Tapes)?;
    let states = line.number(Field::States)?;
    let arcs = line.number(Field::Arcs)?;
    line.end()?;
    line.judge_size(Field::Tapes, tapes, 1, MOST_TAPES)?;
    line.judge_size(Field::States, states, 0, MOST_STATES)?;
    line.judge_size(Field::Arcs, arcs, 0, MOST_ARCS)?;
    line.judge_space(Field::States, states, room.states, Refusal::StatesFull)?;
    line.judge_space(Field::Arcs, arcs, room.arcs, Refusal::ArcsFull)?;
    Ok(Header { tapes, states, arcs })
}

/// Reads the line of a state.
fn read_state(reader: &mut Reader, number: u64) -> Result<State, Fault> {
    let line = reader.line(LineKind::State { number })?;
    let initial = line.optional_weight(Field::Initial)?;
    let final_weight = line.optional_weight(Field::Final)?;
    line.end()?;
    line.judge_weight(Field::Initial, initial)?;
    line.judge_weight(Field::Final, final_weight)?;
    Ok(State { initial, final_weight })
}

/// Reads the line of an arc of a table with `header`'s counts.
fn read_arc(reader: &mut Reader, header: Header, number: u64) -> Result<Arc, Fault> {
    let tapes = header.tapes as usize;
    let line = reader.line(LineKind::Arc { number, tapes })?;
    let source = line.number(Field::Source)?;
    let target = line.number(Field::Target)?;
    let weight = line.number(Field::Weight)?;
    let labels = (1..=tapes).map(|tape| line.label(tape)).collect::<Result<Vec<Label>, Fault>>()?;
    line.end()?;
    line.judge_weight(Field::Weight, Some(weight))?;
    line.judge_state(Field::Source, source, header.states)?;
    line.judge_state(Field::Target, target, header.states)?;
    Ok(Arc { source: source as usize, target: target as usize, weight, labels })
}

/// Reads a table that is all that is left, into `room`: 1, 2, 3, 4 line by line, 8 and 9 after the header, trailing bytes last.
pub fn read_rest(reader: &mut Reader, room: Room) -> Result<Automaton, Fault> {
    let header = read_header(reader, room)?;
    let states = (0..header.states).map(|number| read_state(reader, number)).collect::<Result<Vec<State>, Fault>>()?;
    let arcs = (0..header.arcs).map(|number| read_arc(reader, header, number)).collect::<Result<Vec<Arc>, Fault>>()?;
    reader.end()?;
    Ok(Automaton { tapes: header.tapes as usize, states, arcs })
}

/// Reads the text of a table.
pub fn read(text: &[u8], room: Room) -> Result<Automaton, Refusal> {
    Ok(read_rest(&mut Reader::new(text), room)?)
}

/// The text of a table.
pub fn write(automaton: &Automaton) -> Vec<u8> {
    let mut text = number_field(Field::Tapes, automaton.tapes as u64);
    text += &number_field(Field::States, automaton.states.len() as u64);
    text += &number_field(Field::Arcs, automaton.arcs.len() as u64);
    text += "\n";
    for state in &automaton.states {
        text += &weight_field(Field::Initial, state.initial);
        text += &weight_field(Field::Final, state.final_weight);
        text += "\n";
    }
    for arc in &automaton.arcs {
        text += &number_field(Field::Source, arc.source as u64);
        text += &number_field(Field::Target, arc.target as u64);
        text += &number_field(Field::Weight, arc.weight);
        for (place, label) in arc.labels.iter().enumerate() {
            text += &label_field(place + 1, label);
        }
        text += "\n";
    }
    text.into_bytes()
}

/// The line of a refusal: `refused` and the number in four columns.
pub fn refusal_line(refusal: Refusal) -> Vec<u8> {
    format!("refused{:>4}\n", refusal.number()).into_bytes()
}

/// A pair line of `agree`: the count, then two tapes and the limit of each pair.
pub fn pair_line(records: &[PairRecord]) -> Vec<u8> {
    let mut text = number_field(Field::PairCount, records.len() as u64);
    for (place, &(first, second, limit)) in records.iter().enumerate() {
        text += &number_field(Field::FirstTape(place + 1), first);
        text += &number_field(Field::SecondTape(place + 1), second);
        text += &number_field(Field::Limit(place + 1), limit);
    }
    text += "\n";
    text.into_bytes()
}

/// Reads the pair line of `agree`, judged by 1 and 2.
pub fn read_pair_line(reader: &mut Reader) -> Result<Vec<PairRecord>, Fault> {
    let pairs = reader.peek(LineKind::Pairs { pairs: 0 })?.number(Field::PairCount)? as usize;
    let line = reader.line(LineKind::Pairs { pairs })?;
    let record = |pair: usize| {
        Ok((line.number(Field::FirstTape(pair))?, line.number(Field::SecondTape(pair))?, line.number(Field::Limit(pair))?))
    };
    let records = (1..=pairs).map(record).collect::<Result<Vec<PairRecord>, Fault>>()?;
    line.end()?;
    Ok(records)
}
