//! The program `agree`, from text to text.

use crate::automaton::{Automaton, Room};
use crate::fault::{Expected, Fault, Place};
use crate::intersect::intersect;
use crate::lines::LineKind;
use crate::pairs::{judge_list, LimitedPair, ListFault, PairRecord};
use crate::refusal::{refuse_if, Refusal};
use crate::text::{read_pair_line, read_rest, refusal_line, write, Reader};

/// Most bytes of standard input.
pub const MOST_INPUT: usize = 65_536;
/// The number of the pair line, lines counted from 1.
pub const PAIR_LINE: usize = 1;
/// What `agree` lends to the table read, and again to the result.
pub const LENT: Room = Room { states: 64, arcs: 512 };

/// An input that is read and judged: its table, and its pairs with their limits.
#[derive(Clone, Debug, PartialEq, Eq)]
pub struct Given {
    pub automaton: Automaton,
    pub pairs: Vec<LimitedPair>,
}

/// Judges the pairs of the pair line on a table with so many tapes by 5, 6, 7.
fn judge_pair_line(records: &[PairRecord], tapes: usize) -> Result<Vec<LimitedPair>, Fault> {
    let kind = LineKind::Pairs { pairs: records.len() };
    let in_line = |ListFault { refusal, field, expected }| Fault {
        refusal,
        place: Some(Place::of_field(PAIR_LINE, kind, field)),
        expected,
    };
    judge_list(records, tapes).map_err(in_line)
}

/// Reads and judges an input: its size, the pair line, the table, then 5, 6, 7.
pub fn read_input(input: &[u8]) -> Result<Given, Fault> {
    let too_long = Fault { refusal: Refusal::Size, place: None, expected: Expected::Bytes(MOST_INPUT as u64) };
    refuse_if(input.len() > MOST_INPUT, too_long)?;
    let mut reader = Reader::new(input);
    let records = read_pair_line(&mut reader)?;
    let automaton = read_rest(&mut reader, LENT)?;
    let pairs = judge_pair_line(&records, automaton.tapes)?;
    Ok(Given { automaton, pairs })
}

/// The table that `agree` writes, or its refusal: that of the input, then that of the build.
pub fn agree_table(input: &[u8]) -> Result<Automaton, Refusal> {
    let Given { automaton, pairs } = read_input(input)?;
    intersect(&automaton, &pairs, LENT)
}

/// What `agree` writes to standard output.
pub fn agree(input: &[u8]) -> Vec<u8> {
    match agree_table(input) {
        Ok(automaton) => write(&automaton),
        Err(refusal) => refusal_line(refusal),
    }
}
