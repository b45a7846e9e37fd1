//! A table in memory: three numbers and two byte slices of records.
//!
//! A state record has 10 bytes: initial present, initial weight (4, low byte first), final present, final weight (4). An arc
//! record has 80: source (2, low byte first), target (2), weight (4), then eight times a length and eight label bytes.

use crate::automaton::{is_symbol, Arc, Automaton, Label, State, MOST_ARCS, MOST_LABEL, MOST_STATES, MOST_TAPES, MOST_WEIGHT};
use crate::refusal::{refuse_if, Refusal};

/// Bytes of a state record.
pub const STATE_BYTES: usize = 10;
/// Bytes of an arc record.
pub const ARC_BYTES: usize = 80;
const SLOT: usize = MOST_LABEL + 1;

/// A table lent: its counts and the slices that hold its records.
#[derive(Clone, Debug, PartialEq, Eq)]
pub struct LentTable {
    pub tapes: u64,
    pub states: u64,
    pub arcs: u64,
    pub state_records: Vec<u8>,
    pub arc_records: Vec<u8>,
}

/// A number, low byte first.
fn low_first(bytes: &[u8]) -> u64 {
    bytes.iter().rev().fold(0, |number, &byte| number * 256 + u64::from(byte))
}

/// A presence mark and a number as a weight that may be absent, not yet judged for size; 2 for another mark, or for a number
/// beside an absent weight.
fn judge_optional(bytes: &[u8]) -> Result<Option<u64>, Refusal> {
    match (bytes[0], low_first(&bytes[1..5])) {
        (0, 0) => Ok(None),
        (1, weight) => Ok(Some(weight)),
        _ => Err(Refusal::Form),
    }
}

/// Judges a state record by 2, 3.
fn judge_state(record: &[u8]) -> Result<State, Refusal> {
    let initial = judge_optional(&record[..5])?;
    let final_weight = judge_optional(&record[5..])?;
    let heavy = [initial, final_weight].into_iter().flatten().any(|weight| weight > MOST_WEIGHT);
    refuse_if(heavy, Refusal::Size)?;
    Ok(State { initial, final_weight })
}

/// Whether a label's slot has its form: symbols within the length, zeros past it; an unused tape's slot is zero.
fn is_slot(slot: &[u8], used: bool) -> bool {
    if !used {
        return slot.iter().all(|&byte| byte == 0);
    }
    let length = usize::from(slot[0]).min(MOST_LABEL);
    let (label, rest) = slot[1..].split_at(length);
    label.iter().all(|&byte| is_symbol(byte)) && rest.iter().all(|&byte| byte == 0)
}

/// Judges an arc record of a table with `tapes` tapes and `states` states by 2, 3, 4.
fn judge_arc(record: &[u8], tapes: usize, states: u64) -> Result<Arc, Refusal> {
    let (source, target, weight) = (low_first(&record[..2]), low_first(&record[2..4]), low_first(&record[4..8]));
    let slots: Vec<&[u8]> = record[8..].chunks(SLOT).collect();
    let formed = slots.iter().enumerate().all(|(tape, slot)| is_slot(slot, tape < tapes));
    refuse_if(!formed, Refusal::Form)?;
    let long = slots.iter().any(|slot| usize::from(slot[0]) > MOST_LABEL);
    refuse_if(weight > MOST_WEIGHT || long, Refusal::Size)?;
    refuse_if(source >= states || target >= states, Refusal::State)?;
    let labels: Vec<Label> = slots[..tapes].iter().map(|slot| slot[1..1 + usize::from(slot[0])].to_vec()).collect();
    Ok(Arc { source: source as usize, target: target as usize, weight, labels })
}

/// The record with a number in a slice, 1 where the slice does not wholly hold it.
fn record(records: &[u8], number: usize, bytes: usize) -> Result<&[u8], Refusal> {
    records.get(number * bytes..(number + 1) * bytes).ok_or(Refusal::Short)
}

/// Judges a table: its counts by 3, then its records in order by 1, 2, 3, 4.
pub fn judge(table: &LentTable) -> Result<Automaton, Refusal> {
    let outside = !(1..=MOST_TAPES).contains(&table.tapes) || table.states > MOST_STATES || table.arcs > MOST_ARCS;
    refuse_if(outside, Refusal::Size)?;
    let mut automaton = Automaton::empty(table.tapes as usize);
    for number in 0..table.states as usize {
        automaton.states.push(judge_state(record(&table.state_records, number, STATE_BYTES)?)?);
    }
    for number in 0..table.arcs as usize {
        let record = record(&table.arc_records, number, ARC_BYTES)?;
        automaton.arcs.push(judge_arc(record, automaton.tapes, table.states)?);
    }
    Ok(automaton)
}

/// The low bytes of a number, low byte first.
fn bytes_of(number: u64, count: usize) -> Vec<u8> {
    number.to_le_bytes()[..count].to_vec()
}

/// A weight that may be absent, in five bytes.
fn encode_optional(weight: Option<u64>) -> Vec<u8> {
    [bytes_of(u64::from(weight.is_some()), 1), bytes_of(weight.unwrap_or(0), 4)].concat()
}

/// The state records of an automaton.
pub fn encode_states(automaton: &Automaton) -> Vec<u8> {
    automaton
        .states
        .iter()
        .flat_map(|state| [encode_optional(state.initial), encode_optional(state.final_weight)].concat())
        .collect()
}

/// One arc record.
fn encode_arc(arc: &Arc) -> Vec<u8> {
    let mut record = [bytes_of(arc.source as u64, 2), bytes_of(arc.target as u64, 2), bytes_of(arc.weight, 4)].concat();
    for label in &arc.labels {
        let mut slot = [&[label.len() as u8][..], label].concat();
        slot.resize(SLOT, 0);
        record.extend(slot);
    }
    record.resize(ARC_BYTES, 0);
    record
}

/// The arc records of an automaton.
pub fn encode_arcs(automaton: &Automaton) -> Vec<u8> {
    automaton.arcs.iter().flat_map(encode_arc).collect()
}

/// The table of an automaton, its slices as long as its records.
pub fn encode(automaton: &Automaton) -> LentTable {
    LentTable {
        tapes: automaton.tapes as u64,
        states: automaton.states.len() as u64,
        arcs: automaton.arcs.len() as u64,
        state_records: encode_states(automaton),
        arc_records: encode_arcs(automaton),
    }
}
