//! Union, choosing (projection) and dropping (complementary projection); all keep the order given.

use crate::automaton::{Arc, Automaton, Room, MOST_TAPES};
use crate::refusal::{refuse_if, Refusal};

/// 8 or 9 where a result of `states` and `arcs` is larger than its room or than any table.
fn judge_room(states: usize, arcs: usize, room: Room) -> Result<(), Refusal> {
    refuse_if(states as u64 > room.usable_states(), Refusal::StatesFull)?;
    refuse_if(arcs as u64 > room.usable_arcs(), Refusal::ArcsFull)
}

/// Union: the second table appended to the first; 5, 8, 9.
pub fn union(first: &Automaton, second: &Automaton, room: Room) -> Result<Automaton, Refusal> {
    refuse_if(first.tapes != second.tapes, Refusal::Tape)?;
    judge_room(first.states.len() + second.states.len(), first.arcs.len() + second.arcs.len(), room)?;
    let mut automaton = first.clone();
    let shift = first.states.len();
    automaton.states.extend(second.states.iter().copied());
    automaton.arcs.extend(second.arcs.iter().map(|arc| Arc {
        source: arc.source + shift,
        target: arc.target + shift,
        ..arc.clone()
    }));
    Ok(automaton)
}

/// The table whose tapes are the (judged) listed tapes of another.
fn with_tapes(automaton: &Automaton, tapes: &[usize]) -> Automaton {
    let chosen = |arc: &Arc| Arc { labels: tapes.iter().map(|&tape| arc.labels[tape - 1].clone()).collect(), ..arc.clone() };
    Automaton { tapes: tapes.len(), states: automaton.states.clone(), arcs: automaton.arcs.iter().map(chosen).collect() }
}

/// Choosing: a list of 1 to 8 tapes, repeats allowed; 12, 5, 8, 9.
pub fn project(automaton: &Automaton, tapes: &[u64], room: Room) -> Result<Automaton, Refusal> {
    refuse_if(tapes.len() as u64 > MOST_TAPES, Refusal::Width)?;
    let foreign = tapes.iter().any(|tape| !(1..=automaton.tapes as u64).contains(tape));
    refuse_if(tapes.is_empty() || foreign, Refusal::Tape)?;
    judge_room(automaton.states.len(), automaton.arcs.len(), room)?;
    Ok(with_tapes(automaton, &tapes.iter().map(|&tape| tape as usize).collect::<Vec<usize>>()))
}

/// Dropping: the tapes marked in the set go, tape t being bit t - 1; 5, 8, 9.
pub fn drop_tapes(automaton: &Automaton, marked: u8, room: Room) -> Result<Automaton, Refusal> {
    let is_marked = |tape: usize| marked & (1 << (tape - 1)) != 0;
    let left: Vec<usize> = (1..=automaton.tapes).filter(|&tape| !is_marked(tape)).collect();
    let foreign = (automaton.tapes + 1..=MOST_TAPES as usize).any(is_marked);
    refuse_if(foreign || left.is_empty(), Refusal::Tape)?;
    judge_room(automaton.states.len(), automaton.arcs.len(), room)?;
    Ok(with_tapes(automaton, &left))
}
