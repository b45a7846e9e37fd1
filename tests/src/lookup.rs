//! Weight of a tuple: Dijkstra's algorithm on a hash map of cells, a cell being a state and a position in each string.

use crate::automaton::{is_symbol, Arc, Automaton, Tuple};
use crate::refusal::{refuse_if, Refusal};
use std::cmp::Reverse;
use std::collections::{BinaryHeap, HashMap};

/// Most symbols of a string.
pub const MOST_STRING: usize = 64;

/// A state and a position in each string.
pub type Cell = (usize, Vec<usize>);

/// Judges a tuple: the number of strings by 5, all sizes by 3, all bytes by 2.
pub fn judge_tuple(automaton: &Automaton, tuple: &[Vec<u8>]) -> Result<(), Refusal> {
    refuse_if(tuple.len() != automaton.tapes, Refusal::Tape)?;
    refuse_if(tuple.iter().any(|string| string.len() > MOST_STRING), Refusal::Size)?;
    refuse_if(tuple.iter().flatten().any(|&byte| !is_symbol(byte)), Refusal::Form)
}

/// Work cells of a lookup: states times the product of (length + 1).
pub fn cells(automaton: &Automaton, tuple: &[Vec<u8>]) -> u128 {
    let positions: u128 = tuple.iter().map(|string| string.len() as u128 + 1).product();
    automaton.states.len() as u128 * positions
}

/// The cell after an arc, if the arc's labels stand in the strings at the cell's positions.
pub fn after(positions: &[usize], arc: &Arc, tuple: &Tuple) -> Option<Cell> {
    let next = |((&position, label), string): ((&usize, &Vec<u8>), &Vec<u8>)| {
        string[position..].starts_with(label).then_some(position + label.len())
    };
    let positions = positions.iter().zip(&arc.labels).zip(tuple).map(next).collect::<Option<Vec<usize>>>()?;
    Some((arc.target, positions))
}

/// The least weight over the successful paths that spell a (judged) tuple, or none.
pub fn lookup(automaton: &Automaton, tuple: &Tuple) -> Option<u64> {
    let arcs_of = automaton.arcs_of_states();
    let whole: Vec<usize> = tuple.iter().map(Vec::len).collect();
    let mut least: HashMap<Cell, u64> = HashMap::new();
    let mut heap: BinaryHeap<Reverse<(u64, Cell)>> = BinaryHeap::new();
    for (number, state) in automaton.states.iter().enumerate() {
        if let Some(initial) = state.initial {
            heap.push(Reverse((initial, (number, vec![0; tuple.len()]))));
        }
    }
    while let Some(Reverse((weight, cell))) = heap.pop() {
        if least.contains_key(&cell) {
            continue;
        }
        for &arc in &arcs_of[cell.0] {
            let arc = &automaton.arcs[arc];
            if let Some(next) = after(&cell.1, arc, tuple).filter(|next| !least.contains_key(next)) {
                heap.push(Reverse((weight + arc.weight, next)));
            }
        }
        least.insert(cell, weight);
    }
    let ends = automaton.states.iter().enumerate();
    ends.filter_map(|(number, state)| Some(least.get(&(number, whole.clone()))? + state.final_weight?)).min()
}
