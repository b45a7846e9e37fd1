//! The arcs behind a weight (request 2.3): Dijkstra's algorithm from the end backwards on a hash map of cells, over the
//! weight and the number of arcs together; then a walk from the best starting state by the lowest arc that keeps both.

use crate::automaton::{Arc, Automaton, Tuple};
use crate::lookup::{after, Cell};
use std::cmp::Reverse;
use std::collections::{BinaryHeap, HashMap};

/// Bytes of what is told of a path: its weight (8), room for a second part (8), its starting state (4), its number of
/// arcs (4).
pub const PATH_BYTES: usize = 24;
/// Bytes of an arc number in a list.
pub const PLACE_BYTES: usize = 2;

/// A successful path: its weight, its starting state and its arc numbers.
#[derive(Clone, Debug, PartialEq, Eq)]
pub struct Path {
    pub weight: u64,
    pub start: usize,
    pub arcs: Vec<usize>,
}

impl Path {
    /// What is told of the path, in 24 bytes, each number low byte first.
    pub fn record(&self) -> Vec<u8> {
        let numbers = [self.start as u32, self.arcs.len() as u32];
        let mut bytes = [self.weight, 0].map(u64::to_le_bytes).concat();
        bytes.extend(numbers.iter().flat_map(|number| number.to_le_bytes()));
        bytes
    }

    /// The arc numbers as a list, two bytes each, low byte first.
    pub fn list(&self) -> Vec<u8> {
        self.arcs.iter().flat_map(|&arc| (arc as u16).to_le_bytes()).collect()
    }
}

/// What is still to come from a cell to the end: a weight, the final one included, and a number of arcs. Compared, the
/// lesser weight is less, and of equal weights the fewer arcs.
type Rest = (u64, u64);

/// The cell before an arc that ends at some positions, if the arc's labels stand in the strings just before them.
fn before(positions: &[usize], arc: &Arc, tuple: &Tuple) -> Option<Cell> {
    let last = |((&position, label), string): ((&usize, &Vec<u8>), &Vec<u8>)| {
        string[..position].ends_with(label).then(|| position - label.len())
    };
    let positions = positions.iter().zip(&arc.labels).zip(tuple).map(last).collect::<Option<Vec<usize>>>()?;
    Some((arc.source, positions))
}

/// For each state the arcs that end there.
fn arcs_to_states(automaton: &Automaton) -> Vec<Vec<&Arc>> {
    let mut to = vec![Vec::new(); automaton.states.len()];
    for arc in &automaton.arcs {
        to[arc.target].push(arc);
    }
    to
}

/// The least rest of every cell from which what is left of the tuple can be spelled to a state with a final weight.
fn rests(automaton: &Automaton, tuple: &Tuple) -> HashMap<Cell, Rest> {
    let arcs_to = arcs_to_states(automaton);
    let whole: Vec<usize> = tuple.iter().map(Vec::len).collect();
    let mut rests: HashMap<Cell, Rest> = HashMap::new();
    let mut heap: BinaryHeap<Reverse<(Rest, Cell)>> = BinaryHeap::new();
    for (number, state) in automaton.states.iter().enumerate() {
        if let Some(weight) = state.final_weight {
            heap.push(Reverse(((weight, 0), (number, whole.clone()))));
        }
    }
    while let Some(Reverse(((weight, arcs), cell))) = heap.pop() {
        if rests.contains_key(&cell) {
            continue;
        }
        for arc in &arcs_to[cell.0] {
            if let Some(previous) = before(&cell.1, arc, tuple).filter(|previous| !rests.contains_key(previous)) {
                heap.push(Reverse(((weight + arc.weight, arcs + 1), previous)));
            }
        }
        rests.insert(cell, (weight, arcs));
    }
    rests
}

/// The arcs from a starting state to the end: at each cell the lowest one after which the rest is just so much less.
fn walk(automaton: &Automaton, tuple: &Tuple, rests: &HashMap<Cell, Rest>, start: usize) -> Vec<usize> {
    let arcs_of = automaton.arcs_of_states();
    let mut cell: Cell = (start, vec![0; tuple.len()]);
    let mut walked = Vec::new();
    while rests[&cell].1 > 0 {
        let keeps = |&number: &usize| {
            let arc = &automaton.arcs[number];
            let next = after(&cell.1, arc, tuple)?;
            let &(weight, arcs) = rests.get(&next)?;
            (rests[&cell] == (weight + arc.weight, arcs + 1)).then_some((number, next))
        };
        let lowest = arcs_of[cell.0].iter().find_map(keeps);
        let (number, next) = lowest.expect("a rest of some arcs begins with one of them");
        walked.push(number);
        cell = next;
    }
    walked
}

/// The path behind the weight of a (judged) tuple, or none: of the successful paths that spell it at its least weight
/// the one with the fewest arcs, then the lower starting state, then at the first difference the lower arc number.
pub fn path(automaton: &Automaton, tuple: &Tuple) -> Option<Path> {
    let rests = rests(automaton, tuple);
    let started = |(start, initial): (usize, Option<u64>)| {
        let &(weight, arcs) = rests.get(&(start, vec![0; tuple.len()]))?;
        Some((initial? + weight, arcs, start))
    };
    let initials = automaton.states.iter().map(|state| state.initial).enumerate();
    let (weight, _, start) = initials.filter_map(started).min()?;
    Some(Path { weight, start, arcs: walk(automaton, tuple, &rests, start) })
}
