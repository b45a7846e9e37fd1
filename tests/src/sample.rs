//! Tables written down in a few words, and the worked tables of document 01.

use crate::automaton::{Arc, Automaton, State, Tuple};

/// An arc in a few words: source, target, weight, labels.
pub type Row<'a> = (usize, usize, u64, &'a [&'a str]);

/// A table from its states' weights and its arcs.
pub fn table(tapes: usize, states: &[(Option<u64>, Option<u64>)], rows: &[Row]) -> Automaton {
    let states = states.iter().map(|&(initial, final_weight)| State { initial, final_weight }).collect();
    let arc = |&(source, target, weight, labels): &Row| Arc { source, target, weight, labels: tuple(labels) };
    Automaton { tapes, states, arcs: rows.iter().map(arc).collect() }
}

/// A table whose first state has initial weight 0 and whose last has final weight 0.
pub fn first_to_last(tapes: usize, states: usize, rows: &[Row]) -> Automaton {
    let mut weights = vec![(None, None); states];
    weights[0].0 = Some(0);
    weights[states - 1].1 = Some(0);
    table(tapes, &weights, rows)
}

/// A tuple of strings.
pub fn tuple(strings: &[&str]) -> Tuple {
    strings.iter().map(|string| string.as_bytes().to_vec()).collect()
}

/// Document 01's P, to be kept on tapes 1 = 3.
pub fn p() -> Automaton {
    first_to_last(3, 3, &[(0, 1, 1, &["A", "X", ""]), (1, 1, 2, &["B", "Y", "A"]), (1, 2, 3, &["", "Z", "B"])])
}

/// Document 01's Q, to be kept on tapes 1 = 2.
pub fn q() -> Automaton {
    first_to_last(2, 2, &[(0, 0, 0, &["A", ""]), (0, 1, 0, &["", "A"])])
}

/// Document 01's R, to be kept on tapes 1 = 2.
pub fn r() -> Automaton {
    first_to_last(2, 2, &[(0, 0, 0, &["A", ""]), (0, 1, 0, &["A", "A"]), (1, 1, 0, &["", "A"])])
}

/// Document 01's S, to be kept on tapes 1 = 2.
pub fn s() -> Automaton {
    first_to_last(2, 2, &[(0, 1, 0, &["A", "B"]), (0, 1, 0, &["B", "A"])])
}
