//! Marks (request 2.5): I and 1 are one mark, O and 0 are one. Strings are compared by their marks.

use crate::automaton::{Automaton, Label, Tuple};

/// The mark of a symbol: I is read as 1, O as 0, any other as itself.
pub fn mark(symbol: u8) -> u8 {
    match symbol {
        b'I' => b'1',
        b'O' => b'0',
        other => other,
    }
}

/// The marks of a string.
pub fn marks(string: &[u8]) -> Label {
    string.iter().map(|&symbol| mark(symbol)).collect()
}

/// The marks of every string of a tuple.
pub fn marks_of(tuple: &Tuple) -> Tuple {
    tuple.iter().map(|string| marks(string)).collect()
}

/// The table with every label read. A tuple of marks has in it the least of the weights that the tuples with these marks
/// have in the table.
pub fn read_labels(automaton: &Automaton) -> Automaton {
    let mut read = automaton.clone();
    read.arcs.iter_mut().for_each(|arc| arc.labels = marks_of(&arc.labels));
    read
}
