//! Closing delays, by elimination of states (Kleene, Gauss) in the complete semiring of whole numbers with max and +.
//!
//! The greatest delays solve X = A X + b, where A holds the greatest delay of an arc between two states and b is 0 at the
//! states with a final weight. The star of a delay is 0, or endless where the delay is positive.

use crate::automaton::Automaton;
use crate::pairs::Pair;

/// A supremum of delays: over no path, over paths with a greatest delay, or without bound. The order is that of the values.
#[derive(Clone, Copy, Debug, PartialEq, Eq, PartialOrd, Ord)]
enum Supremum {
    Missing,
    Finite(i64),
    Endless,
}

use Supremum::{Endless, Finite, Missing};

impl Supremum {
    /// Paths of the one followed by paths of the other.
    fn then(self, other: Supremum) -> Supremum {
        match (self, other) {
            (Missing, _) | (_, Missing) => Missing,
            (Finite(left), Finite(right)) => Finite(left + right),
            _ => Endless,
        }
    }

    /// Paths of this repeated any number of times, none included.
    fn star(self) -> Supremum {
        if self > Finite(0) {
            Endless
        } else {
            Finite(0)
        }
    }
}

/// Least and greatest closing delay of a state from which a final one is reached; `None` is endless.
#[derive(Clone, Copy, Debug, PartialEq, Eq)]
pub struct Closing {
    pub least: Option<i64>,
    pub greatest: Option<i64>,
}

impl Closing {
    /// Whether a delay can still be closed as far as lengths tell: d + least <= 0 <= d + greatest.
    pub fn admits(&self, delay: i64) -> bool {
        self.least.is_none_or(|least| delay + least <= 0) && self.greatest.is_none_or(|greatest| 0 <= delay + greatest)
    }
}

/// Delay of an arc on a pair: length on the first tape less length on the second.
pub fn arc_delay(labels: &[Vec<u8>], pair: Pair) -> i64 {
    labels[pair.0 - 1].len() as i64 - labels[pair.1 - 1].len() as i64
}

/// The greatest delay over paths from each state to a final one.
fn greatest_delays(automaton: &Automaton, pair: Pair) -> Vec<Supremum> {
    let count = automaton.states.len();
    let mut between = vec![vec![Missing; count]; count];
    for arc in &automaton.arcs {
        let entry = &mut between[arc.source][arc.target];
        *entry = (*entry).max(Finite(arc_delay(&arc.labels, pair)));
    }
    let ends = automaton.states.iter().map(|state| if state.final_weight.is_some() { Finite(0) } else { Missing }).collect();
    solve(between, ends)
}

/// The least solution of X = A X + b: the last unknown is written in terms of the others and put into their equations; then
/// the values follow from the first to the last.
fn solve(mut factors: Vec<Vec<Supremum>>, mut ends: Vec<Supremum>) -> Vec<Supremum> {
    for last in (0..ends.len()).rev() {
        let star = factors[last][last].star();
        let row: Vec<Supremum> = factors[last][..last].iter().map(|&factor| star.then(factor)).collect();
        ends[last] = star.then(ends[last]);
        for other in 0..last {
            let factor = factors[other][last];
            if factor != Missing {
                ends[other] = ends[other].max(factor.then(ends[last]));
                for (entry, &value) in factors[other].iter_mut().zip(&row) {
                    *entry = (*entry).max(factor.then(value));
                }
            }
        }
        factors[last] = row;
    }
    let mut values: Vec<Supremum> = Vec::new();
    for (row, &end) in factors.iter().zip(&ends) {
        let through = row.iter().zip(&values).map(|(&factor, &value)| factor.then(value)).max().unwrap_or(Missing);
        values.push(end.max(through));
    }
    values
}

/// The finite value, if it is one.
fn finite(supremum: Supremum) -> Option<i64> {
    match supremum {
        Finite(value) => Some(value),
        _ => None,
    }
}

/// Closing delays of every state on a pair; `None` where no final state is reached. The least delay is the greatest one of
/// the exchanged pair, negated.
pub fn closing_delays(automaton: &Automaton, pair: Pair) -> Vec<Option<Closing>> {
    let greatest = greatest_delays(automaton, pair);
    let exchanged = greatest_delays(automaton, (pair.1, pair.0));
    let closing = |(&greatest, &exchanged): (&Supremum, &Supremum)| {
        let closing = Closing { least: finite(exchanged).map(|delay| -delay), greatest: finite(greatest) };
        (greatest != Missing).then_some(closing)
    };
    greatest.iter().zip(&exchanged).map(closing).collect()
}
