//! Accounts listed by following every path: slow and plain, for comparing what tables spell.

use crate::automaton::{Automaton, Tuple};
use crate::path::Path;

/// What a successful path spells on each tape, and its weight.
pub type Account = (Tuple, u64);

/// A path under way: where it starts, its arcs, its last state, what it spells, its weight with the initial one.
#[derive(Clone)]
struct Begun {
    start: usize,
    arcs: Vec<usize>,
    state: usize,
    tuple: Tuple,
    weight: u64,
}

/// Every successful path of at most `most` arcs as an account, sorted; equal ones stand as often as there are paths.
pub fn accounts(automaton: &Automaton, most: usize) -> Vec<Account> {
    let found = paths(automaton, most, |_| true);
    let mut accounts: Vec<Account> = found.into_iter().map(|(tuple, path)| (tuple, path.weight)).collect();
    accounts.sort();
    accounts
}

/// Every successful path of at most `most` arcs and what it spells; a path is not followed beyond what `within` allows.
pub fn paths(automaton: &Automaton, most: usize, within: impl Fn(&Tuple) -> bool) -> Vec<(Tuple, Path)> {
    let arcs_of = automaton.arcs_of_states();
    let mut under_way: Vec<Begun> = starts(automaton);
    let mut found = Vec::new();
    for _ in 0..=most {
        found.extend(under_way.iter().filter_map(|begun| ended(automaton, begun)));
        let steps = under_way.iter().flat_map(|begun| arcs_of[begun.state].iter().map(move |&arc| (begun, arc)));
        let longer = steps.map(|(begun, arc)| longer(automaton, begun, arc));
        under_way = longer.filter(|begun| within(&begun.tuple)).collect();
    }
    found
}

/// What the path of a starting state and some arcs spells and weighs, if it is a successful one.
pub fn account_of(automaton: &Automaton, start: usize, arcs: &[usize]) -> Option<Account> {
    let (mut state, mut weight) = (start, automaton.states.get(start)?.initial?);
    let mut tuple = vec![Vec::new(); automaton.tapes];
    for &number in arcs {
        let arc = automaton.arcs.get(number).filter(|arc| arc.source == state)?;
        tuple.iter_mut().zip(&arc.labels).for_each(|(string, label)| string.extend(label));
        (state, weight) = (arc.target, weight + arc.weight);
    }
    Some((tuple, weight + automaton.states[state].final_weight?))
}

/// The empty paths at the initial states.
fn starts(automaton: &Automaton) -> Vec<Begun> {
    let begun = |(state, initial): (usize, Option<u64>)| {
        let tuple = vec![Vec::new(); automaton.tapes];
        Some(Begun { start: state, arcs: Vec::new(), state, tuple, weight: initial? })
    };
    automaton.states.iter().map(|record| record.initial).enumerate().filter_map(begun).collect()
}

/// The whole path and what it spells, if it ends at a state with a final weight.
fn ended(automaton: &Automaton, begun: &Begun) -> Option<(Tuple, Path)> {
    let weight = begun.weight + automaton.states[begun.state].final_weight?;
    Some((begun.tuple.clone(), Path { weight, start: begun.start, arcs: begun.arcs.clone() }))
}

/// A path with one more arc.
fn longer(automaton: &Automaton, begun: &Begun, number: usize) -> Begun {
    let arc = &automaton.arcs[number];
    let tuple = begun.tuple.iter().zip(&arc.labels).map(|(string, label)| [&string[..], label].concat()).collect();
    let arcs = [&begun.arcs[..], &[number]].concat();
    Begun { start: begun.start, arcs, state: arc.target, tuple, weight: begun.weight + arc.weight }
}

/// How many paths of at most `most` arcs start at an initial state, successful or not, counted up to `enough`.
pub fn path_count(automaton: &Automaton, most: usize, enough: usize) -> usize {
    let mut ends: Vec<usize> = automaton.states.iter().map(|state| usize::from(state.initial.is_some())).collect();
    let mut count = 0;
    for _ in 0..=most {
        count += ends.iter().sum::<usize>();
        if count > enough {
            return enough;
        }
        let mut next = vec![0; ends.len()];
        for arc in &automaton.arcs {
            next[arc.target] += ends[arc.source];
        }
        ends = next;
    }
    count
}
