//! The forecast of request 2.1: whether a successful path meets cycles of both signs, and else how much space a pair can need.
//!
//! A cycle that shares a state with a successful path lies in one strongly connected part of the states on such paths. So a
//! pair is mixed where a part with a cycle of positive delay and one with a cycle of negative delay are the same, or where
//! one of them leads to the other. Parts are found by Kosaraju's algorithm, the signs of their cycles by Karp's theorem.

use crate::automaton::Automaton;
use crate::closing::arc_delay;
use crate::pairs::Pair;
use crate::reading::mark;
use std::collections::HashSet;

/// Bytes of the record of a forecast.
pub const FORECAST_BYTES: usize = 6;
/// A greater number of states reads "over".
pub const MOST_NUMBER: u64 = 65_535;

/// What is told of one pair.
#[derive(Clone, Copy, Debug, PartialEq, Eq)]
pub enum Forecast {
    /// A successful path touches a cycle of positive and one of negative delay.
    Mixed,
    /// The delay that the pair can need, and the number of states; `None` is "over".
    Needs { delay: u64, number: Option<u64> },
}

impl Forecast {
    /// The record: which of the three it is, the delay, the number, two bytes each, low byte first.
    pub fn record(self) -> [u8; FORECAST_BYTES] {
        let [which, delay, number] = match self {
            Forecast::Needs { delay, number: Some(number) } => [1, delay, number],
            Forecast::Needs { delay, number: None } => [2, delay, 0],
            Forecast::Mixed => [3, 0, 0],
        };
        let low_first = |number: u64| [number as u8, (number >> 8) as u8];
        let [[a, b], [c, d], [e, f]] = [low_first(which), low_first(delay), low_first(number)];
        [a, b, c, d, e, f]
    }
}

/// An arc between two states on successful paths, with its delay on the pair.
#[derive(Clone, Copy, Debug)]
struct Step {
    source: usize,
    target: usize,
    delay: i64,
}

/// For each state whether it is on a successful path.
pub fn useful_states(automaton: &Automaton) -> Vec<bool> {
    automaton.accessible().into_iter().zip(automaton.coaccessible()).map(|(led_to, leads_out)| led_to && leads_out).collect()
}

/// The arcs on successful paths.
fn steps(automaton: &Automaton, pair: Pair) -> Vec<Step> {
    let useful = useful_states(automaton);
    let between = automaton.arcs.iter().filter(|arc| useful[arc.source] && useful[arc.target]);
    between.map(|arc| Step { source: arc.source, target: arc.target, delay: arc_delay(&arc.labels, pair) }).collect()
}

/// For each state those that it leads to.
fn lists(states: usize, ends: impl Iterator<Item = (usize, usize)>) -> Vec<Vec<usize>> {
    let mut lists = vec![Vec::new(); states];
    ends.for_each(|(source, target)| lists[source].push(target));
    lists
}

/// The states in the order in which a search, depth first, is done with them.
fn done_in_order(targets: &[Vec<usize>]) -> Vec<usize> {
    let mut seen = vec![false; targets.len()];
    let mut order = Vec::new();
    for root in 0..targets.len() {
        let mut stack = Vec::new();
        if !seen[root] {
            seen[root] = true;
            stack.push((root, targets[root].iter()));
        }
        while let Some((state, rest)) = stack.last_mut() {
            match rest.next() {
                Some(&next) if seen[next] => {}
                Some(&next) => {
                    seen[next] = true;
                    stack.push((next, targets[next].iter()));
                }
                None => {
                    order.push(*state);
                    stack.pop();
                }
            }
        }
    }
    order
}

/// For each state the number of its strongly connected part; no step leads to a part with a lower number (Kosaraju).
fn parts(states: usize, steps: &[Step]) -> Vec<usize> {
    let targets = lists(states, steps.iter().map(|step| (step.source, step.target)));
    let sources = lists(states, steps.iter().map(|step| (step.target, step.source)));
    let mut part: Vec<Option<usize>> = vec![None; states];
    for (number, &root) in done_in_order(&targets).iter().rev().enumerate() {
        let mut stack = vec![root];
        while let Some(state) = stack.pop() {
            if part[state].is_none() {
                part[state] = Some(number);
                stack.extend(&sources[state]);
            }
        }
    }
    part.into_iter().flatten().collect()
}

/// How many states the largest part has.
fn largest(part: &[usize]) -> usize {
    let mut sizes = vec![0; part.len()];
    part.iter().for_each(|&number| sizes[number] += 1);
    sizes.into_iter().max().unwrap_or(0)
}

/// The greatest delays of runs one step longer, by the state where they end; `None` where there is no such run.
fn one_longer(greatest: &[Option<i64>], inner: &[Step]) -> Vec<Option<i64>> {
    let mut longer = vec![None; greatest.len()];
    for step in inner {
        longer[step.target] = longer[step.target].max(greatest[step.source].map(|delay| delay + step.delay));
    }
    longer
}

/// For each part whether it has a cycle of positive delay; `inner` holds the steps that stay in their part.
///
/// By Karp's theorem there is one just where, for a number of steps no less than the part's states, some state ends a run of
/// so many steps whose delay is above that of every run with fewer steps that ends there.
fn rising(part: &[usize], inner: &[Step]) -> Vec<bool> {
    let mut greatest: Vec<Option<i64>> = vec![Some(0); part.len()];
    let mut of_fewer: Vec<Option<i64>> = vec![None; part.len()];
    for _ in 0..largest(part) {
        of_fewer = of_fewer.into_iter().zip(&greatest).map(|(known, &delay)| known.max(delay)).collect();
        greatest = one_longer(&greatest, inner);
    }
    let mut rising = vec![false; part.len()];
    for (state, &number) in part.iter().enumerate() {
        rising[number] |= greatest[state] > of_fewer[state];
    }
    rising
}

/// Whether one of the parts marked `from` is, or leads to, one of those marked `to`.
fn leads(part: &[usize], steps: &[Step], from: &[bool], to: &[bool]) -> bool {
    let mut ordered = steps.to_vec();
    ordered.sort_by_key(|step| part[step.source]);
    let mut led_to = from.to_vec();
    for step in ordered {
        led_to[part[step.target]] |= led_to[part[step.source]];
    }
    led_to.iter().zip(to).any(|(&led_to, &marked)| led_to && marked)
}

/// Whether some successful path touches both a cycle of positive delay and one of negative delay.
pub fn is_mixed(automaton: &Automaton, pair: Pair) -> bool {
    let steps = steps(automaton, pair);
    let part = parts(automaton.states.len(), &steps);
    let inner: Vec<Step> = steps.iter().copied().filter(|step| part[step.source] == part[step.target]).collect();
    let turned: Vec<Step> = inner.iter().map(|&step| Step { delay: -step.delay, ..step }).collect();
    let (rises, falls) = (rising(&part, &inner), rising(&part, &turned));
    leads(&part, &steps, &rises, &falls) || leads(&part, &steps, &falls, &rises)
}

/// The delay that a pair can need: one less than the states on successful paths, times the greatest size of a delay of the arcs
/// on them.
pub fn needed_delay(automaton: &Automaton, pair: Pair) -> u64 {
    let useful = useful_states(automaton).into_iter().filter(|&useful| useful).count() as u64;
    let greatest = steps(automaton, pair).iter().map(|step| step.delay.unsigned_abs()).max().unwrap_or(0);
    useful.saturating_sub(1) * greatest
}

/// How many symbols are in use on the pair's two tapes, on any arc, counted by their marks.
pub fn symbols_in_use(automaton: &Automaton, pair: Pair) -> u64 {
    let labels = automaton.arcs.iter().flat_map(|arc| [&arc.labels[pair.0 - 1], &arc.labels[pair.1 - 1]]);
    labels.flatten().map(|&symbol| mark(symbol)).collect::<HashSet<u8>>().len() as u64
}

/// Document 01's bound on the leftovers of one pair, 1 + 2(s + s² + .. + s^D), or the greatest number of 64 bits where it is
/// above that.
pub fn leftovers(symbols: u64, delay: u64) -> u64 {
    let (mut power, mut sum) = (1_u64, 0_u64);
    for _ in 0..delay {
        power = power.saturating_mul(symbols);
        sum = sum.saturating_add(power);
    }
    sum.saturating_mul(2).saturating_add(1)
}

/// The forecast of a (judged) pair.
pub fn forecast(automaton: &Automaton, pair: Pair) -> Forecast {
    if is_mixed(automaton, pair) {
        return Forecast::Mixed;
    }
    let delay = needed_delay(automaton, pair);
    let number = (automaton.states.len() as u64).saturating_mul(leftovers(symbols_in_use(automaton, pair), delay));
    Forecast::Needs { delay, number: (number <= MOST_NUMBER).then_some(number) }
}
