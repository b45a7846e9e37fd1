//! Keeping word for word, for comparing: a list of configurations in the order first reached, searched from its start,
//! and closing delays by rounds of relaxation. Once with a limit for each pair (request 2.4), once with document 01's
//! single D.

use crate::automaton::{Arc, Automaton, Room, State};
use crate::closing::{arc_delay, Closing};
use crate::columns::drop_tapes;
use crate::pairs::{LimitedPair, Pair};
use crate::product::product;
use crate::reading::mark;
use crate::refusal::{refuse_if, Refusal};

/// What is left of a pair's two tapes, as it is read.
type Left = (Vec<u8>, Vec<u8>);

/// A configuration as document 01 words it: a state and, for each pair, what is left of its two tapes.
type Listed = (usize, Vec<Left>);

/// Closing delays by rounds of relaxation: as many rounds as states find the delays, as many again what can still be
/// improved.
pub fn relaxed(automaton: &Automaton, pair: Pair) -> Vec<Option<Closing>> {
    let count = automaton.states.len();
    let mut least: Vec<Option<i64>> = automaton.states.iter().map(|state| state.final_weight.map(|_| 0)).collect();
    let mut greatest = least.clone();
    let (mut least_endless, mut greatest_endless) = (vec![false; count], vec![false; count]);
    for round in 0..2 * count {
        for arc in &automaton.arcs {
            let delay = arc_delay(&arc.labels, pair);
            if let (Some(low), Some(high)) = (least[arc.target], greatest[arc.target]) {
                if least[arc.source].is_none_or(|value| low + delay < value) {
                    least[arc.source] = Some(low + delay);
                    least_endless[arc.source] |= round >= count;
                }
                if greatest[arc.source].is_none_or(|value| high + delay > value) {
                    greatest[arc.source] = Some(high + delay);
                    greatest_endless[arc.source] |= round >= count;
                }
            }
            least_endless[arc.source] |= least_endless[arc.target];
            greatest_endless[arc.source] |= greatest_endless[arc.target];
        }
    }
    let closing = |state: usize| {
        let (low, high) = (least[state]?, greatest[state]?);
        Some(Closing { least: (!least_endless[state]).then_some(low), greatest: (!greatest_endless[state]).then_some(high) })
    };
    (0..count).map(closing).collect()
}

/// A table, pairs, and what tells whether a configuration is hopeful.
struct Search<'a> {
    automaton: &'a Automaton,
    pairs: &'a [Pair],
    closings: Vec<Vec<Option<Closing>>>,
    coaccessible: Vec<bool>,
}

impl<'a> Search<'a> {
    /// Prepares the closing delays.
    fn new(automaton: &'a Automaton, pairs: &'a [Pair]) -> Self {
        let closings = pairs.iter().map(|&pair| relaxed(automaton, pair)).collect();
        Search { automaton, pairs, closings, coaccessible: automaton.coaccessible() }
    }

    /// Whether a final state can be reached and, for every pair, d + least <= 0 <= d + greatest.
    fn is_hopeful(&self, config: &Listed) -> bool {
        let delay = |left: &Left| left.0.len() as i64 - left.1.len() as i64;
        let admits = |(left, closings): (&Left, &Vec<Option<Closing>>)| {
            closings[config.0].is_some_and(|closing| closing.admits(delay(left)))
        };
        self.coaccessible[config.0] && config.1.iter().zip(&self.closings).all(admits)
    }

    /// The hopeful configurations with an initial state and empty leftovers.
    fn starts(&self) -> Vec<Listed> {
        let states = self.automaton.states.iter().enumerate().filter(|(_, state)| state.initial.is_some());
        let configs = states.map(|(state, _)| (state, vec![(Vec::new(), Vec::new()); self.pairs.len()]));
        configs.filter(|config| self.is_hopeful(config)).collect()
    }

    /// The configuration that an arc leads to, if the step is compatible and the configuration hopeful.
    fn step(&self, config: &Listed, arc: &Arc) -> Option<Listed> {
        let mut next: Listed = (arc.target, config.1.clone());
        for (left, pair) in next.1.iter_mut().zip(self.pairs) {
            left.0.extend(arc.labels[pair.0 - 1].iter().map(|&symbol| mark(symbol)));
            left.1.extend(arc.labels[pair.1 - 1].iter().map(|&symbol| mark(symbol)));
            while !left.0.is_empty() && !left.1.is_empty() && left.0[0] == left.1[0] {
                left.0.remove(0);
                left.1.remove(0);
            }
        }
        let compatible = next.1.iter().all(|left| left.0.is_empty() || left.1.is_empty());
        (compatible && self.is_hopeful(&next)).then_some(next)
    }
}

/// The reached configurations in the order first reached, the arcs between them (place of the source, number of the
/// input arc, place of the target), and whether some step left more than its limit.
struct Lists {
    reached: Vec<Listed>,
    arcs: Vec<(usize, usize, usize)>,
    exceeded: bool,
}

/// The lists of a search; it ends early where more are reached than `most`.
fn lists(search: &Search, exceeds: impl Fn(&[Left]) -> bool, most: u64) -> Lists {
    let mut lists = Lists { reached: search.starts(), arcs: Vec::new(), exceeded: false };
    let mut taken = 0;
    while taken < lists.reached.len() && lists.reached.len() as u64 <= most {
        let config = lists.reached[taken].clone();
        for (number, arc) in search.automaton.arcs.iter().enumerate().filter(|(_, arc)| arc.source == config.0) {
            let Some(next) = search.step(&config, arc) else { continue };
            if exceeds(&next.1) {
                lists.exceeded = true;
                continue;
            }
            let found = lists.reached.iter().position(|known| *known == next);
            lists.arcs.push((taken, number, found.unwrap_or(lists.reached.len())));
            if found.is_none() {
                lists.reached.push(next);
            }
        }
        taken += 1;
    }
    lists
}

/// The lists trimmed: what lies on a successful path, gaps closed.
fn trimmed(automaton: &Automaton, lists: &Lists) -> Automaton {
    let even = |config: &Listed| config.1.iter().all(|left| left.0.is_empty() && left.1.is_empty());
    let record = |config: &Listed| if even(config) { automaton.states[config.0] } else { State::default() };
    let mut kept: Vec<bool> = lists.reached.iter().map(|config| record(config).final_weight.is_some()).collect();
    for _ in 0..lists.reached.len() {
        for &(source, _, target) in &lists.arcs {
            kept[source] |= kept[target];
        }
    }
    let rank = |node: usize| kept[..node].iter().filter(|&&kept| kept).count();
    let built = lists.arcs.iter().filter(|arc| kept[arc.0] && kept[arc.2]).map(|&(source, number, target)| Arc {
        source: rank(source),
        target: rank(target),
        ..automaton.arcs[number].clone()
    });
    let states = lists.reached.iter().enumerate().filter(|(node, _)| kept[*node]).map(|(_, config)| record(config));
    Automaton { tapes: automaton.tapes, states: states.collect(), arcs: built.collect() }
}

/// Keeping, where `exceeds` tells whether the leftovers of a step are more than is allowed; 8, 9, 10.
fn keep(automaton: &Automaton, pairs: &[Pair], exceeds: impl Fn(&[Left]) -> bool, room: Room) -> Result<Automaton, Refusal> {
    let lists = lists(&Search::new(automaton, pairs), exceeds, room.usable_states());
    refuse_if(lists.reached.len() as u64 > room.usable_states(), Refusal::StatesFull)?;
    refuse_if(lists.arcs.len() as u64 > room.usable_arcs(), Refusal::ArcsFull)?;
    refuse_if(lists.exceeded, Refusal::Delay)?;
    Ok(trimmed(automaton, &lists))
}

/// Whether a leftover is longer than a limit.
fn is_longer(left: &Left, limit: u64) -> bool {
    left.0.len() as u64 > limit || left.1.len() as u64 > limit
}

/// Keeping with a limit for each pair, by the words of request 2.4.
pub fn keep_with_own_limits(automaton: &Automaton, pairs: &[LimitedPair], room: Room) -> Result<Automaton, Refusal> {
    let (tapes, limits): (Vec<Pair>, Vec<u64>) = pairs.iter().copied().unzip();
    let exceeds = |lefts: &[Left]| lefts.iter().zip(&limits).any(|(left, &limit)| is_longer(left, limit));
    keep(automaton, &tapes, exceeds, room)
}

/// Keeping with a single D, by the words of document 01.
pub fn keep_with_one_limit(automaton: &Automaton, pairs: &[Pair], limit: u64, room: Room) -> Result<Automaton, Refusal> {
    keep(automaton, pairs, |lefts| lefts.iter().any(|left| is_longer(left, limit)), room)
}

/// A join with a single D: product, keep i = n + j, drop the second tapes.
pub fn join_with_one_limit(
    first: &Automaton,
    second: &Automaton,
    pairs: &[Pair],
    limit: u64,
    between: Room,
    room: Room,
) -> Result<Automaton, Refusal> {
    let raised: Vec<Pair> = pairs.iter().map(|&(i, j)| (i, first.tapes + j)).collect();
    let kept = keep_with_one_limit(&product(first, second, between)?, &raised, limit, room)?;
    let marked = raised.iter().fold(0, |marked, &(_, tape)| marked | 1 << (tape - 1));
    drop_tapes(&kept, marked, room)
}
