//! Keeping the accounts that agree: the auto-intersection.
//!
//! The reached configurations are collected depth first in a hash map; they are trimmed, and only then numbered in the order
//! of request 2.2. That order may be taken of the kept ones alone: whatever leads to a kept configuration is kept itself.

use crate::automaton::{Arc, Automaton, Room, State};
use crate::closing::{closing_delays, Closing};
use crate::order::{first_reached, Edge};
use crate::pairs::{LimitedPair, Pair, MOST_LIMIT};
use crate::reading::marks;
use crate::refusal::{refuse_if, Refusal};
use std::collections::{HashMap, HashSet};

/// The leftovers of the first and of the second tape of a pair, one of them empty; held as marks.
#[derive(Clone, Debug, Default, PartialEq, Eq, Hash)]
pub struct Leftover {
    pub first: Vec<u8>,
    pub second: Vec<u8>,
}

impl Leftover {
    /// The leftover after more marks on both tapes, `None` where they do not agree.
    fn after(&self, first: &[u8], second: &[u8]) -> Option<Leftover> {
        let first = [&self.first, first].concat();
        let second = [&self.second, second].concat();
        let common = first.iter().zip(&second).take_while(|(left, right)| left == right).count();
        let left = Leftover { first: first[common..].to_vec(), second: second[common..].to_vec() };
        (left.first.is_empty() || left.second.is_empty()).then_some(left)
    }

    /// Length on the first tape less length on the second.
    fn delay(&self) -> i64 {
        self.first.len() as i64 - self.second.len() as i64
    }
}

/// A configuration: an input state, and a leftover for each pair.
#[derive(Clone, Debug, PartialEq, Eq, Hash)]
pub struct Config {
    pub state: usize,
    pub leftovers: Vec<Leftover>,
}

impl Config {
    /// The configuration of a state with empty leftovers.
    fn fresh(state: usize, pairs: usize) -> Config {
        Config { state, leftovers: vec![Leftover::default(); pairs] }
    }

    /// The lengths of the leftovers.
    fn lengths(&self) -> impl Iterator<Item = u64> + '_ {
        self.leftovers.iter().map(|leftover| leftover.delay().unsigned_abs())
    }

    /// Whether all leftovers are empty.
    fn is_even(&self) -> bool {
        self.lengths().all(|length| length == 0)
    }
}

/// What keeping asks of a table again and again.
struct Problem<'a> {
    automaton: &'a Automaton,
    arcs_of: Vec<Vec<usize>>,
    pairs: &'a [LimitedPair],
    coaccessible: Vec<bool>,
    closings: Vec<Vec<Option<Closing>>>,
}

impl<'a> Problem<'a> {
    /// Prepares the arcs of each state and the closing delays.
    fn new(automaton: &'a Automaton, pairs: &'a [LimitedPair]) -> Self {
        Problem {
            automaton,
            arcs_of: automaton.arcs_of_states(),
            pairs,
            coaccessible: automaton.coaccessible(),
            closings: pairs.iter().map(|&(pair, _)| closing_delays(automaton, pair)).collect(),
        }
    }

    /// Whether a configuration is hopeful: a final state can be reached, and every pair can still be closed.
    fn is_viable(&self, config: &Config) -> bool {
        let closes = |(leftover, closings): (&Leftover, &Vec<Option<Closing>>)| {
            closings[config.state].is_some_and(|closing| closing.admits(leftover.delay()))
        };
        self.coaccessible[config.state] && config.leftovers.iter().zip(&self.closings).all(closes)
    }

    /// Whether no leftover is longer than its own pair's limit.
    fn is_within_limits(&self, config: &Config) -> bool {
        config.lengths().zip(self.pairs).all(|(length, &(_, limit))| length <= limit)
    }

    /// The configuration that an arc leads to, if the step is compatible.
    fn step(&self, config: &Config, arc: &Arc) -> Option<Config> {
        let after = |(leftover, &((first, second), _)): (&Leftover, &LimitedPair)| {
            leftover.after(&marks(&arc.labels[first - 1]), &marks(&arc.labels[second - 1]))
        };
        let leftovers = config.leftovers.iter().zip(self.pairs).map(after).collect::<Option<Vec<Leftover>>>()?;
        Some(Config { state: arc.target, leftovers })
    }

    /// The hopeful configurations with an initial state and empty leftovers, by input number.
    fn starts(&self) -> Vec<Config> {
        let states = self.automaton.states.iter().enumerate();
        let initial = states.filter(|(_, state)| state.initial.is_some());
        let fresh = initial.map(|(number, _)| Config::fresh(number, self.pairs.len()));
        fresh.filter(|config| self.is_viable(config)).collect()
    }
}

/// The reached configurations, those of them that start, the edges between them (position: the input arc) as far as the
/// space lent holds them, how many there are, and for each pair the longest leftover of the steps from them that leave
/// more than a limit.
struct Reached {
    configs: Vec<Config>,
    starts: Vec<usize>,
    edges: Vec<Edge>,
    arcs: u64,
    beyond: Vec<u64>,
}

impl Reached {
    /// Judges the whole by 8, 9, 10.
    fn judge(&self, problem: &Problem, room: Room) -> Result<(), Refusal> {
        refuse_if(self.configs.len() as u64 > room.usable_states(), Refusal::StatesFull)?;
        refuse_if(self.arcs > room.usable_arcs(), Refusal::ArcsFull)?;
        let exceeded = self.beyond.iter().zip(problem.pairs).any(|(&length, &(_, limit))| length > limit);
        refuse_if(exceeded, Refusal::Delay)
    }
}

/// A hash map that gives each configuration a node number.
#[derive(Default)]
struct Nodes {
    numbers: HashMap<Config, usize>,
    configs: Vec<Config>,
}

impl Nodes {
    /// The node of a configuration, and whether it is new.
    fn node(&mut self, config: Config) -> (usize, bool) {
        if let Some(&node) = self.numbers.get(&config) {
            return (node, false);
        }
        let node = self.configs.len();
        self.numbers.insert(config.clone(), node);
        self.configs.push(config);
        (node, true)
    }
}

/// Raises each of the lengths to that of a configuration's leftover.
fn raise(lengths: &mut [u64], config: &Config) {
    lengths.iter_mut().zip(config.lengths()).for_each(|(most, length)| *most = length.max(*most));
}

/// Collects the reached configurations depth first; it ends where they are more than the space lent.
fn collect(problem: &Problem, room: Room) -> Reached {
    let mut nodes = Nodes::default();
    let starts: Vec<usize> = problem.starts().into_iter().map(|config| nodes.node(config).0).collect();
    let mut stack = starts.clone();
    let (mut edges, mut arcs, mut beyond) = (Vec::new(), 0, vec![0; problem.pairs.len()]);
    while nodes.configs.len() as u64 <= room.usable_states() {
        let Some(source) = stack.pop() else { break };
        let config = nodes.configs[source].clone();
        for &position in &problem.arcs_of[config.state] {
            let step = problem.step(&config, &problem.automaton.arcs[position]);
            let Some(next) = step.filter(|next| problem.is_viable(next)) else { continue };
            if !problem.is_within_limits(&next) {
                raise(&mut beyond, &next);
                continue;
            }
            let (target, new) = nodes.node(next);
            arcs += 1;
            if arcs <= room.usable_arcs() {
                edges.push(Edge { source, position, target });
            }
            if new {
                stack.push(target);
            }
        }
    }
    Reached { configs: nodes.configs, starts, edges, arcs, beyond }
}

/// The nodes from which a node of `ends` is reached.
fn leading_to(ends: Vec<usize>, edges: &[Edge]) -> HashSet<usize> {
    let mut sources: HashMap<usize, Vec<usize>> = HashMap::new();
    for edge in edges {
        sources.entry(edge.target).or_default().push(edge.source);
    }
    let mut found: HashSet<usize> = ends.iter().copied().collect();
    let mut stack = ends;
    while let Some(node) = stack.pop() {
        for &source in sources.get(&node).map_or(&[][..], Vec::as_slice) {
            if found.insert(source) {
                stack.push(source);
            }
        }
    }
    found
}

/// The state record of a configuration: the input's weights where all leftovers are empty, else none.
fn state_of(automaton: &Automaton, config: &Config) -> State {
    if config.is_even() {
        automaton.states[config.state]
    } else {
        State::default()
    }
}

/// The trimmed result, its states in the order first reached, its arcs by source state, then input arc.
fn trimmed(automaton: &Automaton, reached: &Reached) -> Automaton {
    let states: Vec<State> = reached.configs.iter().map(|config| state_of(automaton, config)).collect();
    let ends = (0..states.len()).filter(|&node| states[node].final_weight.is_some()).collect();
    let kept = leading_to(ends, &reached.edges);
    let edges: Vec<Edge> = reached.edges.iter().copied().filter(|edge| kept.contains(&edge.target)).collect();
    let starts: Vec<usize> = reached.starts.iter().copied().filter(|start| kept.contains(start)).collect();
    let order = first_reached(&starts, &edges);
    let numbers: HashMap<usize, usize> = order.iter().enumerate().map(|(number, &node)| (node, number)).collect();
    let mut numbered: Vec<Edge> = edges
        .iter()
        .map(|edge| Edge { source: numbers[&edge.source], position: edge.position, target: numbers[&edge.target] })
        .collect();
    numbered.sort();
    let arcs = numbered.iter().map(|edge| {
        let arc = &automaton.arcs[edge.position];
        Arc { source: edge.source, target: edge.target, weight: arc.weight, labels: arc.labels.clone() }
    });
    Automaton { tapes: automaton.tapes, states: order.iter().map(|&node| states[node]).collect(), arcs: arcs.collect() }
}

/// Keeps the accounts that agree on all (judged) pairs, each held to its own limit; 8, 9, 10.
pub fn intersect(automaton: &Automaton, pairs: &[LimitedPair], room: Room) -> Result<Automaton, Refusal> {
    let problem = Problem::new(automaton, pairs);
    let reached = collect(&problem, room);
    reached.judge(&problem, room)?;
    Ok(trimmed(automaton, &reached))
}

/// What a search over configurations met. Where it is refused with 8, it ended before all were reached.
#[derive(Clone, Debug, PartialEq, Eq)]
pub struct Survey {
    /// How many configurations are reached.
    pub configs: u64,
    /// How many arcs are between them.
    pub arcs: u64,
    /// For each pair the length of its longest leftover among them.
    pub longest: Vec<u64>,
    /// For each pair the longest leftover above its limit that a hopeful compatible step from one of them leaves.
    pub beyond: Vec<Option<u64>>,
    /// The refusal of keeping, if it is refused.
    pub refusal: Option<Refusal>,
}

/// Searches as keeping does, for (judged) pairs with their limits, and tells what was met.
pub fn survey(automaton: &Automaton, pairs: &[LimitedPair], room: Room) -> Survey {
    let problem = Problem::new(automaton, pairs);
    let reached = collect(&problem, room);
    let mut longest = vec![0; pairs.len()];
    reached.configs.iter().for_each(|config| raise(&mut longest, config));
    let above = |(&length, &(_, limit)): (&u64, &LimitedPair)| Some(length).filter(|&length| length > limit);
    Survey {
        configs: reached.configs.len() as u64,
        arcs: reached.arcs,
        longest,
        beyond: reached.beyond.iter().zip(pairs).map(above).collect(),
        refusal: reached.judge(&problem, room).err(),
    }
}

/// Pairs with the greatest limits.
pub fn unlimited(pairs: impl IntoIterator<Item = Pair>) -> Vec<LimitedPair> {
    pairs.into_iter().map(|pair| (pair, MOST_LIMIT)).collect()
}

/// For each (judged) pair the length of its longest leftover among the reached configurations, if keeping is not
/// refused with the greatest limits and ample space.
pub fn longest_leftovers(automaton: &Automaton, pairs: &[Pair]) -> Option<Vec<u64>> {
    let survey = survey(automaton, &unlimited(pairs.iter().copied()), Room::AMPLE);
    survey.refusal.is_none().then_some(survey.longest)
}

/// How many configurations are reached and how many arcs are between them, refused for delay or not, if all fit ample
/// space.
pub fn reached_counts(automaton: &Automaton, pairs: &[LimitedPair]) -> Option<(usize, usize)> {
    let survey = survey(automaton, pairs, Room::AMPLE);
    matches!(survey.refusal, None | Some(Refusal::Delay)).then_some((survey.configs as usize, survey.arcs as usize))
}
