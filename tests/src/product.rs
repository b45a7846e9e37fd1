//! The aligned product (document 004, section 6.1): two paths advance together, the shorter one is padded.

use crate::automaton::{Arc, Automaton, Label, Room, State, MOST_TAPES, MOST_WEIGHT};
use crate::order::{first_reached, Edge};
use crate::refusal::{refuse_if, Refusal};
use std::collections::{BTreeSet, HashMap};

/// Where one of the two paths is: at a state, or past its end.
#[derive(Clone, Copy, Debug, PartialEq, Eq, Hash, PartialOrd, Ord)]
enum Place {
    At(usize),
    Ended,
}

/// A product state.
type Node = (Place, Place);

/// One table of a product with the arcs of its states.
struct Factor<'a> {
    automaton: &'a Automaton,
    arcs_of: Vec<Vec<usize>>,
}

impl<'a> Factor<'a> {
    /// Prepares the arcs of each state.
    fn new(automaton: &'a Automaton) -> Self {
        Factor { automaton, arcs_of: automaton.arcs_of_states() }
    }

    /// The arcs out of a place, in record order; none past the end.
    fn arcs(&self, place: Place) -> Vec<&'a Arc> {
        match place {
            Place::At(state) => self.arcs_of[state].iter().map(|&number| &self.automaton.arcs[number]).collect(),
            Place::Ended => Vec::new(),
        }
    }

    /// The final weight of a place; past the end it is 0.
    fn final_weight(&self, place: Place) -> Option<u64> {
        match place {
            Place::At(state) => self.automaton.states[state].final_weight,
            Place::Ended => Some(0),
        }
    }

    /// The distinct places that a step leads to.
    fn targets(&self, place: Place) -> BTreeSet<Place> {
        self.arcs(place).iter().map(|arc| Place::At(arc.target)).collect()
    }

    /// The initial states with their weights.
    fn starts(&self) -> Vec<(Place, u64)> {
        let states = self.automaton.states.iter().enumerate();
        states.filter_map(|(number, state)| Some((Place::At(number), state.initial?))).collect()
    }

    /// Labels for padding.
    fn padding(&self) -> Vec<Label> {
        vec![Label::new(); self.automaton.tapes]
    }
}

/// An arc out of a product state.
struct Move {
    target: Node,
    weight: u64,
    labels: Vec<Label>,
}

/// The two tables.
struct Factors<'a> {
    first: Factor<'a>,
    second: Factor<'a>,
}

impl Factors<'_> {
    /// All pairs of initial states with the sums of their weights, by the first table's state, then the second's.
    fn starts(&self) -> Vec<(Node, u64)> {
        let pair = |(x, left): (Place, u64)| self.second.starts().into_iter().map(move |(y, right)| ((x, y), left + right));
        self.first.starts().into_iter().flat_map(pair).collect()
    }

    /// The distinct product states that a step leads to.
    fn targets(&self, (x, y): Node) -> BTreeSet<Node> {
        let (left, right) = (self.first.targets(x), self.second.targets(y));
        let mut targets: BTreeSet<Node> = left.iter().flat_map(|&x| right.iter().map(move |&y| (x, y))).collect();
        if self.first.final_weight(x).is_some() {
            targets.extend(right.iter().map(|&y| (Place::Ended, y)));
        }
        if self.second.final_weight(y).is_some() {
            targets.extend(left.iter().map(|&x| (x, Place::Ended)));
        }
        targets
    }

    /// The number of arcs out of a product state, counted without making them.
    fn degree(&self, (x, y): Node) -> u64 {
        let (left, right) = (self.first.arcs(x).len() as u64, self.second.arcs(y).len() as u64);
        let past_first = if self.first.final_weight(x).is_some() { right } else { 0 };
        let past_second = if self.second.final_weight(y).is_some() { left } else { 0 };
        left * right + past_first + past_second
    }

    /// The arcs out of a product state: those of both tables, the first's leading, then those past the first's end, then those
    /// past the second's.
    fn moves(&self, (x, y): Node) -> Vec<Move> {
        let (left, right) = (self.first.arcs(x), self.second.arcs(y));
        let mut moves = Vec::new();
        for one in &left {
            for two in &right {
                let target = (Place::At(one.target), Place::At(two.target));
                let labels = [one.labels.clone(), two.labels.clone()].concat();
                moves.push(Move { target, weight: one.weight + two.weight, labels });
            }
        }
        if let Some(end) = self.first.final_weight(x) {
            for two in &right {
                let labels = [self.first.padding(), two.labels.clone()].concat();
                moves.push(Move { target: (Place::Ended, Place::At(two.target)), weight: end + two.weight, labels });
            }
        }
        if let Some(end) = self.second.final_weight(y) {
            for one in &left {
                let labels = [one.labels.clone(), self.second.padding()].concat();
                moves.push(Move { target: (Place::At(one.target), Place::Ended), weight: one.weight + end, labels });
            }
        }
        moves
    }

    /// The final weight of a product state: the sum, absent if either is.
    fn final_weight(&self, (x, y): Node) -> Option<u64> {
        Some(self.first.final_weight(x)? + self.second.final_weight(y)?)
    }

    /// The product states that can be reached, collected depth first; 8 where they are too many.
    fn reachable(&self, room: Room) -> Result<Vec<Node>, Refusal> {
        let mut stack: Vec<Node> = self.starts().into_iter().map(|(node, _)| node).collect();
        let mut found: BTreeSet<Node> = stack.iter().copied().collect();
        while let Some(node) = stack.pop() {
            refuse_if(found.len() as u64 > room.usable_states(), Refusal::StatesFull)?;
            stack.extend(self.targets(node).into_iter().filter(|&target| found.insert(target)));
        }
        refuse_if(found.len() as u64 > room.usable_states(), Refusal::StatesFull)?;
        Ok(found.into_iter().collect())
    }
}

/// Judges the width of a product by 12.
pub fn judge_width(first: &Automaton, second: &Automaton) -> Result<(), Refusal> {
    refuse_if((first.tapes + second.tapes) as u64 > MOST_TAPES, Refusal::Width)
}

/// The product of two tables whose tapes are 8 at most; 8, 9, 11.
pub fn product(first: &Automaton, second: &Automaton, room: Room) -> Result<Automaton, Refusal> {
    let factors = Factors { first: Factor::new(first), second: Factor::new(second) };
    let nodes = factors.reachable(room)?;
    let arcs: u64 = nodes.iter().map(|&node| factors.degree(node)).sum();
    refuse_if(arcs > room.usable_arcs(), Refusal::ArcsFull)?;
    let automaton = build(&factors, &nodes, first.tapes + second.tapes);
    refuse_if(has_heavy_weight(&automaton), Refusal::Weight)?;
    Ok(automaton)
}

/// The product on its reachable states, in the order of request 2.2; weights may be above their range.
fn build(factors: &Factors, nodes: &[Node], tapes: usize) -> Automaton {
    let places: HashMap<Node, usize> = nodes.iter().enumerate().map(|(place, &node)| (node, place)).collect();
    let moves: Vec<Vec<Move>> = nodes.iter().map(|&node| factors.moves(node)).collect();
    let mut edges = Vec::new();
    for (source, moves) in moves.iter().enumerate() {
        edges.extend(moves.iter().enumerate().map(|(position, one)| Edge { source, position, target: places[&one.target] }));
    }
    let initial: HashMap<Node, u64> = factors.starts().into_iter().collect();
    let starts: Vec<usize> = factors.starts().iter().map(|(node, _)| places[node]).collect();
    let order = first_reached(&starts, &edges);
    let numbers: HashMap<usize, usize> = order.iter().enumerate().map(|(number, &place)| (place, number)).collect();
    let mut automaton = Automaton::empty(tapes);
    for (source, &place) in order.iter().enumerate() {
        let node = nodes[place];
        automaton.states.push(State { initial: initial.get(&node).copied(), final_weight: factors.final_weight(node) });
        automaton.arcs.extend(moves[place].iter().map(|one| Arc {
            source,
            target: numbers[&places[&one.target]],
            weight: one.weight,
            labels: one.labels.clone(),
        }));
    }
    automaton
}

/// Whether some weight is above its range.
fn has_heavy_weight(automaton: &Automaton) -> bool {
    let heavy = |weight: Option<u64>| weight.is_some_and(|weight| weight > MOST_WEIGHT);
    automaton.states.iter().any(|state| heavy(state.initial) || heavy(state.final_weight))
        || automaton.arcs.iter().any(|arc| heavy(Some(arc.weight)))
}
