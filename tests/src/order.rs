//! The order of request 2.2: states in the order first reached.

use std::collections::HashMap;

/// An edge of a graph; `position` is its place among the edges out of `source`.
#[derive(Clone, Copy, Debug, PartialEq, Eq, Hash, PartialOrd, Ord)]
pub struct Edge {
    pub source: usize,
    pub position: usize,
    pub target: usize,
}

/// The nodes that can be reached, in the order first reached: the starts as given, then level by level, and in a level by the
/// number of the first source that leads there and the first of its edges that does.
pub fn first_reached(starts: &[usize], edges: &[Edge]) -> Vec<usize> {
    let mut edges_of: HashMap<usize, Vec<Edge>> = HashMap::new();
    for &edge in edges {
        edges_of.entry(edge.source).or_default().push(edge);
    }
    let mut numbers: HashMap<usize, usize> = HashMap::new();
    let mut order: Vec<usize> = Vec::new();
    let mut level: Vec<usize> = starts.to_vec();
    while !level.is_empty() {
        for &node in &level {
            numbers.insert(node, order.len());
            order.push(node);
        }
        level = next_level(&level, &edges_of, &numbers);
    }
    order
}

/// The nodes that `level` leads to and that have no number yet, by number of source and position of edge.
fn next_level(level: &[usize], edges_of: &HashMap<usize, Vec<Edge>>, numbers: &HashMap<usize, usize>) -> Vec<usize> {
    let mut keys: HashMap<usize, (usize, usize)> = HashMap::new();
    for edge in level.iter().filter_map(|node| edges_of.get(node)).flatten() {
        if !numbers.contains_key(&edge.target) {
            let key = (numbers[&edge.source], edge.position);
            let least = keys.entry(edge.target).or_insert(key);
            *least = (*least).min(key);
        }
    }
    let mut found: Vec<usize> = keys.keys().copied().collect();
    found.sort_by_key(|node| keys[node]);
    found
}
