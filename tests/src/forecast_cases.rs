//! Tables for forecasts: rings of every sign in a row, on branches and at dead ends; chains whose delay is long and whose number
//! of states is at the edge of "over"; tables of the greatest size; those that other calls are asked of.

use crate::automaton::{Arc, Automaton, Label, State, MOST_LABEL, MOST_STATES};
use crate::forecast::{leftovers, MOST_NUMBER};
use crate::generate::{case, placed, rewrite, small_case, Case, Subject};
use crate::labels::{weight, word, Ends};
use crate::pair_lists::random_pairs;
use crate::pairs::tapes_of;
use crate::random::Random;

/// Labels of two tapes with a delay, sometimes longer than it asks for.
fn labels_of(random: &mut Random, alphabet: usize, delay: i64) -> (Label, Label) {
    let size = delay.unsigned_abs() as usize;
    let shared = random.pick(&[0, 0, 1, 2]).min(MOST_LABEL - size);
    let (longer, shorter) = (word(random, alphabet, size + shared), word(random, alphabet, shared));
    if delay < 0 {
        (shorter, longer)
    } else {
        (longer, shorter)
    }
}

/// A number from `-most` to `most`.
fn signed(random: &mut Random, most: usize) -> i64 {
    random.below(2 * most + 1) as i64 - most as i64
}

/// The two columns of a pair whose arcs have these delays.
fn columns_of(random: &mut Random, alphabet: usize, delays: &[i64]) -> [Vec<Label>; 2] {
    let (first, second) = delays.iter().map(|&delay| labels_of(random, alphabet, delay)).unzip();
    [first, second]
}

/// Rings of one to three states; a ring that is not closed is a row.
struct Rings {
    /// For each ring its states.
    states: Vec<Vec<usize>>,
    /// For each ring its arcs, the closing one last.
    arcs: Vec<Vec<Ends>>,
}

/// Some rings, their states numbered in a random order.
fn rings(random: &mut Random) -> Rings {
    let sizes: Vec<usize> = (0..random.pick(&[1, 2, 3, 4, 4, 5, 6])).map(|_| random.pick(&[1, 1, 1, 2, 3])).collect();
    let mut numbers = (0..sizes.iter().sum()).collect::<Vec<usize>>();
    if random.chance(60) {
        numbers = random.shuffled(&numbers);
    }
    let states: Vec<Vec<usize>> = sizes.iter().map(|&size| numbers.drain(..size).collect()).collect();
    let ring = |random: &mut Random, states: &Vec<usize>| {
        let mut arcs: Vec<Ends> = states.windows(2).map(|ends| (ends[0], ends[1])).collect();
        if random.chance(90) {
            arcs.push((states[states.len() - 1], states[0]));
        }
        arcs
    };
    let arcs = states.iter().map(|states| ring(random, states)).collect();
    Rings { states, arcs }
}

/// Which rings lead to which: all in a row; the first to each and each to the last; a row of two and the others at its sides,
/// either led to or leading there; any to later ones.
fn bridges(random: &mut Random, rings: usize) -> Vec<Ends> {
    let last = rings - 1;
    let between = 1..last.max(1);
    match random.below(5) {
        0 => (0..last).map(|ring| (ring, ring + 1)).collect(),
        1 | 2 => between.flat_map(|ring| [(0, ring), (ring, last)]).collect(),
        3 => {
            let side = |ring: usize| if random.chance(50) { (0, ring) } else { (ring, last) };
            let sides: Vec<Ends> = between.map(side).collect();
            [vec![(0, last)], sides].concat()
        }
        _ => {
            let later = (0..rings).flat_map(|one| (one + 1..rings).map(move |two| (one, two)));
            later.filter(|_| random.chance(45)).collect()
        }
    }
}

/// The delays of a ring's arcs: a lead that is made up for, and what the ring comes to.
fn ring_delays(random: &mut Random, arcs: usize, sum: i64) -> Vec<i64> {
    let mut delays = vec![0; arcs];
    if let Some(last) = delays.last_mut() {
        *last = sum;
    }
    if arcs > 1 {
        let lead = signed(random, 3);
        delays[0] += lead;
        delays[arcs - 1] -= lead;
    }
    delays
}

/// The delays of all rings' arcs and of so many bridges on one pair; sometimes the first and the last ring are even.
fn delays_of_rings(random: &mut Random, rings: &Rings, bridges: usize) -> Vec<i64> {
    let signs = random.pick(&[&[-1, 0, 1][..], &[-1, 1], &[-1, 1], &[-1, 0, 0, 1], &[0, 1], &[-1, 0]]);
    let even_ends = random.chance(35);
    let mut delays: Vec<i64> = Vec::new();
    for (ring, arcs) in rings.arcs.iter().enumerate() {
        let even = even_ends && (ring == 0 || ring + 1 == rings.arcs.len());
        let sum = if even { 0 } else { random.pick(signs) * random.range(1, 3) as i64 };
        delays.extend(ring_delays(random, arcs.len(), sum));
    }
    let most = random.pick(&[0, 0, 1, 2]);
    delays.extend((0..bridges).map(|_| signed(random, most)));
    delays
}

/// Rings of every sign on one to four pairs, with bridges between them; the first is mostly initial, the last mostly final.
fn rings_case(random: &mut Random) -> Subject {
    let rings = rings(random);
    let bridges: Vec<Ends> = bridges(random, rings.states.len())
        .into_iter()
        .map(|(one, two)| (random.pick(&rings.states[one]), random.pick(&rings.states[two])))
        .collect();
    let ends = [&rings.arcs.concat()[..], &bridges].concat();
    let pair_count = random.pick(&[1, 1, 1, 2, 3, 4]);
    let mut columns = Vec::new();
    for _ in 0..pair_count {
        let alphabet = random.range(1, 3);
        let delays = delays_of_rings(random, &rings, bridges.len());
        columns.extend(columns_of(random, alphabet, &delays));
    }
    let (arcs, pairs) = placed(random, &ends, &columns, pair_count);
    let mut states = vec![State::default(); rings.states.concat().len()];
    for (ring, numbers) in rings.states.iter().enumerate() {
        let (first, last) = (ring == 0, ring + 1 == rings.states.len());
        states[random.pick(numbers)].initial = random.chance(if first { 95 } else { 6 }).then(|| weight(random));
        states[random.pick(numbers)].final_weight = random.chance(if last { 95 } else { 6 }).then(|| weight(random));
    }
    (Automaton { tapes: columns.len(), states, arcs: random.shuffled(&arcs) }, pairs)
}

/// The states of a chain and the greatest size of its delays. The five that are picked from come to a number of 65,535 with one
/// symbol and the right number of states, the others mostly to one below 65,536 while the states are few.
fn chain_size(random: &mut Random, symbols: usize) -> (usize, usize) {
    if random.chance(25) {
        return random.pick(&[(17, 8), (33, 4), (65, 2), (129, 1), (78, 5)]);
    }
    match symbols {
        1 => (random.range(1, 90), random.range(0, MOST_LABEL)),
        _ => (random.range(1, 7), random.pick(&[0, 1, 1, 2, 3])),
    }
}

/// How many states a table with a chain has: such that its number is the greatest one or just over, or a few more than the chain.
fn state_count(random: &mut Random, chain: usize, leftovers: u64) -> usize {
    let edge = (MOST_NUMBER / leftovers) as usize + random.below(2);
    if random.chance(60) && (chain..=MOST_STATES as usize).contains(&edge) {
        edge
    } else {
        chain + random.below(4)
    }
}

/// The ends of an arc on no successful path: from the chain to a state past it, from there to the chain, or past it.
fn useless_ends(random: &mut Random, chain: usize, count: usize) -> Ends {
    let (on, past) = (random.below(chain), random.range(chain, count - 1));
    let middle = chain + (count - chain) / 2;
    match random.below(3) {
        0 => (on, random.range(chain, middle)),
        1 if middle + 1 < count => (random.range(middle + 1, count - 1), on),
        _ => (past, past),
    }
}

/// A chain from the first state to some other, with the greatest delay on one of its arcs; now and then loops of either sign. The
/// states past it are on no successful path. The chain has one symbol; the others stand mostly on arcs that are on no such path,
/// and any symbols on tapes that are in no pair.
fn chain_case(random: &mut Random) -> Subject {
    let symbols = random.pick(&[1, 1, 1, 1, 2, 2, 3, 5]);
    let (chain, most) = chain_size(random, symbols);
    let count = state_count(random, chain, leftovers(symbols as u64, (chain as u64 - 1) * most as u64));
    let mut ends: Vec<Ends> = (1..chain).map(|state| (state - 1, state)).collect();
    let mut delays: Vec<i64> = ends.iter().map(|_| signed(random, most)).collect();
    if chain > 1 {
        delays[random.below(chain - 1)] = random.pick(&[-1, 1]) * most as i64;
    }
    for _ in 0..random.pick(&[0, 0, 0, 0, 1, 1, 2]) {
        let state = random.below(chain);
        ends.push((state, state));
        delays.push(signed(random, most));
    }
    let mut columns = columns_of(random, 1, &delays).to_vec();
    for &symbol in &b"AB0Z9"[..symbols] {
        let on_chain = count == chain || random.chance(10);
        ends.push(if on_chain { (0, 0) } else { useless_ends(random, chain, count) });
        let label = vec![symbol; if on_chain { 1 } else { random.range(1, MOST_LABEL) }];
        columns[1].push(if on_chain { label.clone() } else { Label::new() });
        columns[0].push(label);
    }
    for _ in 0..random.below(3) {
        columns.push(ends.iter().map(|_| word(random, 9, 2)).collect());
    }
    let (arcs, pairs) = placed(random, &ends, &columns, 1);
    let mut states = vec![State::default(); count];
    states[0].initial = Some(weight(random));
    states[chain - 1].final_weight = Some(weight(random));
    (Automaton { tapes: columns.len(), states, arcs }, pairs)
}

/// A chain of the most states there are, sometimes closed to a ring, with loops at its ends and arcs repeated.
fn large_case(random: &mut Random) -> Subject {
    let count = MOST_STATES as usize - random.below(3);
    let mut ends: Vec<Ends> = (1..count).map(|state| (state - 1, state)).collect();
    if random.chance(20) {
        ends.push((count - 1, 0));
    } else if random.chance(20) {
        let repeated = ends.repeat(7);
        ends.extend(repeated);
    }
    ends.extend([(0, 0), (count - 1, count - 1)]);
    let most = random.pick(&[0, 0, 1, 3, MOST_LABEL]);
    let delays: Vec<i64> = ends.iter().map(|_| signed(random, most)).collect();
    let [first, second] = columns_of(random, 1, &delays);
    let arc = |((&(source, target), first), second)| Arc { source, target, weight: 1, labels: vec![first, second] };
    let arcs = ends.iter().zip(first).zip(second).map(arc).collect();
    let mut states = vec![State::default(); count];
    states[0].initial = Some(0);
    states[random.pick(&[0, count / 2, count - 1, count - 1])].final_weight = Some(0);
    (Automaton { tapes: 2, states, arcs }, vec![random.pick(&[(1, 2), (2, 1)])])
}

/// A table and pairs that another call might be asked of.
fn other_case(random: &mut Random) -> Subject {
    let Case { automaton, pairs } = if random.chance(20) { case(random) } else { small_case(random) };
    let pairs = if random.chance(40) { random_pairs(random, automaton.tapes) } else { tapes_of(&pairs) };
    (automaton, pairs)
}

/// A table without states, and pairs of its tapes.
fn empty_case(random: &mut Random) -> Subject {
    let tapes = random.range(1, 8);
    (Automaton::empty(tapes), random_pairs(random, tapes))
}

/// A valid table and good pairs for a forecast; sometimes written otherwise.
pub fn forecast_case(random: &mut Random) -> Subject {
    let (mut automaton, pairs) = match random.below(100) {
        0..=46 => rings_case(random),
        47..=69 => chain_case(random),
        70..=95 => other_case(random),
        96..=98 => empty_case(random),
        _ => large_case(random),
    };
    if random.chance(30) {
        rewrite(random, &mut automaton);
    }
    (automaton, pairs)
}
