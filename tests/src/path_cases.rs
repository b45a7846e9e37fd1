//! Tables and tuples for paths: tables in which whatever spells the same weighs the same, routes that cut the same
//! words into different numbers of arcs, long rings, those that other calls are asked of. Equal arcs, arcs that spell
//! and weigh nothing, loops of them and several starting states are frequent, so that every part of the order decides.

use crate::automaton::{Arc, Automaton, Label, State, Tuple, MOST_WEIGHT};
use crate::generate::{cuts, rewrite, small_case};
use crate::labels::{rewritten, word};
use crate::random::Random;

/// A table and a tuple to be looked up in it.
pub type PathSubject = (Automaton, Tuple);

/// How high a state of an even table stands at most.
const TOP: u64 = 3;

/// What weighs in an even table: so much a symbol, and for each state how high it stands; all in units.
struct Scale {
    unit: u64,
    symbol: u64,
    heights: Vec<u64>,
}

impl Scale {
    /// A scale for so many states; often all stand equally high, or symbols weigh nothing.
    fn random(random: &mut Random, states: usize) -> Scale {
        let high = random.pick(&[0, 0, 1, TOP as usize]);
        Scale {
            unit: random.pick(&[1, 1, 1, 7, 40_000_000]),
            symbol: random.pick(&[0, 0, 1, 2]),
            heights: (0..states).map(|_| random.below(high + 1) as u64).collect(),
        }
    }

    /// The weight of an arc that does not lead down: its symbols', and how far it leads up.
    fn arc(&self, source: usize, target: usize, labels: &[Label]) -> u64 {
        let symbols = labels.iter().map(Vec::len).sum::<usize>() as u64;
        (self.unit * (self.symbol * symbols + self.heights[target] - self.heights[source])).min(MOST_WEIGHT)
    }

    /// The weights of a state: the initial one is its height, the final one what is left to the top.
    fn state(&self, state: usize, initial: bool, last: bool) -> State {
        State {
            initial: initial.then_some(self.unit * self.heights[state]),
            final_weight: last.then_some(self.unit * (TOP - self.heights[state])),
        }
    }
}

/// The arcs, some of them repeated, often in a random order.
fn repeated(random: &mut Random, arcs: &[Arc]) -> Vec<Arc> {
    let chance = random.pick(&[0, 10, 30]);
    let mut all = arcs.to_vec();
    all.extend(arcs.iter().filter(|_| random.chance(chance)).cloned());
    if random.chance(70) {
        all = random.shuffled(&all);
    }
    all
}

/// An arc of an even table: mostly short labels, often none; now and then it weighs one more.
fn even_arc(random: &mut Random, scale: &Scale, tapes: usize, alphabet: usize, noise: usize) -> Arc {
    let (one, two) = (random.below(scale.heights.len()), random.below(scale.heights.len()));
    let (source, target) = if scale.heights[one] <= scale.heights[two] { (one, two) } else { (two, one) };
    let lengths: &[usize] = if random.chance(20) { &[0] } else { &[0, 0, 1, 1, 1, 2, 3] };
    let label = |random: &mut Random| {
        let length = random.pick(lengths);
        word(random, alphabet, length)
    };
    let labels: Vec<Label> = (0..tapes).map(|_| label(random)).collect();
    let more = u64::from(random.chance(noise));
    let weight = (scale.arc(source, target, &labels) + more).min(MOST_WEIGHT);
    Arc { source, target, weight, labels }
}

/// An even table: all its successful paths that spell the same tuple weigh the same, but for some noise.
fn even_case(random: &mut Random) -> PathSubject {
    let tapes = random.pick(&[1, 1, 1, 1, 2, 2, 2, 3, 8]);
    let (count, alphabet) = (random.range(1, 6), random.range(1, 2));
    let (noise, spread) = (random.pick(&[0, 0, 10, 30]), random.pick(&[15, 50, 80]));
    let scale = Scale::random(random, count);
    let (first, last) = (random.below(count), random.below(count));
    let state = |random: &mut Random, number: usize| {
        let (initial, ends) = (random.chance(spread), random.chance(spread));
        scale.state(number, initial || number == first, ends || number == last)
    };
    let states = (0..count).map(|number| state(random, number)).collect();
    let arcs: Vec<Arc> = (0..random.range(0, 12)).map(|_| even_arc(random, &scale, tapes, alphabet, noise)).collect();
    let automaton = Automaton { tapes, states, arcs: repeated(random, &arcs) };
    let tuple = match random.below(20) {
        0 => vec![Vec::new(); tapes],
        1 if tapes == 1 => vec![vec![b'A'; random.range(60, 64)]],
        _ => spelled_to_end(random, &automaton),
    };
    (automaton, tuple)
}

/// How many combinations of positions a tuple has.
fn combinations(tuple: &Tuple) -> usize {
    tuple.iter().map(|string| string.len() + 1).product()
}

/// What a random path spells that goes on where it can still be successful; broken off before its cells become many.
fn spelled_to_end(random: &mut Random, automaton: &Automaton) -> Tuple {
    let (arcs_of, coaccessible) = (automaton.arcs_of_states(), automaton.coaccessible());
    let mut tuple = vec![Vec::new(); automaton.tapes];
    let hopeful = |state: &usize| automaton.states[*state].initial.is_some() && coaccessible[*state];
    let starts: Vec<usize> = (0..automaton.states.len()).filter(hopeful).collect();
    if starts.is_empty() {
        return tuple;
    }
    let mut state = random.pick(&starts);
    for _ in 0..12 {
        let arcs = arcs_of[state].iter().map(|&arc| &automaton.arcs[arc]);
        let ahead: Vec<&Arc> = arcs.filter(|arc| coaccessible[arc.target]).collect();
        let may_end = automaton.states[state].final_weight.is_some();
        if ahead.is_empty() || (may_end && random.chance(25)) {
            break;
        }
        let arc = random.pick(&ahead);
        let joined = tuple.iter().zip(&arc.labels).map(|(string, label)| [&string[..], label].concat());
        let longer: Tuple = joined.collect();
        if combinations(&longer) > 2_000 {
            break;
        }
        (tuple, state) = (longer, arc.target);
    }
    tuple
}

/// The arcs of a route by some stops: the words cut at random, and the weight.
pub fn route_arcs(random: &mut Random, stops: &[usize], words: &Tuple, total: usize) -> Vec<Arc> {
    let links = stops.len() - 1;
    let weights = cuts(random, total, links);
    let places: Vec<Vec<usize>> = words.iter().map(|word| cuts(random, word.len(), links)).collect();
    let arc = |link: usize| Arc {
        source: stops[link],
        target: stops[link + 1],
        weight: (weights[link + 1] - weights[link]) as u64,
        labels: words.iter().zip(&places).map(|(word, cut)| word[cut[link]..cut[link + 1]].to_vec()).collect(),
    };
    (0..links).map(arc).collect()
}

/// Routes that spell the same words at the same weight with different numbers of arcs, from one starting state or
/// several; a few weigh one more. The states are numbered in a random order.
fn routes_case(random: &mut Random) -> PathSubject {
    let alphabet = random.range(1, 3);
    let lengths: Vec<usize> = (0..random.pick(&[1, 1, 2, 3])).map(|_| random.below(9)).collect();
    let words: Tuple = lengths.iter().map(|&length| word(random, alphabet, length)).collect();
    let total = random.pick(&[0, 0, 1, 5, 12, MOST_WEIGHT as usize - 1]);
    let routes: Vec<usize> = (0..random.range(1, 5)).map(|_| random.pick(&[1, 2, 2, 3, 3, 3, 4, 6])).collect();
    let apart = random.pick(&[0, 50, 100]);
    let numbers = random.shuffled(&(0..2 + routes.iter().sum::<usize>()).collect::<Vec<usize>>());
    let mut states = vec![State::default(); numbers.len()];
    let mut free = numbers[2..].iter().copied();
    let mut arcs = Vec::new();
    for links in routes {
        let stops: Vec<usize> = free.by_ref().take(links).collect();
        let start = if random.chance(apart) { stops[0] } else { numbers[0] };
        states[start].initial = Some(4);
        let more = usize::from(random.chance(20));
        arcs.extend(route_arcs(random, &[&[start], &stops[1..], &[numbers[1]]].concat(), &words, total + more));
    }
    states[numbers[1]].final_weight = Some(2);
    (Automaton { tapes: words.len(), states, arcs: repeated(random, &arcs) }, words)
}

/// A ring of arcs that spell nothing, but for one with a symbol, and arcs in front of them that no path takes: long
/// paths, high numbers of states and arcs.
fn ring_case(random: &mut Random) -> PathSubject {
    let sizes = [(2, 5), (3, 0), (20, 64), (255, 2), (257, 1), (300, 64), (600, 5), (1_024, 1), (1_024, 64)];
    let (count, length) = random.pick(&sizes);
    let (unit, front) = (random.pick(&[0, 1, MOST_WEIGHT]), random.pick(&[0, 0, 3, 255, 256, 7_168]));
    let numbers = random.shuffled(&(0..count).collect::<Vec<usize>>());
    let mut states = vec![State::default(); count];
    states[random.below(count)].initial = Some(unit);
    states[random.below(count)].final_weight = Some(unit);
    let idle = |random: &mut Random| Arc {
        source: random.below(count),
        target: random.below(count),
        weight: 0,
        labels: vec![b"Z".to_vec()],
    };
    let mut arcs: Vec<Arc> = (0..front).map(|_| idle(random)).collect();
    arcs.extend((0..count).map(|place| Arc {
        source: numbers[place],
        target: numbers[(place + 1) % count],
        weight: unit,
        labels: vec![vec![b'A'; usize::from(place == 0)]],
    }));
    (Automaton { tapes: 1, states, arcs }, vec![vec![b'A'; length]])
}

/// A valid table and a tuple that is often spelled in it, more than once; sometimes both are written otherwise, each by
/// itself.
pub fn path_case(random: &mut Random) -> PathSubject {
    let (mut automaton, tuple) = match random.below(100) {
        0..=3 => ring_case(random),
        4..=34 => routes_case(random),
        35..=46 => {
            let automaton = small_case(random).automaton;
            let tuple = spelled_to_end(random, &automaton);
            (automaton, tuple)
        }
        _ => even_case(random),
    };
    if random.chance(90) {
        return (automaton, tuple);
    }
    rewrite(random, &mut automaton);
    let tuple = tuple.iter().map(|string| rewritten(random, string)).collect();
    (automaton, tuple)
}
