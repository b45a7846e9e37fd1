//! Seeded tables to be joined, with pairs and limits: small tables on any pairs, and tables that spell the same words
//! cut at other places, so that every pair lags.

use crate::automaton::{Arc, Automaton, Room, State, Tuple};
use crate::columns::project;
use crate::generate::{rewrite, small_case};
use crate::labels::word;
use crate::pair_lists::{good_limit, limits};
use crate::pairs::{pair_of, records_of, Pair, PairRecord, Tapes};
use crate::path_cases::route_arcs;
use crate::product::{judge_width, product};
use crate::random::Random;

/// Two tables and good pairs to join them on, each with a good limit.
pub struct JoinCase {
    pub first: Automaton,
    pub second: Automaton,
    pub pairs: Vec<PairRecord>,
}

/// Two tables for a product or a join; mostly narrow and light.
pub fn two_tables(random: &mut Random) -> (Automaton, Automaton) {
    let narrow = |random: &mut Random| {
        let automaton = small_case(random).automaton;
        let most = automaton.tapes.min(random.range(1, 4)) as u64;
        let mut automaton = project(&automaton, &(1..=most).collect::<Vec<u64>>(), Room::AMPLE).unwrap_or(automaton);
        if random.chance(90) {
            automaton.arcs.iter_mut().for_each(|arc| arc.weight %= 1_000);
            for state in &mut automaton.states {
                state.initial = state.initial.map(|weight| weight % 1_000);
                state.final_weight = state.final_weight.map(|weight| weight % 1_000);
            }
        }
        automaton
    };
    if random.chance(5) {
        (small_case(random).automaton, small_case(random).automaton)
    } else {
        (narrow(random), narrow(random))
    }
}

/// Pairs for a join: distinct tapes on each side.
fn join_pairs(random: &mut Random, first: usize, second: usize) -> Vec<Tapes> {
    let left = random.shuffled(&(1..=first as u64).collect::<Vec<u64>>());
    let right = random.shuffled(&(1..=second as u64).collect::<Vec<u64>>());
    let count = random.below(first.min(second).min(4) + 1);
    left.into_iter().zip(right).take(count).collect()
}

/// A chain that spells some words, cut at random; sometimes with a loop that has a symbol on one tape.
fn spelling_chain(random: &mut Random, words: &Tuple) -> Automaton {
    let links = random.range(1, 5);
    let weight = random.below(20);
    let mut arcs = route_arcs(random, &(0..=links).collect::<Vec<usize>>(), words, weight);
    if random.chance(25) {
        let (state, tape) = (random.below(links + 1), random.below(words.len()));
        let labels = (0..words.len()).map(|other| if other == tape { word(random, 2, 1) } else { Vec::new() }).collect();
        arcs.push(Arc { source: state, target: state, weight: 1, labels });
    }
    let mut states = vec![State::default(); links + 1];
    states[0].initial = Some(random.below(5) as u64);
    states[links].final_weight = Some(random.below(5) as u64);
    Automaton { tapes: words.len(), states, arcs }
}

/// Two chains that spell the same words, the tapes of the second in a random order, and some of the pairs of tapes that
/// spell the same; now and then one word has a symbol more in the second. Sometimes both are written otherwise.
fn lagging_tables(random: &mut Random) -> (Automaton, Automaton, Vec<Tapes>) {
    let (tapes, alphabet) = (random.range(1, 4), random.range(1, 2));
    let lengths: Vec<usize> = (0..tapes).map(|_| random.below(8)).collect();
    let words: Tuple = lengths.iter().map(|&length| word(random, alphabet, length)).collect();
    let places = random.shuffled(&(0..tapes).collect::<Vec<usize>>());
    let mut others: Tuple = places.iter().map(|&place| words[place].clone()).collect();
    if random.chance(5) {
        others[0].push(b'A');
    }
    let pairs: Vec<Tapes> = (1..).zip(&places).map(|(tape, &place)| (place as u64 + 1, tape)).collect();
    let mut pairs = random.shuffled(&pairs);
    pairs.truncate(random.range(1, tapes).max(random.range(1, tapes)));
    let (mut first, mut second) = (spelling_chain(random, &words), spelling_chain(random, &others));
    if random.chance(40) {
        rewrite(random, &mut first);
        rewrite(random, &mut second);
    }
    (first, second, pairs)
}

/// Tables, pairs and limits for a join; the tables may be too wide for a product.
pub fn join_case(random: &mut Random) -> JoinCase {
    let (first, second, pairs) = if random.chance(50) {
        lagging_tables(random)
    } else {
        let (first, second) = two_tables(random);
        let pairs = join_pairs(random, first.tapes, second.tapes);
        (first, second, pairs)
    };
    let suited = good_limit(random);
    let limits = match judge_width(&first, &second).and_then(|()| product(&first, &second, Room::AMPLE)) {
        Ok(both) => {
            let raised: Vec<Pair> = pairs.iter().map(|&(i, j)| pair_of((i, first.tapes as u64 + j))).collect();
            limits(random, &both, &raised, suited)
        }
        Err(_) => vec![suited; pairs.len()],
    };
    JoinCase { pairs: records_of(&pairs, &limits), first, second }
}
