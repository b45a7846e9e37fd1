//! Seeded words, labels and weights, and the labels of a pair's two tapes in several styles.

use crate::automaton::{Label, MOST_LABEL, MOST_WEIGHT};
use crate::random::Random;

/// The ends of an arc, before it has labels.
pub type Ends = (usize, usize);

/// Labels of the two tapes of a pair for every arc.
pub type PairLabels = Vec<(Label, Label)>;

/// A symbol of a small alphabet; letters and digits both stand in it.
fn symbol(random: &mut Random, alphabet: usize) -> u8 {
    b"AB0Z9CYI1O"[random.below(alphabet)]
}

/// A string of `length` symbols.
pub fn word(random: &mut Random, alphabet: usize, length: usize) -> Label {
    (0..length).map(|_| symbol(random, alphabet)).collect()
}

/// A label: mostly short, sometimes empty, sometimes of all eight symbols.
pub fn label(random: &mut Random, alphabet: usize) -> Label {
    let length = random.pick(&[0, 0, 0, 1, 1, 1, 1, 2, 2, 3, 4, MOST_LABEL]);
    word(random, alphabet, length)
}

/// A weight: mostly small, sometimes at an edge of its range.
pub fn weight(random: &mut Random) -> u64 {
    match random.below(12) {
        0 => MOST_WEIGHT,
        1 => 0,
        2 => random.below(MOST_WEIGHT as usize + 1) as u64,
        _ => random.below(20) as u64,
    }
}

/// A weight in about `percent` of a hundred cases.
pub fn optional_weight(random: &mut Random, percent: usize) -> Option<u64> {
    random.chance(percent).then(|| weight(random))
}

/// Random labels over an alphabet of `alphabet` symbols.
fn random_pair(random: &mut Random, ends: &[Ends], alphabet: usize) -> PairLabels {
    ends.iter().map(|_| (label(random, alphabet), label(random, alphabet))).collect()
}

/// Equal labels on both tapes of most arcs.
fn equal_pair(random: &mut Random, ends: &[Ends]) -> PairLabels {
    let alphabet = random.range(1, 3);
    let equal = |random: &mut Random| {
        let first = label(random, alphabet);
        let second = if random.chance(90) { first.clone() } else { label(random, alphabet) };
        (first, second)
    };
    ends.iter().map(|_| equal(random)).collect()
}

/// A factor of an endless repetition of `period`, from one place to another (mod its length), with up to `rounds` more
/// rounds.
fn factor(random: &mut Random, period: &[u8], from: usize, to: usize, rounds: usize) -> Label {
    let length = period.len();
    let mut size = (to + length - from) % length;
    for _ in 0..rounds {
        if size + length <= MOST_LABEL && random.chance(30) {
            size += length;
        }
    }
    (0..size).map(|place| period[(from + place) % length]).collect()
}

/// Both tapes follow the same repeated word; each state stands at a place of it on each tape, so that strings always
/// agree as far as both go. Now and then a symbol is altered.
fn periodic_pair(random: &mut Random, ends: &[Ends], states: usize) -> PairLabels {
    let length = random.range(1, 4);
    let period = word(random, 3, length);
    let place = |random: &mut Random| if random.chance(40) { 0 } else { random.below(length) };
    let first: Vec<usize> = (0..states).map(|_| place(random)).collect();
    let second: Vec<usize> = (0..states).map(|state| if random.chance(50) { first[state] } else { place(random) }).collect();
    let rounds = random.below(3);
    let noise = random.pick(&[0, 0, 5]);
    let labels = |random: &mut Random, &(source, target): &Ends| {
        let mut left = factor(random, &period, first[source], first[target], rounds);
        let right = factor(random, &period, second[source], second[target], rounds);
        if !left.is_empty() && random.chance(noise) {
            let at = random.below(left.len());
            left[at] = symbol(random, 3);
        }
        (left, right)
    };
    ends.iter().map(|ends| labels(random, ends)).collect()
}

/// Each state owes a leftover word (its potential); an arc pays what its source owes and writes what its target owes.
fn potential_pair(random: &mut Random, ends: &[Ends], states: usize) -> PairLabels {
    let alphabet = random.range(1, 3);
    let owes = |random: &mut Random, state: usize| {
        let length = if state == 0 || state + 1 == states { 0 } else { random.below(4) };
        word(random, alphabet, length)
    };
    let owed: Vec<Label> = (0..states).map(|state| owes(random, state)).collect();
    let labels = |random: &mut Random, &(source, target): &Ends| {
        let shared = random.below(3);
        let middle = word(random, alphabet, shared);
        let left = [&middle[..], &owed[target]].concat();
        let right = [&owed[source][..], &middle].concat();
        (left, right)
    };
    ends.iter().map(|ends| labels(random, ends)).collect()
}

/// A string written otherwise: each A as I or 1, each B as O or 0. What was equal then agrees only as it is read.
pub fn rewritten(random: &mut Random, string: &[u8]) -> Label {
    let other = |&symbol: &u8| match symbol {
        b'A' => random.pick(b"I1"),
        b'B' => random.pick(b"O0"),
        symbol => symbol,
    };
    string.iter().map(other).collect()
}

/// A string with the same marks: each I and 1 as either, each O and 0.
pub fn respelled(random: &mut Random, string: &[u8]) -> Label {
    let other = |&symbol: &u8| match symbol {
        b'I' | b'1' => random.pick(b"I1"),
        b'O' | b'0' => random.pick(b"O0"),
        symbol => symbol,
    };
    string.iter().map(other).collect()
}

/// Labels of a pair in one of the styles.
pub fn pair_labels(random: &mut Random, ends: &[Ends], states: usize) -> PairLabels {
    let labels = match random.below(8) {
        0 => random_pair(random, ends, 1),
        1 => random_pair(random, ends, 2),
        2 => equal_pair(random, ends),
        3 | 4 => periodic_pair(random, ends, states.max(1)),
        _ => potential_pair(random, ends, states),
    };
    if random.chance(50) {
        labels
    } else {
        labels.into_iter().map(|(first, second)| (second, first)).collect()
    }
}
