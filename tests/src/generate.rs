//! Seeded test inputs: tables of many shapes with pairs and limits that suit them, inputs of `agree`.

use crate::automaton::{Arc, Automaton, Label, State, MOST_LABEL};
use crate::damage;
use crate::labels::{label, optional_weight, pair_labels, respelled, rewritten, weight, word, Ends};
use crate::pair_lists::{faulty, good_limit, limits, random_pairs};
use crate::pairs::{pair_of, records_of, Pair, PairRecord, Tapes};
use crate::random::Random;
use crate::sample::{p, q, r, s};
use crate::text::{pair_line, write};

/// A table with good pairs, each with a good limit.
#[derive(Clone, Debug)]
pub struct Case {
    pub automaton: Automaton,
    pub pairs: Vec<PairRecord>,
}

/// A table and pairs of its tapes.
pub type Subject = (Automaton, Vec<Tapes>);

/// A table, pairs of its tapes, and one limit that suits them.
struct Shape {
    automaton: Automaton,
    pairs: Vec<Tapes>,
    limit: u64,
}

/// How many states and arcs a shape may have.
#[derive(Clone, Copy)]
struct Size {
    states: usize,
    arcs: usize,
}

/// A size: mostly small, sometimes near what `agree` lends.
fn size(random: &mut Random) -> Size {
    match random.below(60) {
        0 => Size { states: random.range(60, 64), arcs: random.range(64, 512) },
        1 => Size { states: random.range(1, 3), arcs: random.range(100, 512) },
        2..=7 => Size { states: random.range(9, 30), arcs: random.range(9, 60) },
        8..=10 => Size { states: random.range(0, 1), arcs: random.range(0, 3) },
        _ => Size { states: random.range(1, 8), arcs: random.range(0, 14) },
    }
}

/// Arc ends of some graph: any, a chain with loops and shortcuts, a ring with chords, or parallel arcs.
fn graph(random: &mut Random, size: Size) -> Vec<Ends> {
    if size.states == 0 {
        return Vec::new();
    }
    let kind = random.below(4);
    let mut ends: Vec<Ends> = Vec::new();
    let last = size.states - 1;
    if kind == 1 || kind == 2 {
        ends.extend((0..last).map(|state| (state, state + 1)));
    }
    if kind == 2 {
        ends.push((last, 0));
    }
    while ends.len() < size.arcs {
        let source = random.below(size.states);
        let target = match kind {
            1 => random.pick(&[source, (source + 1).min(last), (source + 2).min(last), last]),
            3 => ends.last().map_or(source, |ends| ends.1),
            _ => random.below(size.states),
        };
        ends.push((source, target));
    }
    ends.truncate(512);
    if random.chance(50) {
        ends = random.shuffled(&ends);
    }
    ends
}

/// States: the first mostly initial, the last mostly final, others now and then.
fn states(random: &mut Random, count: usize) -> Vec<State> {
    let spread = random.pick(&[0, 0, 15, 50]);
    let state = |random: &mut Random, number: usize| State {
        initial: optional_weight(random, if number == 0 { 95 } else { spread }),
        final_weight: optional_weight(random, if number + 1 == count { 95 } else { spread }),
    };
    (0..count).map(|number| state(random, number)).collect()
}

/// Arcs with the labels of the columns, the tapes in a random order, some arcs repeated, at most 512; and the pairs, the first two
/// columns being the first of them, and so on.
pub fn placed(random: &mut Random, ends: &[Ends], columns: &[Vec<Label>], pair_count: usize) -> (Vec<Arc>, Vec<Tapes>) {
    let places = random.shuffled(&(0..columns.len()).collect::<Vec<usize>>());
    let pairs = (0..pair_count).map(|pair| (places[2 * pair] as u64 + 1, places[2 * pair + 1] as u64 + 1)).collect();
    let mut arcs: Vec<Arc> = Vec::new();
    for (number, &(source, target)) in ends.iter().enumerate() {
        let mut labels = vec![Label::new(); columns.len()];
        for (column, &place) in columns.iter().zip(&places) {
            labels[place] = column[number].clone();
        }
        arcs.push(Arc { source, target, weight: weight(random), labels });
        if random.chance(5) && arcs.len() < 512 {
            arcs.push(arcs[arcs.len() - 1].clone());
        }
    }
    arcs.truncate(512);
    (arcs, pairs)
}

/// A table on a graph with one style of labels for each of several pairs, the tapes in a random order; some arcs repeated.
fn graph_case(random: &mut Random) -> Shape {
    let size = size(random);
    let ends = graph(random, size);
    let pair_count = random.pick(&[0, 1, 1, 1, 1, 2, 2, 3, 4]);
    let others = random.below(9 - 2 * pair_count).min(random.below(4)).max(usize::from(pair_count == 0));
    let mut columns: Vec<Vec<Label>> = Vec::new();
    for _ in 0..pair_count {
        let labels = pair_labels(random, &ends, size.states);
        columns.push(labels.iter().map(|pair| pair.0.clone()).collect());
        columns.push(labels.into_iter().map(|pair| pair.1).collect());
    }
    for _ in 0..others {
        let alphabet = random.range(1, 10);
        columns.push(ends.iter().map(|_| label(random, alphabet)).collect());
    }
    let (arcs, pairs) = placed(random, &ends, &columns, pair_count);
    Shape {
        automaton: Automaton { tapes: columns.len(), states: states(random, size.states), arcs },
        pairs,
        limit: good_limit(random),
    }
}

/// A word and two ways to cut it along the links of a chain, for the two tapes of a pair.
struct CutWord {
    word: Label,
    first: Vec<usize>,
    second: Vec<usize>,
}

impl CutWord {
    /// A random word of at most so many symbols.
    fn random(random: &mut Random, alphabet: usize, links: usize, most: usize) -> CutWord {
        let length = random.range(0, most);
        let word = word(random, alphabet, length);
        CutWord { word, first: cuts(random, length, links), second: cuts(random, length, links) }
    }

    /// What stands on the two tapes of a link.
    fn pieces(&self, link: usize) -> [Label; 2] {
        [&self.first, &self.second].map(|cuts| self.word[cuts[link]..cuts[link + 1]].to_vec())
    }

    /// What one tape has left at the start of a link, as far as a label holds it, for both tapes.
    fn owed(&self, link: usize) -> [Label; 2] {
        let (one, two) = (self.first[link].min(self.second[link]), self.first[link].max(self.second[link]));
        let owed = self.word[one..two.min(one + MOST_LABEL)].to_vec();
        [owed.clone(), owed]
    }
}

/// Words cut in two ways along a chain, one for each pair, with loops that repeat a piece on both tapes, and arcs of
/// noise.
fn chain_case(random: &mut Random) -> Shape {
    let (links, alphabet) = (random.range(1, 10), random.range(1, 4));
    let pair_count = random.pick(&[1, 1, 1, 2, 2, 3, 4]);
    let most = if pair_count == 1 { 3 * links } else { links + 5 };
    let cut: Vec<CutWord> = (0..pair_count).map(|_| CutWord::random(random, alphabet, links, most)).collect();
    let mut arcs = Vec::new();
    for link in 0..links {
        let labels: Vec<Label> = cut.iter().flat_map(|word| word.pieces(link)).collect();
        if labels.iter().all(|label| label.len() <= MOST_LABEL) {
            arcs.push(Arc { source: link, target: link + 1, weight: weight(random), labels });
        }
        if random.chance(20) {
            let labels = cut.iter().flat_map(|word| word.owed(link)).collect();
            arcs.push(Arc { source: link, target: link, weight: weight(random), labels });
        }
        if random.chance(15) {
            let labels = (0..2 * pair_count).map(|_| label(random, alphabet)).collect();
            arcs.push(Arc { source: link, target: random.below(links + 1), weight: weight(random), labels });
        }
    }
    let states = states(random, links + 1);
    let pairs = (0..pair_count as u64).map(|pair| (2 * pair + 1, 2 * pair + 2)).collect();
    Shape { automaton: Automaton { tapes: 2 * pair_count, states, arcs }, pairs, limit: good_limit(random) }
}

/// Rising places that cut `length` symbols into `pieces`, from 0 to `length`.
pub fn cuts(random: &mut Random, length: usize, pieces: usize) -> Vec<usize> {
    let mut cuts: Vec<usize> = (1..pieces).map(|_| random.below(length + 1)).collect();
    cuts.extend([0, length]);
    cuts.sort_unstable();
    cuts
}

/// Words written on one tape, carried along a corridor of empty arcs, and closed on the other tape. Reached are words x corridor
/// configurations and two more; the arcs between them are made many by repeating the corridor's arcs and the first opening one.
/// Aimed at the edges of 8 and 9.
fn corridor_case(random: &mut Random) -> Shape {
    let words = random.range(1, 8);
    let corridor = (random.pick(&[20, 40, 62, 62, 62, 64]) / words).max(1) + random.below(2);
    let links = words * (corridor - 1);
    let (mut repeats, mut openings) = (1, 1);
    if links > 0 && words > 2 && random.chance(50) {
        let spare = random.range(511, 514) - 2 * words;
        repeats = spare / links;
        openings += spare % links;
    }
    let mut arcs = corridor_arcs(words, corridor, repeats, openings);
    arcs.truncate(512);
    let mut states = vec![State::default(); corridor + 2];
    states[0].initial = Some(0);
    states[corridor + 1].final_weight = optional_weight(random, 95);
    if random.chance(40) {
        for _ in 0..random.below(3) {
            let state = random.below(states.len());
            states[state] = State { initial: optional_weight(random, 50), final_weight: optional_weight(random, 50) };
        }
    }
    let limit = random.pick(&[1, 2, 2, 2, 3, 64]);
    let pairs = vec![if random.chance(50) { (1, 2) } else { (2, 1) }];
    Shape { automaton: Automaton { tapes: 2, states, arcs }, pairs, limit }
}

/// The arcs of a corridor: the words written (the first of them `openings` times), carried, and closed.
pub fn corridor_arcs(words: usize, corridor: usize, repeats: usize, openings: usize) -> Vec<Arc> {
    let word_of = |number: usize| vec![b'A' + (number / 3) as u8, b'0' + (number % 3) as u8];
    let opening =
        |number: usize| Arc { source: 0, target: 1, weight: number as u64, labels: vec![word_of(number), Label::new()] };
    let mut arcs = vec![opening(0); openings];
    arcs.extend((1..words).map(opening));
    for link in 1..corridor {
        arcs.extend(vec![Arc { source: link, target: link + 1, weight: 0, labels: vec![Label::new(), Label::new()] }; repeats]);
    }
    arcs.extend((0..words).map(|number| Arc {
        source: corridor,
        target: corridor + 1,
        weight: 1,
        labels: vec![Label::new(), word_of(number)],
    }));
    arcs
}

/// Tables whose delay loops grow on one side and shrink on the other, with steps of several sizes: many give 10, some give 8.
fn growing_case(random: &mut Random) -> Shape {
    let (rise, fall) = (random.range(1, 4), random.range(1, 4));
    let unary = |length: usize| vec![b'A'; length];
    let mut arcs = vec![
        Arc { source: 0, target: 0, weight: 1, labels: vec![unary(rise), Label::new()] },
        Arc { source: 0, target: 1, weight: 2, labels: vec![unary(random.below(3)), unary(random.below(3))] },
    ];
    if random.chance(60) {
        arcs.push(Arc { source: 1, target: 1, weight: 3, labels: vec![Label::new(), unary(fall)] });
    } else {
        arcs.push(Arc { source: 0, target: 1, weight: 3, labels: vec![Label::new(), unary(random.range(1, 8))] });
    }
    if random.chance(30) {
        arcs.push(Arc {
            source: 1,
            target: random.below(2),
            weight: 4,
            labels: vec![unary(random.below(3)), unary(random.below(3))],
        });
    }
    let states = vec![
        State { initial: Some(0), final_weight: optional_weight(random, 20) },
        State { initial: None, final_weight: Some(0) },
    ];
    let limit = random.pick(&[0, 1, 2, 5, 15, 20, 29, 30, 31, 32, 33, 63, 64]);
    Shape { automaton: Automaton { tapes: 2, states, arcs: random.shuffled(&arcs) }, pairs: vec![(1, 2)], limit }
}

/// One of document 01's worked tables, sometimes with a few arcs altered.
fn worked_case(random: &mut Random) -> Shape {
    let (mut automaton, pair) = random.pick(&[(p(), (1, 3)), (q(), (1, 2)), (r(), (1, 2)), (s(), (1, 2))]);
    for _ in 0..random.below(3) {
        let at = random.below(automaton.arcs.len());
        let tape = random.below(automaton.tapes);
        automaton.arcs[at].labels[tape] = label(random, 2);
    }
    Shape { automaton, pairs: vec![pair], limit: good_limit(random) }
}

/// A table that fills what `agree` lends, or one past it, with many tapes: long texts.
fn full_case(random: &mut Random) -> Shape {
    let tapes = random.range(5, 8);
    let count = random.pick(&[1, 63, 64, 64, 65]);
    let arc_count = random.pick(&[400, 511, 512, 512, 513, 600]);
    let arc = |random: &mut Random| {
        let shared = label(random, 2);
        let labels = (0..tapes).map(|_| if random.chance(90) { shared.clone() } else { label(random, 2) }).collect();
        Arc { source: random.below(count), target: random.below(count), weight: weight(random), labels }
    };
    let arcs = (0..arc_count).map(|_| arc(random)).collect();
    let automaton = Automaton { tapes, states: states(random, count), arcs };
    let pairs = random_pairs(random, tapes);
    Shape { automaton, pairs, limit: good_limit(random) }
}

/// A table with copies of its only pair: its labels with each symbol so many times, sometimes the tapes exchanged. A
/// copy's leftovers are so many times as long. Now and then a label is altered.
fn with_copies(random: &mut Random, mut shape: Shape) -> Shape {
    let (first, second) = pair_of(shape.pairs[0]);
    let tapes = &mut shape.automaton.tapes;
    let lengths = shape.automaton.arcs.iter().flat_map(|arc| [arc.labels[first - 1].len(), arc.labels[second - 1].len()]);
    let most = (MOST_LABEL / lengths.max().unwrap_or(0).max(1)).min(4);
    let noise = random.pick(&[0, 0, 0, 5]);
    for _ in 0..random.pick(&[1, 1, 2, 3]).min((8 - *tapes) / 2) {
        let times = random.range(1, most);
        let (one, two) = if random.chance(50) { (first, second) } else { (second, first) };
        for arc in &mut shape.automaton.arcs {
            for tape in [one, two] {
                let copy = arc.labels[tape - 1].iter().flat_map(|&symbol| vec![symbol; times]).collect();
                arc.labels.push(if random.chance(noise) { label(random, 2) } else { copy });
            }
        }
        shape.pairs.push((*tapes as u64 + 1, *tapes as u64 + 2));
        *tapes += 2;
    }
    shape.pairs = random.shuffled(&shape.pairs);
    shape
}

/// The table with every label written otherwise; sometimes a few arcs stand there twice, in two writings.
pub fn rewrite(random: &mut Random, automaton: &mut Automaton) {
    for label in automaton.arcs.iter_mut().flat_map(|arc| &mut arc.labels) {
        *label = rewritten(random, label);
    }
    let twice = if random.chance(50) { random.range(1, 4).min(automaton.arcs.len()) } else { 0 };
    for _ in 0..twice.min(512_usize.saturating_sub(automaton.arcs.len())) {
        let mut arc = random.pick(&automaton.arcs);
        arc.labels = arc.labels.iter().map(|label| respelled(random, label)).collect();
        arc.weight = weight(random);
        let place = random.below(automaton.arcs.len() + 1);
        automaton.arcs.insert(place, arc);
    }
}

/// A case of a shape: sometimes with copies of its pair, sometimes written otherwise, each pair with a limit.
fn limited_case(random: &mut Random, mut shape: Shape) -> Case {
    if shape.pairs.len() == 1 && random.chance(35) {
        shape = with_copies(random, shape);
    }
    if random.chance(35) {
        rewrite(random, &mut shape.automaton);
    }
    let pairs: Vec<Pair> = shape.pairs.iter().copied().map(pair_of).collect();
    let limits = limits(random, &shape.automaton, &pairs, shape.limit);
    Case { automaton: shape.automaton, pairs: records_of(&shape.pairs, &limits) }
}

/// A valid table with pairs and limits of one of the shapes.
pub fn case(random: &mut Random) -> Case {
    let shape = match random.below(200) {
        0..=99 => graph_case(random),
        100..=139 => chain_case(random),
        140..=159 => corridor_case(random),
        160..=177 => growing_case(random),
        178..=197 => worked_case(random),
        _ => full_case(random),
    };
    limited_case(random, shape)
}

/// A valid small table with pairs and limits, for checks that follow every path.
pub fn small_case(random: &mut Random) -> Case {
    loop {
        let shape = match random.below(3) {
            0 => chain_case(random),
            1 => worked_case(random),
            _ => graph_case(random),
        };
        if shape.automaton.arcs.len() <= 14 && shape.automaton.states.len() <= 9 {
            return limited_case(random, shape);
        }
    }
}

/// The input of `agree` for a case.
pub fn input_of(case: &Case) -> Vec<u8> {
    [pair_line(&case.pairs), write(&case.automaton)].concat()
}

/// An input of `agree`: most are good, some have bad pairs or bad limits, some are damaged texts.
pub fn agree_input(random: &mut Random) -> Vec<u8> {
    if random.chance(2) {
        return damage::stray_input(random);
    }
    let mut case = case(random);
    let tapes = case.automaton.tapes;
    if random.chance(6) {
        let pairs = random_pairs(random, tapes);
        let limits: Vec<u64> = pairs.iter().map(|_| good_limit(random)).collect();
        case.pairs = records_of(&pairs, &limits);
    }
    if random.chance(14) {
        case.pairs = faulty(random, &case.pairs, tapes, tapes);
    }
    if random.chance(30) {
        damage::damaged_input(random, &case)
    } else {
        input_of(&case)
    }
}
