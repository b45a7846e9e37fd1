//! The second implementation against plain definitions on random tables: every path followed, rounds of relaxation, lists.

use std::collections::{BTreeMap, BTreeSet};
use tomchoen_tests::accounts::{accounts, path_count, Account};
use tomchoen_tests::automaton::{Arc, Automaton, Room, State};
use tomchoen_tests::closing::{arc_delay, closing_delays};
use tomchoen_tests::columns::{drop_tapes, project, union};
use tomchoen_tests::forecast::{forecast, Forecast};
use tomchoen_tests::forecast_cases::forecast_case;
use tomchoen_tests::generate::{small_case, Case};
use tomchoen_tests::intersect::intersect;
use tomchoen_tests::join::join;
use tomchoen_tests::lookup::lookup;
use tomchoen_tests::pair_lists::random_pairs;
use tomchoen_tests::pairs::{limited, pair_of, LimitedPair, Pair, MOST_LIMIT};
use tomchoen_tests::product::product;
use tomchoen_tests::random::Random;
use tomchoen_tests::reading::marks;
use tomchoen_tests::refusal::Refusal;
use tomchoen_tests::sample::table;
use tomchoen_tests::text::{read, write};
use tomchoen_tests::word_for_word::{keep_with_own_limits, relaxed};

/// The pairs of a case with their limits.
fn pairs_of(case: &Case) -> Vec<LimitedPair> {
    limited(&case.pairs)
}

/// Pairs with the greatest limit each.
fn at_most_limit(pairs: &[Pair]) -> Vec<LimitedPair> {
    pairs.iter().map(|&pair| (pair, MOST_LIMIT)).collect()
}

/// The greatest number of arcs, at most `most`, for which a table's paths are few.
fn affordable(automaton: &Automaton, most: usize) -> usize {
    (1..=most).rev().find(|&arcs| path_count(automaton, arcs, 1_500) < 1_500).unwrap_or(0)
}

#[test]
fn closing_delays_by_relaxation() {
    for seed in 0..3_000 {
        let case = small_case(&mut Random::new(seed));
        for (pair, _) in pairs_of(&case) {
            assert_eq!(closing_delays(&case.automaton, pair), relaxed(&case.automaton, pair), "seed {seed}");
        }
    }
}

#[test]
fn keeping_word_for_word() {
    for seed in 0..4_000 {
        let mut random = Random::new(seed);
        let case = small_case(&mut random);
        let room = Room { states: random.pick(&[0, 1, 3, 8, 20, 64, 200]), arcs: random.pick(&[0, 2, 8, 30, 200, 512]) };
        let pairs = pairs_of(&case);
        let ours = intersect(&case.automaton, &pairs, room);
        assert_eq!(ours, keep_with_own_limits(&case.automaton, &pairs, room), "seed {seed}");
    }
}

#[test]
fn keeping_keeps_the_accounts_that_agree() {
    let mut kept_some = 0;
    for seed in 0..3_000 {
        let case = small_case(&mut Random::new(seed));
        let pairs = pairs_of(&case);
        let Ok(kept) = intersect(&case.automaton, &pairs, Room::AMPLE) else { continue };
        let most = affordable(&case.automaton, 7);
        let equal = |account: &Account, (first, second): Pair| marks(&account.0[first - 1]) == marks(&account.0[second - 1]);
        let agrees = |account: &Account| pairs.iter().all(|&(pair, _)| equal(account, pair));
        let expected: Vec<Account> = accounts(&case.automaton, most).into_iter().filter(agrees).collect();
        kept_some += usize::from(!expected.is_empty());
        assert_eq!(accounts(&kept, most), expected, "seed {seed}");
    }
    assert!(kept_some > 500, "only {kept_some} tables kept something");
}

#[test]
fn results_are_trimmed() {
    for seed in 0..2_000 {
        let case = small_case(&mut Random::new(seed));
        let Ok(kept) = intersect(&case.automaton, &pairs_of(&case), Room::AMPLE) else { continue };
        assert!(kept.coaccessible().iter().all(|&marked| marked), "seed {seed}");
        assert_eq!(intersect(&kept, &[], Room::AMPLE), Ok(kept), "seed {seed}");
    }
}

/// A small table of one or two tapes with small weights, for products.
fn light_table(random: &mut Random) -> Automaton {
    loop {
        let case = small_case(random);
        let chosen: Vec<u64> = (1..=case.automaton.tapes.min(2) as u64).collect();
        let mut automaton = project(&case.automaton, &chosen, Room::AMPLE).unwrap();
        if automaton.arcs.len() <= 6 {
            automaton.arcs.iter_mut().for_each(|arc| arc.weight %= 1_000);
            for state in &mut automaton.states {
                *state = State {
                    initial: state.initial.map(|weight| weight % 1_000),
                    final_weight: state.final_weight.map(|weight| weight % 1_000),
                };
            }
            return automaton;
        }
    }
}

/// All pairs of accounts joined, the weights added.
fn pairs_of_accounts(first: &[Account], second: &[Account]) -> Vec<Account> {
    let pair = |one: &Account, two: &Account| ([one.0.clone(), two.0.clone()].concat(), one.1 + two.1);
    let mut found: Vec<Account> = first.iter().flat_map(|one| second.iter().map(move |two| pair(one, two))).collect();
    found.sort();
    found
}

#[test]
fn a_product_pairs_all_accounts() {
    for seed in 0..1_500 {
        let mut random = Random::new(seed);
        let (first, second) = (light_table(&mut random), light_table(&mut random));
        let both = product(&first, &second, Room::AMPLE).unwrap();
        let most = affordable(&both, 5);
        assert_eq!(accounts(&both, most), pairs_of_accounts(&accounts(&first, most), &accounts(&second, most)), "seed {seed}");
    }
}

/// A product word for word (004, 6.1) with a list searched from its start, in the order of request 2.2; `None` is past the end.
fn listed_product(first: &Automaton, second: &Automaton) -> Automaton {
    type Node = (Option<usize>, Option<usize>);
    let mut nodes: Vec<Node> = Vec::new();
    let mut result = Automaton::empty(first.tapes + second.tapes);
    for (x, one) in first.states.iter().enumerate() {
        for (y, two) in second.states.iter().enumerate() {
            if one.initial.is_some() && two.initial.is_some() {
                nodes.push((Some(x), Some(y)));
            }
        }
    }
    let starts = nodes.len();
    let end = |automaton: &Automaton, place: Option<usize>| place.map_or(Some(0), |state| automaton.states[state].final_weight);
    let out = |automaton: &Automaton, place: Option<usize>| -> Vec<Arc> {
        automaton.arcs.iter().filter(|arc| Some(arc.source) == place).cloned().collect()
    };
    let mut taken = 0;
    while taken < nodes.len() {
        let (x, y) = nodes[taken];
        let mut moves: Vec<(Node, u64, Vec<Vec<u8>>)> = Vec::new();
        for one in out(first, x) {
            for two in out(second, y) {
                moves.push((
                    (Some(one.target), Some(two.target)),
                    one.weight + two.weight,
                    [one.labels.clone(), two.labels].concat(),
                ));
            }
        }
        if let Some(end) = end(first, x) {
            moves.extend(
                out(second, y).into_iter().map(|two| {
                    ((None, Some(two.target)), end + two.weight, [vec![Vec::new(); first.tapes], two.labels].concat())
                }),
            );
        }
        if let Some(end) = end(second, y) {
            moves.extend(
                out(first, x).into_iter().map(|one| {
                    ((Some(one.target), None), end + one.weight, [one.labels, vec![Vec::new(); second.tapes]].concat())
                }),
            );
        }
        for (target, weight, labels) in moves {
            let place = nodes.iter().position(|node| *node == target).unwrap_or(nodes.len());
            if place == nodes.len() {
                nodes.push(target);
            }
            result.arcs.push(Arc { source: taken, target: place, weight, labels });
        }
        let initial = |x: Option<usize>, y: Option<usize>| Some(first.states[x?].initial? + second.states[y?].initial?);
        result.states.push(State {
            initial: initial(x, y).filter(|_| taken < starts),
            final_weight: end(first, x).and_then(|left| Some(left + end(second, y)?)),
        });
        taken += 1;
    }
    result
}

#[test]
fn a_product_word_for_word() {
    for seed in 0..1_500 {
        let mut random = Random::new(seed);
        let (first, second) = (light_table(&mut random), light_table(&mut random));
        let expected = listed_product(&first, &second);
        let (states, arcs) = (expected.states.len() as u64, expected.arcs.len() as u64);
        assert_eq!(product(&first, &second, Room { states, arcs }), Ok(expected), "seed {seed}");
        if states > 0 {
            assert_eq!(product(&first, &second, Room { states: states - 1, arcs: 0 }), Err(Refusal::StatesFull), "seed {seed}");
        }
        if arcs > 0 {
            assert_eq!(product(&first, &second, Room { states, arcs: arcs - 1 }), Err(Refusal::ArcsFull), "seed {seed}");
        }
    }
}

/// Two small tables and pairs to join them on.
fn tables_to_join(random: &mut Random) -> (Automaton, Automaton, Vec<Pair>) {
    let (first, second) = (light_table(random), light_table(random));
    let most = first.tapes.min(second.tapes);
    let pairs = (1..=random.below(most + 1)).map(|tape| (tape, most + 1 - tape)).collect();
    (first, second, pairs)
}

#[test]
fn a_join_gives_the_meetings() {
    for seed in 0..1_500 {
        let mut random = Random::new(seed);
        let (first, second, pairs) = tables_to_join(&mut random);
        let Ok(joined) = join(&first, &second, &at_most_limit(&pairs), Room::AMPLE, Room::AMPLE) else { continue };
        let most = affordable(&product(&first, &second, Room::AMPLE).unwrap(), 5);
        let equal = |one: &[u8], two: &[u8]| marks(one) == marks(two);
        let meets = |account: &Account| pairs.iter().all(|&(i, j)| equal(&account.0[i - 1], &account.0[first.tapes + j - 1]));
        let shorten = |account: Account| {
            let dropped = |tape: usize| pairs.iter().any(|&(_, j)| first.tapes + j == tape + 1);
            (account.0.into_iter().enumerate().filter(|(tape, _)| !dropped(*tape)).map(|(_, string)| string).collect(), account.1)
        };
        let all = pairs_of_accounts(&accounts(&first, most), &accounts(&second, most));
        let mut expected: Vec<Account> = all.into_iter().filter(meets).map(shorten).collect();
        expected.sort();
        assert_eq!(accounts(&joined, most), expected, "seed {seed}");
    }
}

#[test]
fn a_join_step_by_step() {
    let mut joins = 0;
    for seed in 0..1_500 {
        let mut random = Random::new(seed);
        let (first, second, pairs) = tables_to_join(&mut random);
        let Ok(joined) = join(&first, &second, &at_most_limit(&pairs), Room::AMPLE, Room::AMPLE) else { continue };
        let at: Vec<Pair> = pairs.iter().map(|&(i, j)| (i, first.tapes + j)).collect();
        let kept = keep_with_own_limits(&listed_product(&first, &second), &at_most_limit(&at), Room::AMPLE).unwrap();
        let left: Vec<usize> = (1..=kept.tapes).filter(|&tape| !at.iter().any(|pair| pair.1 == tape)).collect();
        assert_eq!(text(&joined), chosen_text(&kept, &left), "seed {seed}");
        joins += usize::from(!pairs.is_empty() && !joined.arcs.is_empty());
    }
    assert!(joins > 100, "only {joins} joins with arcs");
}

#[test]
fn a_lookup_gives_the_least_weight() {
    let mut found_some = 0;
    for seed in 0..1_500 {
        let mut random = Random::new(seed);
        let mut automaton = small_case(&mut random).automaton;
        automaton.arcs.retain(|arc| arc.labels.iter().any(|label| !label.is_empty()));
        let most = affordable(&automaton, 4);
        let mut least: BTreeMap<Vec<Vec<u8>>, u64> = BTreeMap::new();
        for (tuple, weight) in accounts(&automaton, most) {
            let entry = least.entry(tuple).or_insert(weight);
            *entry = (*entry).min(weight);
        }
        for (tuple, &weight) in least.iter().filter(|(tuple, _)| tuple.iter().map(Vec::len).sum::<usize>() <= most) {
            found_some += 1;
            assert_eq!(lookup(&automaton, tuple), Some(weight), "seed {seed}");
            let mut other = tuple.clone();
            other[0].push(b'A');
            if other.iter().map(Vec::len).sum::<usize>() <= most {
                assert_eq!(lookup(&automaton, &other), least.get(&other).copied(), "seed {seed}");
            }
        }
    }
    assert!(found_some > 300, "only {found_some} tuples found");
}

#[test]
fn a_lookup_through_empty_arcs() {
    let weights = [(Some(5), None), (None, Some(7)), (None, Some(999_999_999))];
    let automaton = table(1, &weights, &[(0, 0, 0, &[""]), (0, 2, 1, &[""]), (2, 1, 1, &["A"]), (0, 1, 90, &["A"])]);
    assert_eq!(lookup(&automaton, &vec![b"A".to_vec()]), Some(14));
    assert_eq!(lookup(&automaton, &vec![Vec::new()]), Some(1_000_000_005));
    assert_eq!(lookup(&automaton, &vec![b"AA".to_vec()]), None);
}

/// The text of a table.
fn text(automaton: &Automaton) -> String {
    String::from_utf8(write(automaton)).unwrap()
}

/// The lines of a table's text: those of the states and those of the arcs.
fn state_and_arc_lines(automaton: &Automaton) -> (Vec<String>, Vec<String>) {
    let lines: Vec<String> = text(automaton).lines().skip(1).map(str::to_string).collect();
    let (states, arcs) = lines.split_at(automaton.states.len());
    (states.to_vec(), arcs.to_vec())
}

/// A text from its tapes and lines.
fn text_of_lines(tapes: usize, states: &[String], arcs: &[String]) -> String {
    let header = format!("{tapes:>3}{:>6}{:>6}", states.len(), arcs.len());
    [&[header][..], states, arcs].concat().iter().map(|line| format!("{line}\n")).collect()
}

/// The text of a union: the lines of both tables as they stand, the second's arcs with their states counted on.
fn united_text(first: &Automaton, second: &Automaton) -> String {
    let ((states, arcs), (more_states, more_arcs)) = (state_and_arc_lines(first), state_and_arc_lines(second));
    let counted_on = |line: &String| {
        let state = |at: usize| line[at..at + 6].trim().parse::<usize>().unwrap() + states.len();
        format!("{:>6}{:>6}{}", state(0), state(6), &line[12..])
    };
    let more_arcs: Vec<String> = more_arcs.iter().map(counted_on).collect();
    text_of_lines(first.tapes, &[&states[..], &more_states].concat(), &[&arcs[..], &more_arcs].concat())
}

/// The text of a table with chosen tapes: its lines as they stand, each with the columns of those tapes.
fn chosen_text(automaton: &Automaton, tapes: &[usize]) -> String {
    let (states, arcs) = state_and_arc_lines(automaton);
    let chosen = |line: &String| {
        let labels = tapes.iter().map(|tape| &line[13 + 9 * tape..22 + 9 * tape]);
        [&line[..22]].into_iter().chain(labels).collect::<String>()
    };
    text_of_lines(tapes.len(), &states, &arcs.iter().map(chosen).collect::<Vec<String>>())
}

#[test]
fn union_choosing_and_dropping() {
    for seed in 0..1_000 {
        let mut random = Random::new(seed);
        let (first, second) = (small_case(&mut random).automaton, small_case(&mut random).automaton);
        let most = affordable(&first, 4).min(affordable(&second, 4));
        let both = union(&first, &second, Room::AMPLE);
        if first.tapes == second.tapes {
            let both = both.unwrap();
            let mut expected = [accounts(&first, most), accounts(&second, most)].concat();
            expected.sort();
            assert_eq!(accounts(&both, most), expected, "seed {seed}");
            assert_eq!(text(&both), united_text(&first, &second), "seed {seed}");
        } else {
            assert_eq!(both, Err(Refusal::Tape));
        }
        let tapes: Vec<usize> = (0..random.range(1, 8)).map(|_| random.range(1, first.tapes)).collect();
        let chosen = project(&first, &tapes.iter().map(|&tape| tape as u64).collect::<Vec<u64>>(), Room::AMPLE);
        assert_eq!(text(&chosen.unwrap()), chosen_text(&first, &tapes), "seed {seed}");
        let marked = random.below(1 << first.tapes) as u8;
        let left: Vec<usize> = (1..=first.tapes).filter(|tape| marked & (1 << (tape - 1)) == 0).collect();
        let dropped = drop_tapes(&first, marked, Room::AMPLE);
        let expected = if left.is_empty() { Err(Refusal::Tape) } else { Ok(chosen_text(&first, &left)) };
        assert_eq!(dropped.map(|dropped| text(&dropped)), expected, "seed {seed}");
    }
}

#[test]
fn reading_and_writing_are_inverse() {
    for seed in 0..2_000 {
        let mut random = Random::new(seed);
        let automaton = small_case(&mut random).automaton;
        assert_eq!(read(&write(&automaton), Room::AMPLE), Ok(automaton));
    }
}

#[test]
fn some_pairs_first() {
    for seed in 0..1_500 {
        let mut random = Random::new(seed);
        let case = small_case(&mut random);
        let all: Vec<Pair> = random_pairs(&mut random, case.automaton.tapes).into_iter().map(pair_of).collect();
        let (one, rest) = all.split_at(random.below(all.len() + 1));
        let keep = |automaton: &Automaton, pairs: &[Pair]| intersect(automaton, &at_most_limit(pairs), Room::AMPLE);
        let (Ok(at_once), Ok(first)) = (keep(&case.automaton, &all), keep(&case.automaton, one)) else { continue };
        let Ok(then) = keep(&first, rest) else { continue };
        let most = affordable(&case.automaton, 6);
        assert_eq!(accounts(&then, most), accounts(&at_once, most), "seed {seed}");
        // the same configurations are kept, and they are reached in the same order
        assert_eq!(then, at_once, "seed {seed}");
    }
}

/// A table with its states renumbered: state s becomes `numbers[s]`.
fn renumbered(automaton: &Automaton, numbers: &[usize]) -> Automaton {
    let mut result = automaton.clone();
    for (state, &number) in automaton.states.iter().zip(numbers) {
        result.states[number] = *state;
    }
    for arc in &mut result.arcs {
        (arc.source, arc.target) = (numbers[arc.source], numbers[arc.target]);
    }
    result
}

/// A table with its states and arcs in a random order; an initial weight tells its state and an arc's weight its arc,
/// counted from 1, both times `unit`. Final weights are 0.
fn told_by_weights(random: &mut Random, automaton: &Automaton, unit: u64) -> Automaton {
    let numbers = random.shuffled(&(0..automaton.states.len()).collect::<Vec<usize>>());
    let mut mixed = renumbered(automaton, &numbers);
    mixed.arcs = random.shuffled(&mixed.arcs);
    for (number, state) in (0..).zip(&mut mixed.states) {
        state.initial = state.initial.map(|_| number * unit);
        state.final_weight = state.final_weight.map(|_| 0);
    }
    for (number, arc) in (1..).zip(&mut mixed.arcs) {
        arc.weight = number * unit;
    }
    mixed
}

/// What is wrong with the order of a table by the words of request 2.2, if anything is. Initial weights are to rise in
/// the order of initial states, and `key` of an arc's weight in the order of a state's arcs.
fn wrong_order<K: Ord>(table: &Automaton, key: impl Fn(u64) -> K) -> Option<&'static str> {
    let initial: Vec<Option<u64>> = table.states.iter().map(|state| state.initial).collect();
    let starts = initial.iter().take_while(|weight| weight.is_some()).count();
    let first_arc = |state: usize| {
        let arcs = table.arcs.iter().enumerate().filter(|(_, arc)| arc.target == state);
        arcs.map(|(place, arc)| (arc.source, place)).min()
    };
    let reached: Vec<(usize, Option<(usize, usize)>)> =
        (starts..table.states.len()).map(|state| (state, first_arc(state))).collect();
    let place = |arc: &Arc| (arc.source, key(arc.weight));
    let rules = [
        (initial[starts..].iter().all(Option::is_none), "an initial state after one that is not"),
        (initial[..starts].windows(2).all(|two| two[0] < two[1]), "initial states not by input number"),
        (reached.iter().all(|(state, arc)| arc.is_some_and(|arc| arc.0 < *state)), "a state reached from a later one"),
        (reached.windows(2).all(|two| two[0].1 < two[1].1), "states not in the order first reached"),
        (table.arcs.windows(2).all(|two| two[0].source <= two[1].source), "arcs not by source state"),
        (table.arcs.windows(2).all(|two| place(&two[0]) < place(&two[1])), "arcs of a state not by input arc"),
    ];
    rules.into_iter().find(|(holds, _)| !holds).map(|(_, wrong)| wrong)
}

/// The table in other orders: two states exchanged, the arcs by source state again; an arc and the next exchanged.
fn other_orders(random: &mut Random, table: &Automaton) -> Vec<Automaton> {
    let mut others = Vec::new();
    if table.states.len() > 1 {
        let numbers: Vec<usize> = (0..table.states.len()).collect();
        let two = random.shuffled(&numbers);
        let mut exchanged = numbers.clone();
        exchanged.swap(two[0], two[1]);
        let mut other = renumbered(table, &exchanged);
        other.arcs.sort_by_key(|arc| arc.source);
        others.push(other);
    }
    if table.arcs.len() > 1 {
        let mut other = table.clone();
        let at = random.below(table.arcs.len() - 1);
        other.arcs.swap(at, at + 1);
        others.push(other);
    }
    others
}

/// Checks the order of a table, and that no other order passes; how many others were tried.
fn check_order<K: Ord>(random: &mut Random, table: &Automaton, key: impl Fn(u64) -> K, seed: u64) -> usize {
    assert_eq!(wrong_order(table, &key), None, "seed {seed}");
    let others = other_orders(random, table);
    for other in &others {
        assert!(wrong_order(other, &key).is_some(), "seed {seed}");
    }
    others.len()
}

#[test]
fn built_tables_in_the_order_of_request_2_2() {
    let mut others = 0;
    for seed in 0..4_000 {
        let mut random = Random::new(seed);
        let case = small_case(&mut random);
        let automaton = told_by_weights(&mut random, &case.automaton, 1);
        let Ok(kept) = intersect(&automaton, &pairs_of(&case), Room::AMPLE) else { continue };
        others += check_order(&mut random, &kept, |weight| weight, seed);
    }
    assert!(others > 2_000, "only {others} other orders");
}

#[test]
fn products_and_joins_in_the_order_of_request_2_2() {
    // the weight tells the arcs: those of both come first, then those after the first's end, then after the second's
    let key = |weight: u64| match (weight / 100, weight % 100) {
        (0, second) => (1, 0, second),
        (first, 0) => (2, first, 0),
        (first, second) => (0, first, second),
    };
    let (mut others, mut joins) = (0, 0);
    for seed in 0..2_000 {
        let mut random = Random::new(seed);
        let (first, second, pairs) = tables_to_join(&mut random);
        let (first, second) = (told_by_weights(&mut random, &first, 100), told_by_weights(&mut random, &second, 1));
        others += check_order(&mut random, &product(&first, &second, Room::AMPLE).unwrap(), key, seed);
        if let Ok(joined) = join(&first, &second, &at_most_limit(&pairs), Room::AMPLE, Room::AMPLE) {
            joins += check_order(&mut random, &joined, key, seed);
        }
    }
    assert!(others > 2_000 && joins > 1_000, "only {others} other orders of products, {joins} of joins");
}

/// Whether some successful path shares a state with each of two sets of states: a search over the last state of a path and which of
/// the sets it has touched.
fn touches(automaton: &Automaton, sets: [&[bool]; 2]) -> bool {
    let after = |touched: [bool; 2], state: usize| [touched[0] || sets[0][state], touched[1] || sets[1][state]];
    let starts = (0..automaton.states.len()).filter(|&state| automaton.states[state].initial.is_some());
    let mut paths: Vec<(usize, [bool; 2])> = starts.map(|state| (state, after([false; 2], state))).collect();
    let mut taken = 0;
    while taken < paths.len() {
        let (state, touched) = paths[taken];
        if touched == [true; 2] && automaton.states[state].final_weight.is_some() {
            return true;
        }
        for arc in automaton.arcs.iter().filter(|arc| arc.source == state) {
            let next = (arc.target, after(touched, arc.target));
            if !paths.contains(&next) {
                paths.push(next);
            }
        }
        taken += 1;
    }
    false
}

/// Whether some successful path has a state.
fn on_successful_path(automaton: &Automaton, state: usize) -> bool {
    let set: Vec<bool> = (0..automaton.states.len()).map(|other| other == state).collect();
    touches(automaton, [&set, &set])
}

/// Whether some successful path has an arc: the arc is cut in two, and the state between asked for.
fn arc_on_successful_path(automaton: &Automaton, number: usize) -> bool {
    let mut cut = automaton.clone();
    let between = cut.states.len();
    cut.states.push(State::default());
    cut.arcs.push(Arc { source: between, ..cut.arcs[number].clone() });
    cut.arcs[number].target = between;
    on_successful_path(&cut, between)
}

/// The cycles without a state twice, as their states and the sign of their delay: every run of arcs from its least state is followed
/// until it comes back to a state. `None` where the runs are many.
fn simple_cycles(automaton: &Automaton, pair: Pair) -> Option<BTreeSet<(Vec<bool>, i64)>> {
    let mut cycles = BTreeSet::new();
    let mut runs = 0;
    for start in 0..automaton.states.len() {
        let mut stack = vec![(start, vec![false; automaton.states.len()], 0)];
        while let Some((state, mut passed, delay)) = stack.pop() {
            runs += 1;
            if runs > 20_000 {
                return None;
            }
            passed[state] = true;
            for arc in automaton.arcs.iter().filter(|arc| arc.source == state) {
                let delay = delay + arc_delay(&arc.labels, pair);
                if arc.target == start {
                    cycles.insert((passed.clone(), delay.signum()));
                } else if arc.target > start && !passed[arc.target] {
                    stack.push((arc.target, passed.clone(), delay));
                }
            }
        }
    }
    Some(cycles)
}

/// Mixed, word for word, with cycles that have no state twice; `None` where there are too many runs to follow.
fn mixed_by_simple_cycles(automaton: &Automaton, pair: Pair) -> Option<bool> {
    let cycles = simple_cycles(automaton, pair)?;
    let of_sign = |sign: i64| cycles.iter().filter(move |cycle| cycle.1 == sign);
    Some(of_sign(1).any(|one| of_sign(-1).any(|two| touches(automaton, [&one.0, &two.0]))))
}

/// The states on some closed run whose delay has a sign: from each state the greatest delays of runs of so many arcs that a cycle
/// can make up for the way to it and back.
fn on_closed_runs(automaton: &Automaton, pair: Pair, sign: i64) -> Vec<bool> {
    let count = automaton.states.len();
    let on_closed_run = |state: usize| {
        let mut greatest: Vec<Option<i64>> = vec![None; count];
        greatest[state] = Some(0);
        (0..2 * count + 16 * count * count).any(|_| {
            let mut longer = vec![None; count];
            for arc in &automaton.arcs {
                let delay = greatest[arc.source].map(|delay| delay + sign * arc_delay(&arc.labels, pair));
                longer[arc.target] = longer[arc.target].max(delay);
            }
            greatest = longer;
            greatest[state] > Some(0)
        })
    };
    (0..count).map(on_closed_run).collect()
}

/// Mixed, word for word, with any closed runs for cycles: two such runs that a path touches may be taken to begin where it does.
fn mixed_by_closed_runs(automaton: &Automaton, pair: Pair) -> bool {
    let [rising, falling] = [1, -1].map(|sign| on_closed_runs(automaton, pair, sign));
    touches(automaton, [&rising, &falling])
}

/// The delay and the number of states of a pair that is not mixed, word for word; `None` is "over".
fn needs_word_for_word(automaton: &Automaton, pair: Pair) -> (u64, Option<u64>) {
    let states = (0..automaton.states.len()).filter(|&state| on_successful_path(automaton, state)).count() as u64;
    let arcs = (0..automaton.arcs.len()).filter(|&arc| arc_on_successful_path(automaton, arc));
    let sizes = arcs.map(|arc| arc_delay(&automaton.arcs[arc].labels, pair).unsigned_abs());
    let delay = if states == 0 { 0 } else { (states - 1) * sizes.max().unwrap_or(0) };
    let on_tape = |mark: u8, tape: usize| automaton.arcs.iter().any(|arc| marks(&arc.labels[tape - 1]).contains(&mark));
    let symbols = (b'A'..=b'Z').chain(b'0'..=b'9').filter(|&mark| on_tape(mark, pair.0) || on_tape(mark, pair.1)).count();
    let mut leftovers = vec![1_u128];
    for length in 1..=delay as u32 {
        let words = (symbols as u128).checked_pow(length).filter(|&words| words <= 65_535);
        leftovers.push(2 * words.unwrap_or(65_536));
    }
    let number = automaton.states.len() as u128 * leftovers.iter().sum::<u128>();
    (delay, (number <= 65_535).then_some(number as u64))
}

/// A table and pairs for a forecast, of few states and arcs.
fn small_forecast_case(random: &mut Random) -> (Automaton, Vec<Pair>) {
    loop {
        let (automaton, pairs) = forecast_case(random);
        if automaton.states.len() <= 40 && automaton.arcs.len() <= 50 {
            return (automaton, pairs.into_iter().map(pair_of).collect());
        }
    }
}

#[test]
fn a_forecast_word_for_word() {
    let (mut mixed, mut over, mut long, mut passed_over) = (0, 0, 0, 0);
    for seed in 0..6_000 {
        let (automaton, pairs) = small_forecast_case(&mut Random::new(seed));
        for pair in pairs {
            let Some(is_mixed) = mixed_by_simple_cycles(&automaton, pair) else {
                passed_over += 1;
                continue;
            };
            let (delay, number) = needs_word_for_word(&automaton, pair);
            let expected = if is_mixed { Forecast::Mixed } else { Forecast::Needs { delay, number } };
            assert_eq!(forecast(&automaton, pair), expected, "seed {seed}");
            mixed += usize::from(is_mixed);
            over += usize::from(!is_mixed && number.is_none());
            long += usize::from(!is_mixed && delay > 64);
        }
    }
    println!("{mixed} mixed, {over} over, {long} above 64, {passed_over} passed over");
    assert!(mixed > 1_000 && over > 1_000 && long > 100 && passed_over < 60, "{mixed}, {over}, {long}, {passed_over}");
}

#[test]
fn any_closed_runs_for_cycles() {
    let mut mixed = 0;
    for seed in 0..6_000 {
        let (automaton, pairs) = small_forecast_case(&mut Random::new(seed));
        for pair in pairs.into_iter().filter(|_| automaton.states.len() <= 7) {
            let expected = mixed_by_closed_runs(&automaton, pair);
            assert_eq!(forecast(&automaton, pair) == Forecast::Mixed, expected, "seed {seed}");
            mixed += usize::from(expected);
        }
    }
    assert!(mixed > 500, "only {mixed} mixed");
}

#[test]
fn forecasts_of_turned_pairs_and_reversed_tables() {
    for seed in 0..4_000 {
        let (automaton, pairs) = small_forecast_case(&mut Random::new(seed));
        let mut reversed = automaton.clone();
        for state in &mut reversed.states {
            std::mem::swap(&mut state.initial, &mut state.final_weight);
        }
        for arc in &mut reversed.arcs {
            std::mem::swap(&mut arc.source, &mut arc.target);
        }
        for pair in pairs {
            assert_eq!(forecast(&automaton, (pair.1, pair.0)), forecast(&automaton, pair), "seed {seed}");
            assert_eq!(forecast(&reversed, pair), forecast(&automaton, pair), "seed {seed}");
        }
    }
}

#[test]
fn what_is_forecast_suffices_for_a_build() {
    let mut built = 0;
    for seed in 0..4_000 {
        let (automaton, pairs) = small_forecast_case(&mut Random::new(seed));
        for pair in pairs {
            let Forecast::Needs { delay: limit @ 0..=64, number: Some(states @ 0..=1_024) } = forecast(&automaton, pair) else {
                continue;
            };
            let arcs = states * automaton.arcs.len() as u64;
            let kept = intersect(&automaton, &[(pair, limit)], Room { states, arcs });
            assert!(kept.is_ok() || (kept == Err(Refusal::ArcsFull) && arcs > 8_192), "seed {seed}: {kept:?}");
            built += 1;
        }
    }
    assert!(built > 1_500, "only {built} tables built");
}
