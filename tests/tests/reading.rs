//! I read as 1, O as 0 (request 2.5): cases worked on paper, and random cases in which the reading decides.

use std::collections::{BTreeMap, BTreeSet};
use tomchoen_tests::accounts::{accounts, path_count};
use tomchoen_tests::automaton::{Arc, Automaton, Label, Room, Tuple};
use tomchoen_tests::forecast::{forecast, symbols_in_use, Forecast};
use tomchoen_tests::forecast_cases::forecast_case;
use tomchoen_tests::generate::small_case;
use tomchoen_tests::intersect::intersect;
use tomchoen_tests::join::join;
use tomchoen_tests::join_cases::{join_case, JoinCase};
use tomchoen_tests::lookup::lookup;
use tomchoen_tests::pairs::{limited, pair_of, LimitedPair};
use tomchoen_tests::path::path;
use tomchoen_tests::product::judge_width;
use tomchoen_tests::random::Random;
use tomchoen_tests::reading::{mark, marks, marks_of, read_labels};
use tomchoen_tests::refusal::Refusal;
use tomchoen_tests::requests::{outcome, request_of, Outcome, Request};
use tomchoen_tests::sample::{first_to_last, tuple};
use tomchoen_tests::text::{read, write};

/// The labels of a table's arcs, in their order.
fn labels(automaton: &Automaton) -> Vec<Tuple> {
    automaton.arcs.iter().map(|arc| arc.labels.clone()).collect()
}

#[test]
fn two_letters_are_read_as_digits() {
    let symbols = || (b'A'..=b'Z').chain(b'0'..=b'9');
    let other: Vec<(u8, u8)> = symbols().map(|symbol| (symbol, mark(symbol))).filter(|(one, two)| one != two).collect();
    assert_eq!(other, [(b'I', b'1'), (b'O', b'0')]);
}

#[test]
fn letters_meet_digits_on_either_tape() {
    let kept = [["I", "1"], ["1", "I"], ["O", "0"], ["0", "O"], ["I", "I"], ["0", "0"], ["OI10", "01IO"], ["AI", "A1"]];
    let dropped = [["I", "0"], ["1", "O"], ["O", "I"], ["I", "L"], ["O", "Q"], ["IO", "01"], ["I", "11"], ["1", ""]];
    for [first, second] in kept {
        let table = first_to_last(2, 2, &[(0, 1, 3, &[first, second])]);
        let built = intersect(&table, &[((1, 2), 0)], Room::AMPLE);
        assert_eq!(built.map(|built| labels(&built)), Ok(vec![tuple(&[first, second])]), "{first} and {second}");
    }
    for [first, second] in dropped {
        let table = first_to_last(2, 2, &[(0, 1, 3, &[first, second])]);
        let built = intersect(&table, &[((1, 2), 2)], Room::AMPLE);
        assert_eq!(built, Ok(Automaton::empty(2)), "{first} and {second}");
    }
}

#[test]
fn leftovers_wait_as_they_are_read() {
    // I and 1 leave the same leftover, so that the next state is reached once
    let ones = first_to_last(2, 3, &[(0, 1, 1, &["I", ""]), (0, 1, 2, &["1", ""]), (1, 2, 3, &["", "1"])]);
    let noughts = first_to_last(2, 3, &[(0, 1, 1, &["", "0"]), (0, 1, 2, &["", "O"]), (1, 2, 3, &["O", ""])]);
    for table in [ones, noughts] {
        let exact = Room { states: 3, arcs: 3 };
        assert_eq!(intersect(&table, &[((1, 2), 1)], exact), Ok(table.clone()));
        assert_eq!(intersect(&table, &[((1, 2), 1)], Room { states: 2, arcs: 3 }), Err(Refusal::StatesFull));
        assert_eq!(intersect(&table, &[((1, 2), 1)], Room { states: 3, arcs: 2 }), Err(Refusal::ArcsFull));
        assert_eq!(intersect(&table, &[((1, 2), 0)], exact), Err(Refusal::Delay));
    }
}

#[test]
fn a_join_copies_what_the_first_table_writes() {
    let letter = first_to_last(1, 2, &[(0, 1, 1, &["I"])]);
    let written = first_to_last(2, 2, &[(0, 1, 2, &["1", "X"]), (0, 1, 3, &["I", "Y"])]);
    let ample = |first: &Automaton, second: &Automaton| join(first, second, &[((1, 1), 0)], Room::AMPLE, Room::AMPLE).unwrap();
    let (one, two) = (ample(&letter, &written), ample(&written, &letter));
    assert_eq!(labels(&one), [tuple(&["I", "X"]), tuple(&["I", "Y"])]);
    assert_eq!(labels(&two), [tuple(&["1", "X"]), tuple(&["I", "Y"])]);
    // exchanged, a weight is another as it is written, and the same after reading
    let (as_written, marks) = (tuple(&["I", "X"]), tuple(&["1", "X"]));
    assert_eq!((lookup(&one, &as_written), lookup(&two, &as_written)), (Some(3), None));
    assert_eq!((lookup(&read_labels(&one), &marks), lookup(&read_labels(&two), &marks)), (Some(3), Some(3)));
}

#[test]
fn a_tuple_is_looked_up_as_written() {
    let table = first_to_last(1, 2, &[(0, 1, 4, &["I0"]), (0, 1, 2, &["10"]), (0, 1, 1, &["IO"])]);
    let weights = ["I0", "10", "IO", "1O"].map(|string| lookup(&table, &tuple(&[string])));
    assert_eq!(weights, [Some(4), Some(2), Some(1), None]);
    let arcs = ["I0", "10", "IO", "1O"].map(|string| path(&table, &tuple(&[string])).map(|path| path.arcs));
    assert_eq!(arcs, [Some(vec![0]), Some(vec![1]), Some(vec![2]), None]);
    assert_eq!(lookup(&read_labels(&table), &tuple(&["10"])), Some(1));
}

#[test]
fn a_text_keeps_what_is_written() {
    let table = first_to_last(2, 2, &[(0, 1, 4, &["I0", "1O"])]);
    assert_eq!(read(&write(&table), Room::AMPLE), Ok(table));
}

#[test]
fn a_forecast_counts_marks() {
    let swing = first_to_last(2, 2, &[(0, 1, 0, &["I", ""]), (1, 0, 0, &["", "1"])]);
    assert_eq!(symbols_in_use(&swing, (1, 2)), 1);
    // two states, a delay of 1, one symbol: 2 x (1 + 2)
    assert_eq!(forecast(&swing, (1, 2)), Forecast::Needs { delay: 1, number: Some(6) });
    // two states, a delay of 8: 2 x (1 + 2 x (2 + .. + 256)) with two marks, over with the four symbols written
    let four = |label: &str| first_to_last(2, 2, &[(0, 1, 0, &[label, ""]), (1, 1, 0, &["", "1"])]);
    assert_eq!(forecast(&four("I1O0I1O0"), (1, 2)), Forecast::Needs { delay: 8, number: Some(2_042) });
    assert_eq!(forecast(&four("A1B0A1B0"), (1, 2)), Forecast::Needs { delay: 8, number: None });
}

/// The greatest number of arcs, at most `most`, for which a table's paths are few.
fn affordable(automaton: &Automaton, most: usize) -> usize {
    (1..=most).rev().find(|&arcs| path_count(automaton, arcs, 1_500) < 1_500).unwrap_or(0)
}

#[test]
fn read_labels_give_the_least_weight_where_tuples_fall_together() {
    let mut together = 0;
    for seed in 0..1_500 {
        let mut automaton = small_case(&mut Random::new(seed)).automaton;
        automaton.arcs.retain(|arc| arc.labels.iter().any(|label| !label.is_empty()));
        let most = affordable(&automaton, 4);
        let mut alike: BTreeMap<Tuple, (BTreeSet<Tuple>, u64)> = BTreeMap::new();
        for (tuple, weight) in accounts(&automaton, most) {
            let (tuples, least) = alike.entry(marks_of(&tuple)).or_insert((BTreeSet::new(), weight));
            tuples.insert(tuple);
            *least = weight.min(*least);
        }
        for (marks, (tuples, least)) in alike.iter().filter(|(marks, _)| marks.iter().map(Vec::len).sum::<usize>() <= most) {
            assert_eq!(lookup(&read_labels(&automaton), marks), Some(*least), "seed {seed}");
            together += usize::from(tuples.len() > 1);
        }
    }
    assert!(together > 50, "only {together} tuples fell together");
}

/// The table with I and O written as letters of which no other symbol is read alike.
fn told_apart(automaton: &Automaton) -> Automaton {
    let other = |&symbol: &u8| match symbol {
        b'I' => b'J',
        b'O' => b'Q',
        symbol => symbol,
    };
    let mut apart = automaton.clone();
    for label in apart.arcs.iter_mut().flat_map(|arc| &mut arc.labels) {
        *label = label.iter().map(other).collect();
    }
    apart
}

/// A configuration whose leftovers are held as they are written.
type Written = (usize, Vec<[Label; 2]>);

/// The configuration after an arc, if the strings of every pair agree as they are read and what is left is within the
/// limits.
fn step(config: &Written, arc: &Arc, pairs: &[LimitedPair]) -> Option<Written> {
    let after = |(left, &((first, second), limit)): (&[Label; 2], &LimitedPair)| {
        let one = [&left[0], &arc.labels[first - 1]].map(|part| &part[..]).concat();
        let two = [&left[1], &arc.labels[second - 1]].map(|part| &part[..]).concat();
        let common = one.iter().zip(&two).take_while(|(one, two)| mark(**one) == mark(**two)).count();
        let left = [one[common..].to_vec(), two[common..].to_vec()];
        let fits = left.iter().any(Vec::is_empty) && left.iter().all(|label| label.len() as u64 <= limit);
        fits.then_some(left)
    };
    Some((arc.target, config.1.iter().zip(pairs).map(after).collect::<Option<Vec<[Label; 2]>>>()?))
}

/// Whether among the first configurations that steps lead to, leftovers held as they are written, two are one after
/// reading.
fn has_two_writings(automaton: &Automaton, pairs: &[LimitedPair]) -> bool {
    let initial = (0..automaton.states.len()).filter(|&state| automaton.states[state].initial.is_some());
    let mut found: Vec<Written> = initial.map(|state| (state, vec![[Label::new(), Label::new()]; pairs.len()])).collect();
    let mut taken = 0;
    while taken < found.len() && found.len() < 200 {
        let config = found[taken].clone();
        for arc in automaton.arcs.iter().filter(|arc| arc.source == config.0) {
            let next = step(&config, arc, pairs).filter(|next| !found.contains(next));
            found.extend(next);
        }
        taken += 1;
    }
    let read = |config: &Written| (config.0, config.1.iter().map(|left| left.clone().map(|label| marks(&label))).collect());
    found.iter().map(read).collect::<BTreeSet<Written>>().len() < found.len()
}

#[test]
fn generated_tables_are_decided_by_the_reading() {
    let (mut builds, mut merged, mut joins, mut forecasts, mut unaltered) = (0, 0, 0, 0, 0);
    for case in 0..4_000 {
        let random = &mut Random::for_case(1, case);
        let kept = small_case(random);
        let (pairs, apart) = (limited(&kept.pairs), told_apart(&kept.automaton));
        let answers = [&kept.automaton, &apart].map(|table| intersect(table, &pairs, Room::AMPLE));
        builds += usize::from(answers[0].clone().map(|table| told_apart(&table)) != answers[1]);
        merged += usize::from(answers[0].is_ok() && has_two_writings(&kept.automaton, &pairs));
        unaltered += usize::from(apart == kept.automaton && answers[0].as_ref().is_ok_and(|table| !table.arcs.is_empty()));
        let JoinCase { first, second, pairs } = join_case(random);
        if judge_width(&first, &second).is_ok() {
            let answer = |first: &Automaton, second: &Automaton| join(first, second, &limited(&pairs), Room::AMPLE, Room::AMPLE);
            let apart = answer(&told_apart(&first), &told_apart(&second));
            joins += usize::from(answer(&first, &second).map(|table| told_apart(&table)) != apart);
        }
        let (automaton, pairs) = forecast_case(random);
        let told = |table: &Automaton| pairs.iter().map(|&pair| forecast(table, pair_of(pair))).collect::<Vec<Forecast>>();
        forecasts += usize::from(told(&automaton) != told(&told_apart(&automaton)));
    }
    println!("{builds} builds, {merged} with two writings of a leftover, {joins} joins, {forecasts} forecasts, {unaltered} without I and O");
    assert!(builds > 300 && merged > 50 && joins > 200 && forecasts > 200, "{builds}, {merged}, {joins}, {forecasts}");
    assert!(unaltered > 500, "only {unaltered} tables without I and O");
}

/// Whether a lookup that is not refused tells another weight of the tuple's marks than of the tuple as it is written.
fn decided_by_writing(request: &Request) -> bool {
    let (Request::Lookup { table, tuple, work }, Outcome::Lookup(found)) = (request, outcome(request)) else { return false };
    let marks = tuple.iter().map(|&symbol| mark(symbol)).collect();
    let other = Request::Lookup { table: table.clone(), tuple: marks, work: work.clone() };
    matches!(outcome(&other), Outcome::Lookup(other) if found.answer.is_ok() && other.answer != found.answer)
}

#[test]
fn generated_lookups_are_decided_by_the_writing() {
    let requests = (0..6_000).filter_map(|case| request_of("lookup", &mut Random::for_case(1, case)));
    let decided = requests.filter(decided_by_writing).count();
    assert!(decided > 200, "only {decided} lookups");
}
