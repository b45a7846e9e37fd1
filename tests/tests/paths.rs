//! The arcs behind a weight (request 2.3): paths worked on paper, refusals in their order and every lent byte, and the
//! second implementation against the words of the request on random tables, every path followed.

use std::cell::Cell;
use std::collections::BTreeMap;
use tomchoen_tests::accounts::{account_of, paths};
use tomchoen_tests::automaton::{Arc, Automaton, State, Tuple, MOST_WEIGHT};
use tomchoen_tests::calls::{self, PathOutcome, PathRequest};
use tomchoen_tests::lookup::lookup;
use tomchoen_tests::memory::{encode, LentTable};
use tomchoen_tests::path::{path, Path};
use tomchoen_tests::path_cases::path_case;
use tomchoen_tests::random::Random;
use tomchoen_tests::sample::{first_to_last, p, table, tuple, Row};

/// What is told of a tuple: weight, starting state, arcs.
fn told(automaton: &Automaton, strings: &[&str]) -> Option<(u64, usize, Vec<usize>)> {
    path(automaton, &tuple(strings)).map(|path| (path.weight, path.start, path.arcs))
}

#[test]
fn the_arcs_of_p() {
    assert_eq!(told(&p(), &["AB", "XYZ", "AB"]), Some((6, 0, vec![0, 1, 2])));
    assert_eq!(told(&p(), &["ABBB", "XYYYZ", "AAAB"]), Some((10, 0, vec![0, 1, 1, 1, 2])));
    assert_eq!(told(&p(), &["A", "XZ", "B"]), Some((4, 0, vec![0, 2])));
    assert_eq!(told(&p(), &["AB", "XYZ", "A"]), None);
    assert_eq!(told(&p(), &["", "", ""]), None);
}

#[test]
fn the_least_weight_first() {
    let rows = |whole: u64| -> [Row; 3] { [(0, 1, 1, &["A"]), (1, 2, 1, &["A"]), (0, 2, whole, &["AA"])] };
    // one arc at 1, one at 2 as two arcs at 1 each, one at 3
    assert_eq!(told(&first_to_last(1, 3, &rows(1)), &["AA"]), Some((1, 0, vec![2])));
    assert_eq!(told(&first_to_last(1, 3, &rows(2)), &["AA"]), Some((2, 0, vec![2])));
    assert_eq!(told(&first_to_last(1, 3, &rows(3)), &["AA"]), Some((2, 0, vec![0, 1])));
    // initial and final weights count: 9 + 0 + 0, 0 + 8 + 0, 0 + 0 + 7
    let weights = [(Some(9), None), (Some(0), None), (Some(0), None), (None, Some(0)), (None, Some(7))];
    let rows: [Row; 3] = [(0, 3, 0, &["A"]), (1, 3, 8, &["A"]), (2, 4, 0, &["A"])];
    assert_eq!(told(&table(1, &weights, &rows), &["A"]), Some((7, 2, vec![2])));
}

#[test]
fn then_the_fewest_arcs() {
    // from state 0 two arcs with low numbers, from state 2 one arc with a high one
    let weights = [(Some(1), None), (None, None), (Some(1), None), (None, Some(1))];
    let rows: [Row; 3] = [(0, 1, 0, &["A"]), (1, 3, 4, &[""]), (2, 3, 4, &["A"])];
    assert_eq!(told(&table(1, &weights, &rows), &["A"]), Some((6, 2, vec![2])));
    // loops that spell and weigh nothing are not taken, alone or in a ring
    let rows: [Row; 5] = [(0, 0, 0, &[""]), (0, 1, 0, &[""]), (1, 0, 0, &[""]), (0, 2, 0, &["A"]), (2, 2, 0, &[""])];
    assert_eq!(told(&first_to_last(1, 3, &rows), &["A"]), Some((0, 0, vec![3])));
    // all at 3: four arcs by 1, 2 and 3, four by 4, 5 and 6, and three by 2 and 3
    let rows: [Row; 9] = [
        (0, 1, 1, &["A"]),
        (1, 2, 1, &["A"]),
        (2, 3, 1, &["A"]),
        (0, 4, 0, &["A"]),
        (4, 5, 0, &[""]),
        (5, 6, 0, &["A"]),
        (6, 7, 3, &["A"]),
        (0, 2, 2, &["AA"]),
        (3, 7, 0, &[""]),
    ];
    assert_eq!(told(&first_to_last(1, 8, &rows), &["AAA"]), Some((3, 0, vec![7, 2, 8])));
}

#[test]
fn then_the_lower_starting_state() {
    // the lower state's arc has the higher number
    let weights = [(None, None), (Some(5), None), (Some(5), None), (None, Some(1))];
    let rows: [Row; 2] = [(2, 3, 0, &["A"]), (1, 3, 0, &["A"])];
    assert_eq!(told(&table(1, &weights, &rows), &["A"]), Some((6, 1, vec![1])));
    // unequal initial weights that come to the same
    let weights = [(Some(3), None), (Some(1), None), (None, Some(0))];
    let rows: [Row; 2] = [(1, 2, 2, &["A"]), (0, 2, 0, &["A"])];
    assert_eq!(told(&table(1, &weights, &rows), &["A"]), Some((3, 0, vec![1])));
    // a lower state without an initial weight does not count
    let weights = [(None, None), (Some(1), None), (None, Some(0))];
    assert_eq!(told(&table(1, &weights, &rows), &["A"]), Some((3, 1, vec![0])));
}

#[test]
fn then_the_lower_arc_at_the_first_difference() {
    // 0 5 comes before 1 2, though 5 is above both
    let rows: [Row; 6] = [
        (0, 1, 1, &["A", ""]),
        (0, 2, 1, &["A", ""]),
        (2, 3, 1, &["A", "B"]),
        (1, 3, 9, &["A", "B"]),
        (1, 3, 1, &["", "B"]),
        (1, 3, 1, &["A", "B"]),
    ];
    assert_eq!(told(&first_to_last(2, 4, &rows), &["AA", "B"]), Some((2, 0, vec![0, 5])));
    // the first difference may be the last arc
    let rows: [Row; 4] = [(1, 2, 0, &["B"]), (0, 1, 0, &["A"]), (2, 3, 0, &["D"]), (2, 3, 0, &["D"])];
    assert_eq!(told(&first_to_last(1, 4, &rows), &["ABD"]), Some((0, 0, vec![1, 0, 2])));
}

#[test]
fn of_equal_arcs_the_lower() {
    let a: Row = (0, 0, 2, &["A"]);
    let automaton = table(1, &[(Some(0), Some(0))], &[(0, 0, 2, &["B"]), a, (0, 0, 3, &["A"]), a, a]);
    assert_eq!(told(&automaton, &["A"]), Some((2, 0, vec![1])));
    assert_eq!(told(&automaton, &["AAB"]), Some((6, 0, vec![1, 1, 0])));
}

#[test]
fn empty_paths() {
    let both = |weight: u64| table(1, &[(Some(3), Some(4)), (None, Some(0))], &[(0, 1, weight, &[""])]);
    assert_eq!(told(&both(4), &[""]), Some((7, 0, Vec::new())));
    assert_eq!(told(&both(3), &[""]), Some((6, 0, vec![0])));
    assert_eq!(told(&both(3), &["A"]), None);
    let three = table(2, &[(Some(1), None), (Some(2), Some(3)), (Some(3), Some(2)), (None, Some(1))], &[]);
    assert_eq!(told(&three, &["", ""]), Some((5, 1, Vec::new())));
    assert_eq!(told(&Automaton::empty(1), &[""]), None);
}

#[test]
fn a_long_way_round() {
    // a ring of 1,024 states whose first arc has the symbol; 64 rounds and the way back to the first state's neighbour
    let arc = |state: usize| Arc {
        source: state,
        target: (state + 1) % 1_024,
        weight: MOST_WEIGHT,
        labels: vec![vec![b'A'; usize::from(state == 0)]],
    };
    let mut automaton = Automaton { tapes: 1, states: vec![State::default(); 1_024], arcs: Vec::new() };
    automaton.arcs.extend((0..1_024).map(arc));
    automaton.states[1].initial = Some(MOST_WEIGHT);
    automaton.states[0].final_weight = Some(MOST_WEIGHT);
    let found = path(&automaton, &vec![vec![b'A'; 64]]).unwrap();
    assert_eq!((found.weight, found.start, found.arcs.len()), (66_561 * MOST_WEIGHT, 1, 66_559));
    assert!(found.arcs.iter().enumerate().all(|(place, &arc)| arc == (place + 1) % 1_024));
    assert_eq!(found.record()[16..], [1, 0, 0, 0, 0xff, 0x03, 0x01, 0x00]);
}

/// So many bytes filled with a mark.
fn marked(bytes: usize) -> Vec<u8> {
    vec![0xa5; bytes]
}

/// The call with a result, a list and work of so many bytes, all marked.
fn call(table: &LentTable, tuple: &[u8], result: usize, list: usize, work: usize) -> PathOutcome {
    let request = PathRequest { tuple: tuple.to_vec(), result: marked(result), list: marked(list), work: marked(work) };
    let outcome = calls::path(table, &request);
    assert_eq!(outcome.work, vec![0; work]);
    outcome
}

/// The word of a call that tells no path, after which result and list must be as they were.
fn kept(table: &LentTable, tuple: &[u8], result: usize, list: usize, work: usize) -> u64 {
    let outcome = call(table, tuple, result, list, work);
    assert_eq!((outcome.result, outcome.list), (marked(result), marked(list)));
    outcome.word
}

/// Work that P asks for with AB, XYZ, AB.
const NEED: usize = 24 * 3 * (3 * 4 * 3);

#[test]
fn order_of_a_path() {
    let table = encode(&p());
    let mut malformed = table.clone();
    malformed.state_records[0] = 2;
    let long = [b'A'; 65];
    let (told, none) = (&b"AB\nXYZ\nAB\n"[..], &b"AB\nXZ\nAB\n"[..]);
    assert_eq!(kept(&malformed, b"a", 0, 0, 0), 2);
    assert_eq!(kept(&LentTable { tapes: 9, ..table.clone() }, b"a", 0, 0, 0), 3);
    assert_eq!(kept(&LentTable { states: 4, ..table.clone() }, b"a", 0, 0, 0), 1);
    assert_eq!(kept(&LentTable { states: 2, ..table.clone() }, b"a", 0, 0, 0), 4);
    assert_eq!(kept(&table, b"a\nB\nC", 0, 0, 0), 1);
    assert_eq!(kept(&table, &[b"a\n", &long[..], b"\n"].concat(), 0, 0, 0), 5);
    assert_eq!(kept(&table, &[b"a\nB\n", &long[..], b"\n"].concat(), 0, 0, 0), 3);
    assert_eq!(kept(&table, &[b"a\nB\n", &long[1..], b"\n"].concat(), 0, 0, 0), 2);
    // 13 before 14, and where there is no weight
    assert_eq!(kept(&table, told, 24, 0, NEED - 1), 13);
    assert_eq!(kept(&table, told, 23, 0, NEED), 13);
    assert_eq!(kept(&table, told, 0, 6, NEED), 13);
    assert_eq!(kept(&table, none, 24, 6, 0), 13);
    assert_eq!(kept(&table, none, 23, 6, NEED), 13);
    // 14 last, and only where there is a weight
    assert_eq!(kept(&table, told, 24, 4, NEED), 14);
    assert_eq!(kept(&table, told, 24, 5, NEED), 14);
    assert_eq!(kept(&table, told, 24, 0, NEED), 14);
    assert_eq!(kept(&table, none, 24, 0, NEED), 255);
    assert_eq!(kept(&table, none, 99, 99, NEED), 255);
    assert_eq!(call(&table, told, 24, 6, NEED).word, 0);
}

#[test]
fn bytes_of_a_path() {
    let (table, told) = (encode(&p()), b"AB\nXYZ\nAB\n");
    let record = [6, 0, 0, 0, 0, 0, 0, 0, 0, 0, 0, 0, 0, 0, 0, 0, 0, 0, 0, 0, 3, 0, 0, 0];
    for list in 6..12 {
        let outcome = call(&table, told, 24 + list, list, NEED + list);
        assert_eq!(outcome.word, 0);
        assert_eq!(outcome.result, [&record[..], &marked(list)].concat());
        assert_eq!(outcome.list, [&[0, 0, 1, 0, 2, 0][..], &marked(list - 6)].concat());
    }
}

#[test]
fn an_empty_path_fits_any_list() {
    let lone = encode(&table(2, &[(None, None), (Some(3), Some(4))], &[]));
    let record = [7, 0, 0, 0, 0, 0, 0, 0, 0, 0, 0, 0, 0, 0, 0, 0, 1, 0, 0, 0, 0, 0, 0, 0];
    for list in 0..4 {
        let outcome = call(&lone, b"\n\n", 24, list, 48);
        assert_eq!((outcome.word, outcome.result, outcome.list), (0, record.to_vec(), marked(list)));
    }
    assert_eq!(kept(&lone, b"\n\n", 24, 0, 47), 13);
    assert_eq!(kept(&lone, b"A\n\n", 24, 0, 96), 255);
}

#[test]
fn no_states_ask_for_no_work() {
    let empty = encode(&Automaton::empty(1));
    assert_eq!(kept(&empty, b"A\n", 24, 0, 0), 255);
    assert_eq!(kept(&empty, b"A\n", 23, 0, 0), 13);
    assert_eq!(kept(&empty, b"A\n\n", 23, 0, 0), 5);
}

#[test]
fn high_numbers_low_byte_first() {
    // from state 258 by arcs 300 and 1, each of the greatest weight
    let mut rows: Vec<Row> = vec![(0, 0, 0, &["B"]); 301];
    rows[300] = (258, 2, MOST_WEIGHT, &["A"]);
    rows[1] = (2, 3, MOST_WEIGHT, &["A"]);
    let mut weights = vec![(None, None); 259];
    weights[258].0 = Some(MOST_WEIGHT);
    weights[3].1 = Some(MOST_WEIGHT);
    let outcome = call(&encode(&table(1, &weights, &rows)), b"AA\n", 24, 4, 24 * 259 * 3);
    // 4 x 999,999,999 and, with one arc more, above four bytes
    assert_eq!(outcome.result[..8], 3_999_999_996_u64.to_le_bytes());
    assert_eq!(outcome.result[8..], [0, 0, 0, 0, 0, 0, 0, 0, 2, 1, 0, 0, 2, 0, 0, 0]);
    assert_eq!((outcome.word, outcome.list), (0, vec![0x2c, 0x01, 0x01, 0x00]));
    rows.push((3, 3, MOST_WEIGHT, &["A"]));
    let outcome = call(&encode(&table(1, &weights, &rows)), b"AAA\n", 24, 6, 24 * 259 * 4);
    assert_eq!(outcome.result[..8], [0xfb, 0xf1, 0x05, 0x2a, 0x01, 0, 0, 0]);
    assert_eq!((outcome.word, outcome.list), (0, vec![0x2c, 0x01, 0x01, 0x00, 0x2d, 0x01]));
}

/// How many arcs the path that the request names has at most. It comes to no state twice with the same positions, since
/// without the way between it would weigh no more and have fewer arcs: so no more arcs with symbols than symbols, and
/// between them no more arcs without than other states, or than there are.
fn most_arcs(automaton: &Automaton, tuple: &Tuple) -> usize {
    let symbols: usize = tuple.iter().map(Vec::len).sum();
    let empty = automaton.arcs.iter().filter(|arc| arc.labels.iter().all(Vec::is_empty)).count();
    symbols + (symbols + 1) * empty.min(automaton.states.len().saturating_sub(1))
}

/// Every successful path of no more than that many arcs that spells the tuple; none where too many have to be followed.
fn paths_that_spell(automaton: &Automaton, tuple: &Tuple) -> Option<Vec<Path>> {
    let followed = Cell::new(0);
    let within = |spelled: &Tuple| {
        followed.set(followed.get() + 1);
        followed.get() < 20_000 && tuple.iter().zip(spelled).all(|(whole, string)| whole.starts_with(string))
    };
    let found = paths(automaton, most_arcs(automaton, tuple), within);
    let spell = found.into_iter().filter(|(spelled, _)| spelled == tuple).map(|(_, path)| path).collect();
    (followed.get() < 20_000).then_some(spell)
}

/// The paths for which a number is least.
fn least<T: Ord>(paths: &[Path], number: impl Fn(&Path) -> T) -> Vec<Path> {
    let least = paths.iter().map(&number).min();
    paths.iter().filter(|path| Some(number(path)) == least).cloned().collect()
}

/// Whether at the first difference one path, as long as the other, has the lower arc number.
fn is_lower(one: &Path, other: &Path) -> bool {
    let difference = one.arcs.iter().zip(&other.arcs).find(|(arc, other)| arc != other);
    difference.is_some_and(|(arc, other)| arc < other)
}

/// The path that the words of the request choose, and what decided: the last choice that left fewer than there were.
fn chosen(all: &[Path]) -> (Option<Path>, &'static str) {
    let light = least(all, |path| path.weight);
    let short = least(&light, |path| path.arcs.len());
    let low = least(&short, |path| path.start);
    let first = low.iter().find(|one| low.iter().all(|other| one == &other || is_lower(one, other)));
    let decided = match (all.len(), light.len(), short.len(), low.len()) {
        (0, ..) => "no path",
        (1, ..) => "one path",
        (_, 1, ..) => "the weight",
        (_, _, 1, _) => "the number of arcs",
        (.., 1) => "the starting state",
        _ => "the first difference",
    };
    (first.cloned(), decided)
}

#[test]
fn a_path_word_for_word() {
    let mut met: BTreeMap<&str, usize> = BTreeMap::new();
    for seed in 0..6_000 {
        let mut random = Random::new(seed);
        let (automaton, mut tuple) = path_case(&mut random);
        if random.chance(10) {
            let at = random.below(tuple.len());
            tuple[at].push(b'A');
        }
        let Some(all) = paths_that_spell(&automaton, &tuple) else {
            *met.entry("passed over").or_insert(0) += 1;
            continue;
        };
        let (expected, decided) = chosen(&all);
        assert_eq!(expected.is_none(), all.is_empty(), "seed {seed}");
        assert_eq!(path(&automaton, &tuple), expected, "seed {seed}");
        *met.entry(decided).or_insert(0) += 1;
        *met.entry("an empty path").or_insert(0) += usize::from(expected.is_some_and(|path| path.arcs.is_empty()));
    }
    assert_eq!(met.len(), 8, "{met:?}");
    assert!(met.values().all(|&count| count >= 100) && met["passed over"] < 2_000, "{met:?}");
    println!("{met:?}");
}

#[test]
fn a_path_weighs_what_the_lookup_tells() {
    for seed in 0..3_000 {
        let (automaton, tuple) = path_case(&mut Random::new(seed));
        let found = path(&automaton, &tuple);
        assert_eq!(found.as_ref().map(|path| path.weight), lookup(&automaton, &tuple), "seed {seed}");
        if let Some(Path { weight, start, arcs }) = found {
            assert_eq!(account_of(&automaton, start, &arcs), Some((tuple, weight)), "seed {seed}");
        }
    }
}

#[test]
fn a_longer_list_gives_the_same_path() {
    for seed in 0..2_000 {
        let mut random = Random::new(seed);
        let (automaton, tuple) = path_case(&mut random);
        let Some(found) = path(&automaton, &tuple) else { continue };
        let text: Vec<u8> = tuple.iter().flat_map(|string| [&string[..], b"\n"].concat()).collect();
        if tuple.iter().any(|string| string.len() > 64) {
            continue;
        }
        let (table, need) = (encode(&automaton), calls::path_work(&automaton, &tuple) as usize);
        let enough = 2 * found.arcs.len();
        for length in [enough, enough + 1, enough + 2 + random.below(50)] {
            let outcome = call(&table, &text, 24, length, need);
            assert_eq!((outcome.word, outcome.result), (0, found.record()), "seed {seed}");
            assert_eq!(outcome.list, [found.list(), marked(length - enough)].concat(), "seed {seed}");
        }
        if enough > 0 {
            assert_eq!(kept(&table, &text, 24, enough - 1, need), 14, "seed {seed}");
            assert_eq!(kept(&table, &text, 24, enough - 2, need), 14, "seed {seed}");
        }
    }
}
