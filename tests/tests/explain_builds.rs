//! `explain` on builds: what is needed where they are refused with 8, 9 or 10, worked on paper and on generated inputs
//! against keeping word for word; how near a table came to its limits.

use std::collections::BTreeMap;
use tomchoen_tests::agree::{read_input, Given, LENT};
use tomchoen_tests::automaton::{Automaton, Room};
use tomchoen_tests::explain::{explain, print, Count, Delays, Explanation, Needs, Remedy};
use tomchoen_tests::forecast::Forecast;
use tomchoen_tests::generate::agree_input;
use tomchoen_tests::pairs::{LimitedPair, PairRecord};
use tomchoen_tests::random::Random;
use tomchoen_tests::refusal::Refusal;
use tomchoen_tests::sample::{first_to_last, p, q, r, table};
use tomchoen_tests::text::{pair_line, write};
use tomchoen_tests::word_for_word::keep_with_own_limits;

/// The explanation of an input.
fn explained(input: impl AsRef<[u8]>) -> Explanation {
    explain(input.as_ref(), input.as_ref().len() as u64)
}

/// The text told of an input.
fn text(input: impl AsRef<[u8]>) -> String {
    print::text(&explained(input))
}

/// The input for a table with pairs.
fn input(pairs: &[PairRecord], automaton: &Automaton) -> Vec<u8> {
    [pair_line(pairs), write(automaton)].concat()
}

/// What a build needs that is refused for its space.
fn needs(input: Vec<u8>) -> Needs {
    match explained(input) {
        Explanation::Full(needs) => needs,
        other => panic!("{other:?}"),
    }
}

/// What is told of a build that is refused for delay.
fn delays(input: Vec<u8>) -> Delays {
    match explained(input) {
        Explanation::Delay(delays) => delays,
        other => panic!("{other:?}"),
    }
}

/// A table whose first word is written in one symbol a link and matched behind the chain, all at once.
fn branching(links: usize) -> Automaton {
    let ends = (0..links).flat_map(|link| [(link, "A"), (link, "B")]);
    let mut rows: Vec<(usize, usize, u64, Vec<&str>)> =
        ends.map(|(link, symbol)| (link, link + 1, 0, vec![symbol, ""])).collect();
    rows.extend((0..links).map(|link| (links + link, links + link + 1, 0, vec!["", "A"])));
    let rows: Vec<(usize, usize, u64, &[&str])> = rows.iter().map(|row| (row.0, row.1, row.2, &row.3[..])).collect();
    first_to_last(2, 2 * links + 1, &rows)
}

/// A table that writes A or B, has so many empty arcs from state 1 to state 2, and matches what was written.
fn many_arcs(arcs: usize) -> Automaton {
    let mut rows: Vec<(usize, usize, u64, &[&str])> = vec![(0, 1, 0, &["A", ""]), (0, 1, 0, &["B", ""])];
    rows.extend(vec![(1, 2, 0, &["", ""][..]); arcs]);
    rows.extend([(2, 3, 0, &["", "A"][..]), (2, 3, 0, &["", "B"][..])]);
    first_to_last(2, 4, &rows)
}

#[test]
fn states_of_the_result() {
    // document 01: 130 states and 193 arcs suffice to reach 10
    let needs = needs(input(&[(1, 2, 64)], &r()));
    let expected = Needs {
        refusal: Refusal::StatesFull,
        configs: Count::Exactly(130),
        arcs: Some(Count::Exactly(193)),
        then: Some(Refusal::Delay),
    };
    assert_eq!(needs, expected);
    let expected = "\
refused   8: states full
the build: no line of the input is wrong
needed:   130 configurations reached, 193 arcs between them
lent:     64 states, 512 arcs by agree; a program in C can lend up to 1,024 states, 8,192 arcs (docs/C-API.md)
then:     with 1,024 states, 8,192 arcs lent refused with 10 (delay)
";
    assert_eq!(text(input(&[(1, 2, 64)], &r())), expected);
}

#[test]
fn more_states_than_the_library_takes() {
    let needs = needs(input(&[(1, 2, 64)], &branching(11)));
    assert_eq!((needs.configs, needs.arcs, needs.then), (Count::MoreThan(1_024), None, Some(Refusal::StatesFull)));
    assert!(text(input(&[(1, 2, 64)], &branching(11))).contains("more than 1,024 configurations reached, arcs not counted\n"));
}

#[test]
fn arcs_of_the_result() {
    // two arcs, 300 with A and 300 with B left over, two arcs
    let needs = needs(input(&[(1, 2, 1)], &many_arcs(300)));
    let expected = Needs { refusal: Refusal::ArcsFull, configs: Count::Exactly(6), arcs: Some(Count::Exactly(604)), then: None };
    assert_eq!(needs, expected);
    assert!(text(input(&[(1, 2, 1)], &many_arcs(300))).ends_with("then:     with so much space a table is given\n"));
    assert_eq!(explained(input(&[(1, 2, 1)], &many_arcs(254))).refusal(), None);
}

#[test]
fn delay_of_one_pair() {
    let told = delays(input(&[(1, 3, 0)], &p()));
    assert_eq!(told.pairs.len(), 1);
    let pair = told.pairs[0];
    assert_eq!((pair.number, pair.pair, pair.limit, pair.leftover), (1, (1, 3), 0, 1));
    assert_eq!((pair.place.line, pair.place.first, pair.place.last), (1, 4, 12));
    assert_eq!(told.remedy, Remedy::Limits { limits: vec![1], configs: 4, arcs: 3 });
    assert_eq!(delays(input(&[(1, 2, 0)], &q())).remedy, Remedy::Limits { limits: vec![1], configs: 3, arcs: 2 });
    let mixed = delays(input(&[(1, 2, 1)], &r()));
    assert_eq!((mixed.pairs[0].leftover, mixed.pairs[0].forecast, mixed.remedy), (2, Forecast::Mixed, Remedy::None));
}

#[test]
fn delay_that_no_limit_helps_for_its_configurations() {
    let told = delays(input(&[(1, 2, 3)], &branching(11)));
    assert_eq!((told.pairs[0].leftover, told.remedy), (4, Remedy::TooLarge));
}

/// On tapes 1 = 2 a word of two symbols, on 3 = 4 behind it one of three, on 5 = 6 one of four: each matched at the end.
fn three_words() -> Automaton {
    let rows: [(usize, usize, u64, &[&str]); 3] = [
        (0, 1, 0, &["AB", "", "", "", "", "ABCD"]),
        (1, 2, 0, &["", "", "ABC", "", "", ""]),
        (2, 3, 0, &["", "AB", "", "ABC", "ABCD", ""]),
    ];
    first_to_last(6, 4, &rows)
}

#[test]
fn delay_of_several_pairs() {
    let expected = "\
refused  10: delay
pair 1 (tape 1 = tape 2): line 1 (pair line), columns 4-12
limit:    1
leftover: 2 symbols after a step that can still be matched
forecast: the pair can need a delay of up to 6
pair 3 (tape 5 = tape 6): line 1 (pair line), columns 22-30
limit:    0
leftover: 4 symbols after a step that can still be matched
forecast: the pair can need a delay of up to 12
remedy:   the least limits without 10 are pair 1: 2, pair 2: 3, pair 3: 4
needed:   with them 4 configurations reached, 3 arcs between them
";
    // pair 2 is not met before the others have room
    assert_eq!(text(input(&[(1, 2, 1), (3, 4, 0), (5, 6, 0)], &three_words())), expected);
    let second = delays(input(&[(1, 2, 2), (3, 4, 0), (5, 6, 64)], &three_words()));
    assert_eq!(second.pairs.iter().map(|pair| (pair.number, pair.leftover)).collect::<Vec<_>>(), [(2, 3)]);
    assert_eq!(second.remedy, Remedy::Limits { limits: vec![2, 3, 4], configs: 4, arcs: 3 });
    assert_eq!(explained(input(&[(1, 2, 2), (3, 4, 3), (5, 6, 4)], &three_words())).refusal(), None);
}

#[test]
fn a_table_and_how_near_its_limits_are() {
    let expected = "\
table: 2 tapes, 1 state, 2 arcs
pair 1: tape 1 = tape 2, limit 0
result: 1 state, 1 arc
used:
  bytes of the input             132 of 65,536
  states read                      1 of     64
  arcs read                        2 of    512
  configurations reached           1 of     64
  arcs between them                1 of    512
  longest leftover of pair 1       0 of      0   reached
";
    let of_text_md = table(2, &[(Some(0), Some(5))], &[(0, 0, 2, &["A", "A"]), (0, 0, 3, &["B", "C"])]);
    assert_eq!(text(input(&[(1, 2, 0)], &of_text_md)), expected);
    // 254 arcs with A and 254 with B left over, and four more: all of 512; 229 of each are 462, nine tenths
    let all = text(input(&[(1, 2, 1)], &many_arcs(254)));
    assert!(all.contains("  arcs between them              512 of    512   reached\n"), "{all}");
    let near = text(input(&[(1, 2, 2)], &many_arcs(229)));
    assert!(near.contains("  arcs between them              462 of    512   nearly reached\n"), "{near}");
    assert!(near.contains("  longest leftover of pair 1       1 of      2\n"), "{near}");
    let below = text(input(&[(1, 2, 2)], &many_arcs(228)));
    assert!(below.contains("  arcs between them              460 of    512\n"), "{below}");
    let empty = text("  0\n  1     0     0\n");
    assert!(empty.starts_with("table: 1 tape, 0 states, 0 arcs\nno pairs\nresult: 0 states, 0 arcs (no account agrees)\n"));
}

/// The refusal of keeping word for word, with these limits and this space.
fn refused(given: &Given, pairs: &[LimitedPair], room: Room) -> Option<Refusal> {
    keep_with_own_limits(&given.automaton, pairs, room).err()
}

/// Checks that a build needs just as much space as is told.
fn check_needs(given: &Given, needs: &Needs) {
    let refused = |states: u64, arcs: u64| refused(given, &given.pairs, Room { states, arcs });
    match (needs.configs, needs.arcs) {
        (Count::Exactly(configs), Some(Count::Exactly(arcs))) => {
            assert!(configs > LENT.states || arcs > LENT.arcs);
            assert_eq!(refused(configs, arcs), needs.then);
            assert_eq!(refused(configs - 1, arcs), Some(Refusal::StatesFull));
            assert_eq!(refused(configs, arcs - 1), Some(Refusal::ArcsFull));
        }
        (Count::Exactly(configs), Some(Count::MoreThan(arcs))) => {
            assert_eq!(refused(configs, arcs), Some(Refusal::ArcsFull));
            assert_eq!(refused(configs - 1, arcs), Some(Refusal::StatesFull));
        }
        (Count::MoreThan(configs), None) => assert_eq!(refused(configs, 8_192), Some(Refusal::StatesFull)),
        other => panic!("{other:?}"),
    }
}

/// The pairs with other limits.
fn with_limits(given: &Given, limits: &[u64]) -> Vec<LimitedPair> {
    given.pairs.iter().zip(limits).map(|(&(pair, _), &limit)| (pair, limit)).collect()
}

/// Checks that every pair told has a step that leaves so much: with its limit one below that it is refused, whatever the
/// others' are.
fn check_leftovers(given: &Given, delays: &Delays) {
    assert!(!delays.pairs.is_empty());
    for pair in &delays.pairs {
        let mut limits = vec![64; given.pairs.len()];
        limits[pair.number - 1] = pair.leftover - 1;
        assert!(pair.leftover > pair.limit && pair.limit == given.pairs[pair.number - 1].1);
        assert!(refused(given, &with_limits(given, &limits), Room::AMPLE).is_some());
    }
}

/// Checks that the limits told are the least without 10, or that there are none.
fn check_remedy(given: &Given, remedy: &Remedy) -> &'static str {
    let Remedy::Limits { limits, configs, arcs } = remedy else {
        let greatest = with_limits(given, &vec![64; given.pairs.len()]);
        assert!(refused(given, &greatest, Room::AMPLE).is_some());
        return "no limits";
    };
    let room = Room { states: *configs, arcs: *arcs };
    assert_eq!(refused(given, &with_limits(given, limits), room), None);
    for place in (0..limits.len()).filter(|&place| limits[place] > 0) {
        let mut lowered = limits.clone();
        lowered[place] -= 1;
        let answer = refused(given, &with_limits(given, &lowered), Room::AMPLE);
        assert_eq!(answer, Some(Refusal::Delay), "{limits:?}, {place}");
    }
    "least limits"
}

#[test]
fn the_numbers_told_of_builds() {
    let mut met: BTreeMap<&str, usize> = BTreeMap::new();
    for number in 0..1_500 {
        let input = agree_input(&mut Random::for_case(7, number));
        let what = match (explain(&input, input.len() as u64), read_input(&input)) {
            (Explanation::Full(needs), Ok(given)) => {
                check_needs(&given, &needs);
                "space"
            }
            (Explanation::Delay(delays), Ok(given)) => {
                check_leftovers(&given, &delays);
                check_remedy(&given, &delays.remedy)
            }
            _ => "other",
        };
        *met.entry(what).or_insert(0) += 1;
    }
    println!("{met:?}");
    assert!(met["space"] >= 20 && met["least limits"] >= 100 && met["no limits"] >= 50, "{met:?}");
}
