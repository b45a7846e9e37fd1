//! The worked cases of document 01 and its example of `agree`; the order of request 2.2 and forecasts, worked on paper.

use tomchoen_tests::accounts::accounts;
use tomchoen_tests::agree::agree;
use tomchoen_tests::automaton::{Automaton, Room, State, MOST_WEIGHT};
use tomchoen_tests::calls;
use tomchoen_tests::columns::{drop_tapes, project, union};
use tomchoen_tests::forecast::{forecast, leftovers, Forecast};
use tomchoen_tests::intersect::intersect;
use tomchoen_tests::memory::encode;
use tomchoen_tests::pairs::{judge_intersect, LimitedPair, PairRecord};
use tomchoen_tests::product::product;
use tomchoen_tests::refusal::Refusal;
use tomchoen_tests::sample::{first_to_last, p, q, r, s, table, tuple, Row};
use tomchoen_tests::text::{pair_line, read, write};

/// Keeping with ample space.
fn keep(automaton: &Automaton, pairs: &[LimitedPair]) -> Result<Automaton, Refusal> {
    intersect(automaton, pairs, Room::AMPLE)
}

/// Lines, each ended by byte 10.
fn text_of(lines: &[&str]) -> String {
    lines.iter().map(|line| format!("{line}\n")).collect()
}

/// The table whose text has these lines.
fn table_of(lines: &[&str]) -> Automaton {
    read(text_of(lines).as_bytes(), Room::AMPLE).unwrap()
}

/// The text of a result.
fn printed(result: Result<Automaton, Refusal>) -> String {
    String::from_utf8(write(&result.unwrap())).unwrap()
}

#[test]
fn example_of_agree() {
    let input = "  1  1  2  0\n  2     1     2\n         0         5\n     0     0         2        A        A\n     0     0         3        B        C\n";
    let output = "  2     1     1\n         0         5\n     0     0         2        A        A\n";
    assert_eq!(String::from_utf8(agree(input.as_bytes())).unwrap(), output);
}

#[test]
fn p_at_one_and_zero() {
    let kept = keep(&p(), &[((1, 3), 1)]).unwrap();
    assert_eq!((kept.states.len(), kept.arcs.len()), (4, 3));
    assert_eq!(accounts(&kept, 10), vec![(tuple(&["AB", "XYZ", "AB"]), 6)]);
    assert_eq!(keep(&p(), &[((1, 3), 0)]), Err(Refusal::Delay));
}

#[test]
fn p_in_the_order_of_request_2_2() {
    let arcs: &[(usize, usize, u64, &[&str])] =
        &[(0, 1, 1, &["A", "X", ""]), (1, 2, 2, &["B", "Y", "A"]), (2, 3, 3, &["", "Z", "B"])];
    assert_eq!(keep(&p(), &[((1, 3), 1)]), Ok(first_to_last(3, 4, arcs)));
}

#[test]
fn q_at_one_and_zero() {
    let kept = first_to_last(2, 3, &[(0, 1, 0, &["A", ""]), (1, 2, 0, &["", "A"])]);
    assert_eq!(keep(&q(), &[((1, 2), 1)]), Ok(kept.clone()));
    assert_eq!(keep(&q(), &[((1, 2), 64)]), Ok(kept));
    assert_eq!(keep(&q(), &[((1, 2), 0)]), Err(Refusal::Delay));
}

#[test]
fn r_at_one_and_sixty_four() {
    let at = |limit, states, arcs| intersect(&r(), &[((1, 2), limit)], Room { states, arcs });
    assert_eq!(at(1, 1_024, 8_192), Err(Refusal::Delay));
    assert_eq!(at(64, 130, 193), Err(Refusal::Delay));
    assert_eq!(at(64, 129, 193), Err(Refusal::StatesFull));
    assert_eq!(at(64, 129, 192), Err(Refusal::StatesFull));
    assert_eq!(at(64, 130, 192), Err(Refusal::ArcsFull));
    assert_eq!(at(64, 5_000, 50_000), Err(Refusal::Delay));
}

#[test]
fn s_gives_the_empty_table() {
    assert_eq!(keep(&s(), &[((1, 2), 0)]), Ok(Automaton::empty(2)));
    assert_eq!(keep(&s(), &[((1, 2), 64)]), Ok(Automaton::empty(2)));
}

#[test]
fn table_without_states() {
    let text = b"  3     0     0\n";
    assert_eq!(read(text, Room { states: 0, arcs: 0 }), Ok(Automaton::empty(3)));
    assert_eq!(write(&Automaton::empty(3)), text);
    let input = [pair_line(&[(1, 3, 64)]), text.to_vec()].concat();
    assert_eq!(agree(&input), text);
}

#[test]
fn no_pairs_give_the_source_trimmed() {
    let weights = [(None, None), (Some(1), None), (None, Some(2)), (None, None), (Some(3), None)];
    let rows: &[(usize, usize, u64, &[&str])] =
        &[(1, 2, 0, &["A"]), (1, 3, 0, &["A"]), (0, 2, 0, &["B"]), (2, 1, 7, &[""]), (4, 4, 0, &["C"]), (1, 2, 0, &["A"])];
    let kept = table(1, &[(Some(1), None), (None, Some(2))], &[(0, 1, 0, &["A"]), (0, 1, 0, &["A"]), (1, 0, 7, &[""])]);
    assert_eq!(keep(&table(1, &weights, rows), &[]), Ok(kept));
}

#[test]
fn limits_and_numbers_of_pairs() {
    assert_eq!(judge_intersect(&[(2, 1, 64)], 2), Ok(vec![((2, 1), 64)]));
    assert_eq!(judge_intersect(&[(2, 1, 65)], 2), Err(Refusal::Limit));
    assert_eq!(judge_intersect(&[], 1), Ok(Vec::new()));
    let four = [(1, 2, 64), (3, 4, 64), (5, 6, 64), (7, 8, 64)];
    assert!(judge_intersect(&four, 8).is_ok());
    assert_eq!(judge_intersect(&[&four[..], &[(1, 2, 64)]].concat(), 8), Err(Refusal::Pairs));
}

#[test]
fn a_heavy_product() {
    let first = table(1, &[(Some(0), Some(MOST_WEIGHT))], &[]);
    let second = first_to_last(1, 2, &[(0, 1, 1, &["A"])]);
    assert_eq!(product(&first, &second, Room::AMPLE), Err(Refusal::Weight));
    assert_eq!(product(&second, &first, Room::AMPLE), Err(Refusal::Weight));
    let light = table(1, &[(Some(0), Some(MOST_WEIGHT - 1))], &[]);
    assert!(product(&light, &second, Room::AMPLE).is_ok());
}

#[test]
fn worked_cases_through_agree() {
    let answer = |automaton: &Automaton, pairs: &[PairRecord]| {
        String::from_utf8(agree(&[pair_line(pairs), write(automaton)].concat())).unwrap()
    };
    let of_p: &[Row] = &[(0, 1, 1, &["A", "X", ""]), (1, 2, 2, &["B", "Y", "A"]), (2, 3, 3, &["", "Z", "B"])];
    assert_eq!(answer(&p(), &[(1, 3, 1)]), printed(Ok(first_to_last(3, 4, of_p))));
    assert_eq!(answer(&p(), &[(1, 3, 0)]), "refused  10\n");
    let of_q: &[Row] = &[(0, 1, 0, &["A", ""]), (1, 2, 0, &["", "A"])];
    assert_eq!(answer(&q(), &[(1, 2, 1)]), printed(Ok(first_to_last(2, 3, of_q))));
    assert_eq!(answer(&q(), &[(1, 2, 0)]), "refused  10\n");
    assert_eq!(answer(&r(), &[(1, 2, 1)]), "refused  10\n");
    assert_eq!(answer(&r(), &[(1, 2, 31)]), "refused  10\n");
    assert_eq!(answer(&r(), &[(1, 2, 32)]), "refused   8\n");
    assert_eq!(answer(&s(), &[(1, 2, 1)]), "  2     0     0\n");
    assert_eq!(answer(&s(), &[(1, 2, 65)]), "refused   7\n");
    assert_eq!(answer(&s(), &[(1, 1, 65)]), "refused   6\n");
    assert_eq!(answer(&s(), &[(1, 1, 65), (3, 2, 65)]), "refused   5\n");
}

/// A table whose states are first reached in another order than they stand, one of them to be trimmed.
const LISTED: &[&str] = &[
    "  2     6     8",
    "         -         -",
    "         0         -",
    "         -         0",
    "         0         -",
    "         -         -",
    "         -         -",
    "     3     2         0        A        A",
    "     1     4         1        A         ",
    "     1     5         2        A        A",
    "     5     2         3        A        A",
    "     3     0         4        B        B",
    "     0     5         5        A        A",
    "     1     0         6        B        B",
    "     4     2         7                 B",
];

/// What is kept of it on tapes 1 = 2: its states 1, 3, 5, 0 and 2.
const KEPT: &[&str] = &[
    "  2     5     6",
    "         0         -",
    "         0         -",
    "         -         -",
    "         -         -",
    "         -         0",
    "     0     2         2        A        A",
    "     0     3         6        B        B",
    "     1     4         0        A        A",
    "     1     3         4        B        B",
    "     2     4         3        A        A",
    "     3     2         5        A        A",
];

#[test]
fn a_build_in_the_order_of_request_2_2() {
    // 1 and 3 are initial; out of 1 come 4, 5 and 0, out of 3 comes 2; B meets the A left over at 4, which is trimmed
    assert_eq!(printed(keep(&table_of(LISTED), &[((1, 2), 1)])), text_of(KEPT));
    let input = [pair_line(&[(1, 2, 1)]), text_of(LISTED).into_bytes()].concat();
    assert_eq!(String::from_utf8(agree(&input)).unwrap(), text_of(KEPT));
}

/// The first table of a product.
const FIRST: &[&str] = &[
    "  1     2     2",
    "         0        10",
    "         1         0",
    "     0     1         1        A",
    "     0     0         2        B",
];

/// The second one.
const SECOND: &[&str] = &[
    "  1     2     3",
    "         0        20",
    "         0        30",
    "     0     1         3        X",
    "     1     0         4        Y",
    "     0     0         5        Z",
];

/// Their product.
const PRODUCT: &[&str] = &[
    "  2     8    21",
    "         0        30",
    "         0        40",
    "         1        20",
    "         1        30",
    "         -        30",
    "         -        20",
    "         -         0",
    "         -        10",
    "     0     3         4        A        X",
    "     0     2         6        A        Z",
    "     0     1         5        B        X",
    "     0     0         7        B        Z",
    "     0     4        13                 X",
    "     0     5        15                 Z",
    "     0     6        21        A         ",
    "     0     7        22        B         ",
    "     1     2         5        A        Y",
    "     1     0         6        B        Y",
    "     1     5        14                 Y",
    "     1     6        31        A         ",
    "     1     7        32        B         ",
    "     2     4         3                 X",
    "     2     5         5                 Z",
    "     3     5         4                 Y",
    "     4     5         4                 Y",
    "     5     4         3                 X",
    "     5     5         5                 Z",
    "     7     6         1        A         ",
    "     7     7         2        B         ",
];

#[test]
fn a_product_in_the_order_of_request_2_2() {
    // (0, 0), (0, 1), (1, 0) and (1, 1) start; out of (0, 0) come the arcs of both, those after the first's end to 4
    // and 5 (the second at 1 and 0), and those after the second's end to 6 and 7 (the first at 1 and 0)
    assert_eq!(printed(product(&table_of(FIRST), &table_of(SECOND), Room::AMPLE)), text_of(PRODUCT));
}

/// A table that starts at its last state, has a state on no successful path, and arcs of one state apart.
const GIVEN: &[&str] = &[
    "  2     3     3",
    "         -         1",
    "         -         -",
    "         3         -",
    "     2     0         5        B        C",
    "     1     1         4        A         ",
    "     2     1         6                 D",
];

/// Another one that starts at its last state.
const SHORTER: &[&str] = &[
    "  2     2     2",
    "         -         8",
    "         7         -",
    "     1     0         9                 E",
    "     0     1         2        F         ",
];

/// Their union.
const UNITED: &[&str] = &[
    "  2     5     5",
    "         -         1",
    "         -         -",
    "         3         -",
    "         -         8",
    "         7         -",
    "     2     0         5        B        C",
    "     1     1         4        A         ",
    "     2     1         6                 D",
    "     4     3         9                 E",
    "     3     4         2        F         ",
];

/// Tapes 2, 1 and 2 of the first.
const CHOSEN: &[&str] = &[
    "  3     3     3",
    "         -         1",
    "         -         -",
    "         3         -",
    "     2     0         5        C        B        C",
    "     1     1         4                 A         ",
    "     2     1         6        D                 D",
];

/// The first without tape 1.
const DROPPED: &[&str] = &[
    "  1     3     3",
    "         -         1",
    "         -         -",
    "         3         -",
    "     2     0         5        C",
    "     1     1         4         ",
    "     2     1         6        D",
];

#[test]
fn a_union_keeps_the_order_given() {
    assert_eq!(printed(union(&table_of(GIVEN), &table_of(SHORTER), Room::AMPLE)), text_of(UNITED));
}

#[test]
fn choosing_keeps_the_order_given() {
    assert_eq!(printed(project(&table_of(GIVEN), &[2, 1, 2], Room::AMPLE)), text_of(CHOSEN));
}

#[test]
fn dropping_keeps_the_order_given() {
    assert_eq!(printed(drop_tapes(&table_of(GIVEN), 0b01, Room::AMPLE)), text_of(DROPPED));
}

#[test]
fn r_on_lent_bytes() {
    let space = |states: usize, arcs: usize| calls::ResultSpace { states: vec![7; 10 * states], arcs: vec![7; 80 * arcs] };
    let call = |states: usize, arcs: usize, short: usize| {
        let work = vec![7; 320 * states + 16 * arcs + 64 * 2 - short];
        calls::intersect(&encode(&r()), &[1, 2, 64], &space(states, arcs), &work)
    };
    assert_eq!(call(130, 193, 0).answer, Err(Refusal::Delay));
    assert_eq!(call(130, 192, 0).answer, Err(Refusal::ArcsFull));
    assert_eq!(call(129, 193, 0).answer, Err(Refusal::StatesFull));
    let short = call(129, 193, 1);
    assert_eq!(short.answer, Err(Refusal::Space));
    assert_eq!(short.result, space(129, 193));
    assert!(short.work.iter().all(|&byte| byte == 0));
}

/// A forecast of a delay and a number of states.
fn needs(delay: u64, number: u64) -> Forecast {
    Forecast::Needs { delay, number: Some(number) }
}

/// A forecast of a delay and "over".
fn over(delay: u64) -> Forecast {
    Forecast::Needs { delay, number: None }
}

/// A chain of so many states, each arc with these labels, and so many states more.
fn chain(states: usize, labels: &[&str], more: usize) -> Automaton {
    let rows: Vec<Row> = (1..states).map(|state| (state - 1, state, 0, labels)).collect();
    let mut automaton = first_to_last(2, states, &rows);
    automaton.states.extend(vec![State::default(); more]);
    automaton
}

#[test]
fn forecasts_of_the_worked_tables() {
    // P: delays 1, 0, -1 on three states; A and B in use on tapes 1 and 3, X, Y and Z too on tape 2
    assert_eq!(forecast(&p(), (1, 3)), needs(2, 3 * (1 + 2 * (2 + 4))));
    assert_eq!(forecast(&p(), (3, 1)), needs(2, 39));
    assert_eq!(forecast(&p(), (1, 2)), needs(2, 3 * (1 + 2 * (5 + 25))));
    assert_eq!(forecast(&p(), (2, 3)), needs(2, 183));
    assert_eq!(forecast(&q(), (1, 2)), needs(1, 2 * (1 + 2)));
    assert_eq!(forecast(&q(), (2, 1)), needs(1, 6));
    assert_eq!(forecast(&r(), (1, 2)), Forecast::Mixed);
    assert_eq!(forecast(&r(), (2, 1)), Forecast::Mixed);
    assert_eq!(forecast(&s(), (1, 2)), needs(0, 2));
}

#[test]
fn bounds_on_leftovers() {
    assert_eq!([leftovers(0, 0), leftovers(36, 0), leftovers(1, 1), leftovers(1, 64)], [1, 1, 3, 129]);
    assert_eq!([leftovers(2, 3), leftovers(3, 2), leftovers(36, 2)], [29, 25, 2_665]);
    assert_eq!([leftovers(2, 8_184), leftovers(36, 8_184)], [u64::MAX; 2]);
}

#[test]
fn forecasts_of_one_state() {
    let one = |rows: &[Row]| forecast(&first_to_last(2, 1, rows), (1, 2));
    assert_eq!(one(&[]), needs(0, 1));
    assert_eq!(one(&[(0, 0, 0, &["A", "B"])]), needs(0, 1));
    assert_eq!(one(&[(0, 0, 0, &["A", ""])]), needs(0, 1));
    assert_eq!(one(&[(0, 0, 0, &["", "A"]), (0, 0, 0, &["", "ABC"])]), needs(0, 1));
    assert_eq!(one(&[(0, 0, 0, &["", "ABC"]), (0, 0, 0, &["A", ""])]), Forecast::Mixed);
    assert_eq!(forecast(&table(2, &[(None, Some(0))], &[(0, 0, 0, &["A", ""]), (0, 0, 0, &["", "A"])]), (1, 2)), needs(0, 1));
}

#[test]
fn forecasts_of_loops_in_a_row() {
    let row = |first: &[&str], second: &[&str]| {
        let rows: &[Row] = &[(0, 0, 0, first), (0, 1, 0, &["", ""]), (1, 1, 0, second)];
        forecast(&first_to_last(2, 2, rows), (1, 2))
    };
    assert_eq!(row(&["A", ""], &["AA", ""]), needs(2, 2 * 5));
    assert_eq!(row(&["", "AA"], &["", "A"]), needs(2, 10));
    assert_eq!(row(&["A", "B"], &["", "A"]), needs(1, 2 * 5));
    assert_eq!(row(&["A", ""], &["", "A"]), Forecast::Mixed);
    assert_eq!(row(&["", "A"], &["A", ""]), Forecast::Mixed);
}

#[test]
fn forecasts_of_rings() {
    // both ways round are even; then one rises by one; then a ring that rises and one that falls share a state
    let ring = |labels: [&[&str]; 4]| {
        let rows: &[Row] =
            &[(0, 1, 0, labels[0]), (1, 0, 0, labels[1]), (1, 2, 0, labels[2]), (2, 1, 0, labels[3]), (2, 3, 0, &["", ""])];
        forecast(&first_to_last(2, 4, rows), (1, 2))
    };
    assert_eq!(ring([&["AA", ""], &["", "AA"], &["", "A"], &["A", ""]]), needs(6, 4 * 13));
    assert_eq!(ring([&["AA", ""], &["", "A"], &["", "A"], &["A", ""]]), needs(6, 52));
    assert_eq!(ring([&["AA", ""], &["", "A"], &["", "AA"], &["A", ""]]), Forecast::Mixed);
    assert_eq!(ring([&["", ""], &["", "A"], &["A", ""], &["", ""]]), Forecast::Mixed);
}

#[test]
fn cycles_of_both_signs_on_two_branches() {
    let rows: &[Row] = &[
        (0, 1, 0, &["", ""]),
        (0, 2, 0, &["", ""]),
        (1, 1, 0, &["A", ""]),
        (2, 2, 0, &["", "A"]),
        (1, 3, 0, &["", ""]),
        (2, 3, 0, &["", ""]),
        (3, 3, 0, &["A", "A"]),
    ];
    assert_eq!(forecast(&first_to_last(2, 4, rows), (1, 2)), needs(3, 4 * 7));
    // a path from one branch to the other, and a way back from the last state to the first
    assert_eq!(forecast(&first_to_last(2, 4, &[rows, &[(2, 1, 0, &["", ""])]].concat()), (1, 2)), Forecast::Mixed);
    assert_eq!(forecast(&first_to_last(2, 4, &[rows, &[(3, 0, 0, &["", ""])]].concat()), (1, 2)), Forecast::Mixed);
}

#[test]
fn cycles_of_both_signs_at_a_dead_end() {
    // 0 to 1 is successful; 2 leads nowhere, 3 is not led to; their long labels do not count, their symbols do
    let rows: &[Row] = &[
        (0, 0, 0, &["A", ""]),
        (0, 1, 0, &["AB", "B"]),
        (1, 2, 0, &["", "CCCC"]),
        (2, 2, 0, &["", "CCCC"]),
        (3, 3, 0, &["", "D"]),
        (3, 0, 0, &["", "DDDDDDDD"]),
    ];
    assert_eq!(forecast(&first_to_last(2, 2, &rows[..2]), (1, 2)), needs(1, 2 * 5));
    let weights = [(Some(0), None), (None, Some(0)), (None, None), (None, None)];
    assert_eq!(forecast(&table(2, &weights, rows), (1, 2)), needs(1, 4 * 9));
    let mut led_to = weights;
    led_to[2].1 = Some(0);
    assert_eq!(forecast(&table(2, &led_to, rows), (1, 2)), Forecast::Mixed);
    let mut leading = weights;
    leading[3].0 = Some(0);
    assert_eq!(forecast(&table(2, &leading, rows), (1, 2)), Forecast::Mixed);
}

#[test]
fn forecasts_over_and_long() {
    assert_eq!(forecast(&chain(65, &["A", ""], 0), (1, 2)), needs(64, 65 * 129));
    assert_eq!(forecast(&chain(66, &["A", ""], 0), (1, 2)), needs(65, 66 * 131));
    assert_eq!(forecast(&chain(17, &["", "AAAAAAAA"], 238), (1, 2)), needs(128, 65_535));
    assert_eq!(forecast(&chain(17, &["", "AAAAAAAA"], 239), (1, 2)), over(128));
    assert_eq!(forecast(&chain(2, &["AB", ""], 1_022), (1, 2)), needs(2, 1_024 * 13));
    assert_eq!(forecast(&chain(10, &["A", "ABC"], 0), (1, 2)), over(18));
    assert_eq!(forecast(&chain(1_024, &["AAAAAAAA", ""], 0), (1, 2)), over(8_184));
    assert_eq!(forecast(&chain(1_024, &["ABCDEFGH", ""], 0), (1, 2)), over(8_184));
    assert_eq!(forecast(&chain(1_024, &["ABCDEFGH", "ABCDEFGH"], 0), (1, 2)), needs(0, 1_024));
}

#[test]
fn forecasts_without_states_or_pairs() {
    assert_eq!(forecast(&Automaton::empty(2), (1, 2)), needs(0, 0));
    let lone = table(2, &[(Some(0), None), (None, Some(0))], &[(1, 0, 0, &["A", ""])]);
    assert_eq!(forecast(&lone, (1, 2)), needs(0, 2));
    let none = calls::forecast(&encode(&r()), &[], &[7; 3], &[7; 128]);
    assert_eq!((none.answer, none.result, none.work), (Ok(0), vec![7; 3], vec![0; 128]));
}
