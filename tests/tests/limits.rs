//! A limit for each pair (request 2.4): cases worked on paper, refusals of calls in their order, and random cases
//! against document 01's single D and against the words of the request.

use tomchoen_tests::automaton::{Automaton, Room};
use tomchoen_tests::calls::{self, JoinRequest, ResultSpace};
use tomchoen_tests::generate::{case, small_case};
use tomchoen_tests::intersect::intersect;
use tomchoen_tests::join::join;
use tomchoen_tests::join_cases::{join_case, JoinCase};
use tomchoen_tests::memory::{encode, ARC_BYTES, STATE_BYTES};
use tomchoen_tests::pairs::{limited, LimitedPair, Pair, MOST_LIMIT};
use tomchoen_tests::product::judge_width;
use tomchoen_tests::random::Random;
use tomchoen_tests::refusal::Refusal;
use tomchoen_tests::sample::{first_to_last, r, Row};
use tomchoen_tests::word_for_word::{join_with_one_limit, keep_with_one_limit};

/// Keeping with ample space.
fn keep(automaton: &Automaton, pairs: &[LimitedPair]) -> Result<Automaton, Refusal> {
    intersect(automaton, pairs, Room::AMPLE)
}

/// A join with ample space.
fn joined(first: &Automaton, second: &Automaton, pairs: &[LimitedPair]) -> Result<Automaton, Refusal> {
    join(first, second, pairs, Room::AMPLE, Room::AMPLE)
}

/// Ample space and work for a call.
fn ample() -> (ResultSpace, Vec<u8>) {
    (ResultSpace { states: vec![7; 40 * STATE_BYTES], arcs: vec![7; 40 * ARC_BYTES] }, vec![7; 40_000])
}

/// The number of the refusal of a build on lent bytes, 0 where a table is given.
fn build_refuses(automaton: &Automaton, pairs: &[u8]) -> u64 {
    let (result, work) = ample();
    calls::intersect(&encode(automaton), pairs, &result, &work).answer.err().map_or(0, Refusal::number)
}

/// The same of a join.
fn join_refuses(first: &Automaton, second: &Automaton, pairs: &[u8]) -> u64 {
    let ((result, work), (product, _)) = (ample(), ample());
    let request = JoinRequest { pairs: pairs.to_vec(), product, result, work };
    calls::join(&encode(first), &encode(second), &request).answer.err().map_or(0, Refusal::number)
}

/// Tickets on tapes 1 and 3, the bill of all five on tape 2 at the end, a receipt on tape 4 one arc after its ticket.
fn bills_and_receipts() -> Automaton {
    let first: Row = (0, 1, 1, &["A", "", "A", ""]);
    let between = (1..5).map(|state| -> Row { (state, state + 1, 1, &["A", "", "A", "A"]) });
    let last: Row = (5, 6, 1, &["", "AAAAA", "", "A"]);
    first_to_last(4, 7, &[first].into_iter().chain(between).chain([last]).collect::<Vec<Row>>())
}

#[test]
fn each_pair_is_held_to_its_own_limit() {
    let table = bills_and_receipts();
    let at = |bills, receipts| {
        let in_order = keep(&table, &[((1, 2), bills), ((3, 4), receipts)]);
        assert_eq!(keep(&table, &[((4, 3), receipts), ((1, 2), bills)]), in_order);
        assert_eq!(keep(&table, &[((3, 4), receipts), ((2, 1), bills)]), in_order);
        in_order
    };
    // what is kept is the table itself; the bill's pair alone decides 10, then the receipt's, then both
    for (bills, receipts) in [(5, 1), (5, 64), (64, 1), (64, 64), (5, 5), (6, 2)] {
        assert_eq!(at(bills, receipts), Ok(table.clone()), "limits {bills} and {receipts}");
    }
    for (bills, receipts) in [(4, 1), (4, 64), (0, 64), (1, 5), (5, 0), (64, 0), (4, 0), (0, 0), (1, 1), (4, 4)] {
        assert_eq!(at(bills, receipts), Err(Refusal::Delay), "limits {bills} and {receipts}");
    }
}

/// A chain that writes 1, 2, 3 and 4 symbols on tapes 1, 3, 5 and 7, and then on tapes 2, 4, 6 and 8.
fn four_lags() -> Automaton {
    let rows: &[Row] =
        &[(0, 1, 1, &["A", "", "BB", "", "CCC", "", "DDDD", ""]), (1, 2, 2, &["", "A", "", "BB", "", "CCC", "", "DDDD"])];
    first_to_last(8, 3, rows)
}

/// All orders of the numbers 0 to 3.
fn orders() -> Vec<[usize; 4]> {
    let numbers = (0..256).map(|number| [number / 64, number / 16 % 4, number / 4 % 4, number % 4]);
    numbers.filter(|order| (0..4).all(|number| order.contains(&number))).collect()
}

#[test]
fn four_pairs_with_four_limits() {
    let table = four_lags();
    let pairs: [Pair; 4] = [(1, 2), (3, 4), (5, 6), (7, 8)];
    let limits = [1, 2, 3, 4];
    assert_eq!(orders().len(), 24);
    for order in orders() {
        // limits that go with their pairs, in any order of the list; limits in any other order than the pairs
        let with_their_pairs = order.map(|place| (pairs[place], limits[place]));
        assert_eq!(keep(&table, &with_their_pairs), Ok(table.clone()), "{order:?}");
        let exchanged = [0, 1, 2, 3].map(|place| (pairs[place], limits[order[place]]));
        let expected = if order == [0, 1, 2, 3] { Ok(table.clone()) } else { Err(Refusal::Delay) };
        assert_eq!(keep(&table, &exchanged), expected, "{order:?}");
    }
    for place in 0..4 {
        for (others, limit) in [(0, 0), (1, 0), (60, 0), (0, 1), (60, 1)] {
            let at = |other: usize| if other == place { limits[other] - 1 + limit } else { limits[other] + others };
            let expected = if limit == 1 { Ok(table.clone()) } else { Err(Refusal::Delay) };
            assert_eq!(keep(&table, &[0, 1, 2, 3].map(|other| (pairs[other], at(other)))), expected, "place {place}");
        }
    }
}

#[test]
fn the_greatest_limit_in_each_place() {
    // eight symbols on each of eight arcs, then the same on the other tape: 64 are left over
    for place in 0..4 {
        let labels = |tape: usize| -> Vec<&str> { (0..8).map(|other| if other == tape { "ABCDEFGH" } else { "" }).collect() };
        let (ahead, behind) = (labels(2 * place), labels(2 * place + 1));
        let row = |state: usize| -> Row { (state, state + 1, 1, if state < 8 { &ahead } else { &behind }) };
        let table = first_to_last(8, 17, &(0..16).map(row).collect::<Vec<Row>>());
        let list = |limit: u8| -> Vec<u8> {
            (0..4).flat_map(|pair| [2 * pair + 1, 2 * pair + 2, if usize::from(pair) == place { limit } else { 0 }]).collect()
        };
        for (limit, refusal) in [(64, 0), (63, 10), (0, 10), (65, 7), (66, 7), (128, 7), (255, 7)] {
            assert_eq!(build_refuses(&table, &list(limit)), refusal, "{limit} in place {place}");
        }
    }
}

/// R with a second pair, tapes 3 and 4, that is always even.
fn r_and_an_even_pair() -> Automaton {
    let mut automaton = r();
    automaton.tapes = 4;
    automaton.arcs.iter_mut().for_each(|arc| arc.labels.extend([b"X".to_vec(), b"X".to_vec()]));
    automaton
}

#[test]
fn the_limits_tell_how_many_are_reached() {
    // with the limit D on tapes 1 = 2, R reaches 2(D + 1) configurations with 3D + 1 arcs between them, and then 10
    for limit in [0, 1, 2, 5, 64] {
        let (states, arcs) = (2 * (limit + 1), 3 * limit + 1);
        for other in [0, 1, 64] {
            for pairs in [[((1, 2), limit), ((3, 4), other)], [((3, 4), other), ((1, 2), limit)]] {
                let at = |states, arcs| intersect(&r_and_an_even_pair(), &pairs, Room { states, arcs });
                assert_eq!(at(states, arcs), Err(Refusal::Delay), "limits {limit} and {other}");
                assert_eq!(at(states - 1, arcs), Err(Refusal::StatesFull), "limits {limit} and {other}");
                assert_eq!(at(states, arcs - 1), Err(Refusal::ArcsFull), "limits {limit} and {other}");
            }
        }
    }
}

/// Tickets on two tapes; and what follows them: a bill at the end, and a receipt one arc late.
fn tables_to_join() -> [Automaton; 2] {
    let tickets: &[Row] = &[(0, 1, 1, &["A", "X"]), (1, 2, 1, &["A", "X"]), (2, 3, 1, &["A", "X"])];
    let followers: &[Row] = &[(0, 1, 10, &["", ""]), (1, 2, 10, &["X", ""]), (2, 3, 10, &["XX", "AAA"])];
    [first_to_last(2, 4, tickets), first_to_last(2, 4, followers)]
}

#[test]
fn each_pair_of_a_join_is_held_to_its_own_limit() {
    let [tickets, followers] = tables_to_join();
    let rows: &[Row] = &[(0, 1, 11, &["A", "X"]), (1, 2, 11, &["A", "X"]), (2, 3, 11, &["A", "X"])];
    let given = first_to_last(2, 4, rows);
    let at = |bills, receipts| {
        let in_order = joined(&tickets, &followers, &[((1, 2), bills), ((2, 1), receipts)]);
        assert_eq!(joined(&tickets, &followers, &[((2, 1), receipts), ((1, 2), bills)]), in_order);
        in_order
    };
    for (bills, receipts) in [(2, 1), (2, 64), (64, 1), (64, 64), (2, 2)] {
        assert_eq!(at(bills, receipts), Ok(given.clone()), "limits {bills} and {receipts}");
    }
    for (bills, receipts) in [(1, 1), (1, 64), (0, 64), (2, 0), (64, 0), (1, 2), (0, 0)] {
        assert_eq!(at(bills, receipts), Err(Refusal::Delay), "limits {bills} and {receipts}");
    }
}

#[test]
fn a_join_on_four_pairs_with_four_limits() {
    let first = first_to_last(4, 3, &[(0, 1, 1, &["A", "BB", "CCC", "DDDD"]), (1, 2, 1, &["", "", "", ""])]);
    let second = first_to_last(4, 3, &[(0, 1, 2, &["", "", "", ""]), (1, 2, 2, &["DDDD", "A", "CCC", "BB"])]);
    let pairs: [Pair; 4] = [(1, 2), (2, 4), (3, 3), (4, 1)];
    let given = first_to_last(4, 3, &[(0, 1, 3, &["A", "BB", "CCC", "DDDD"]), (1, 2, 3, &["", "", "", ""])]);
    for order in orders() {
        let with_their_pairs = order.map(|place| (pairs[place], place as u64 + 1));
        assert_eq!(joined(&first, &second, &with_their_pairs), Ok(given.clone()), "{order:?}");
        let exchanged = [0, 1, 2, 3].map(|place| (pairs[place], order[place] as u64 + 1));
        let expected = if order == [0, 1, 2, 3] { Ok(given.clone()) } else { Err(Refusal::Delay) };
        assert_eq!(joined(&first, &second, &exchanged), expected, "{order:?}");
    }
}

#[test]
fn limits_are_judged_after_tapes_and_pairs() {
    let table = four_lags();
    let good = [1, 2, 1, 3, 4, 2, 5, 6, 3, 7, 8, 4];
    assert_eq!(build_refuses(&table, &good), 0);
    for place in 0..4 {
        let mut limit = good;
        limit[3 * place + 2] = 65;
        assert_eq!(build_refuses(&table, &limit), 7, "place {place}");
        for other in 0..4 {
            let (mut foreign, mut none, mut twice) = (limit, limit, limit);
            foreign[3 * other] = 9;
            none[3 * other + 1] = 0;
            twice[3 * other] = twice[3 * ((other + 1) % 4)];
            assert_eq!([&foreign, &none, &twice].map(|list| build_refuses(&table, list)), [5, 5, 6], "{place}, {other}");
        }
        assert_eq!(build_refuses(&table, &[&limit[..], &[1, 2, 65]].concat()), 6, "place {place}");
        assert_eq!(build_refuses(&table, &[&limit[..], &[9, 9, 0]].concat()), 5, "place {place}");
    }
}

#[test]
fn limits_of_a_join_are_judged_after_tapes_and_pairs() {
    let [first, second] = [first_to_last(4, 1, &[]), first_to_last(4, 1, &[])];
    let good = [1, 1, 0, 2, 2, 64, 3, 3, 0, 4, 4, 64];
    assert_eq!(join_refuses(&first, &second, &good), 0);
    for place in 0..4 {
        let mut limit = good;
        limit[3 * place + 2] = 65;
        assert_eq!(join_refuses(&first, &second, &limit), 7, "place {place}");
        for other in 0..4 {
            let (mut foreign, mut twice) = (limit, limit);
            foreign[3 * other + 1] = 5;
            twice[3 * other] = twice[3 * ((other + 1) % 4)];
            assert_eq!([&foreign, &twice].map(|list| join_refuses(&first, &second, list)), [5, 6], "{place}, {other}");
        }
        assert_eq!(join_refuses(&first, &second, &[&limit[..], &[1, 1, 65]].concat()), 6, "place {place}");
        assert_eq!(join_refuses(&first_to_last(5, 1, &[]), &second, &limit), 12, "place {place}");
    }
}

#[test]
fn without_pairs_there_is_no_limit() {
    let table = four_lags();
    let [first, second] = tables_to_join();
    for list in [&[][..], &[65], &[255, 255]] {
        assert_eq!((build_refuses(&table, list), join_refuses(&first, &second, list)), (0, 0), "{list:?}");
    }
}

#[test]
fn last_bytes_are_no_pair() {
    let table = bills_and_receipts();
    for last in [&[][..], &[0], &[65], &[1], &[9, 9], &[1, 2], &[3, 4], &[255, 255]] {
        assert_eq!(build_refuses(&table, &[&[1, 2, 5][..], last].concat()), 0, "{last:?}");
        assert_eq!(build_refuses(&table, &[&[1, 2, 4][..], last].concat()), 10, "{last:?}");
        assert_eq!(build_refuses(&table, &[&[1, 2, 5, 3, 4, 0][..], last].concat()), 10, "{last:?}");
        let [first, second] = tables_to_join();
        assert_eq!(join_refuses(&first, &second, &[&[1, 2, 2][..], last].concat()), 0, "{last:?}");
        assert_eq!(join_refuses(&first, &second, &[&[1, 2, 1][..], last].concat()), 10, "{last:?}");
    }
}

/// The tapes of some pairs, and each pair with one limit.
fn with_one_limit(pairs: &[LimitedPair], limit: u64) -> (Vec<Pair>, Vec<LimitedPair>) {
    (pairs.iter().map(|pair| pair.0).collect(), pairs.iter().map(|pair| (pair.0, limit)).collect())
}

#[test]
fn equal_limits_are_the_single_limit_of_document_01() {
    let (mut given, mut refused) = (0, 0);
    for seed in 0..4_000 {
        let mut random = Random::new(seed);
        let case = small_case(&mut random);
        let room = Room { states: random.pick(&[1, 8, 20, 1_024]), arcs: random.pick(&[2, 12, 30, 8_192]) };
        let limit = random.pick(&[0, 1, 2, 3, 5, 64]);
        let (pairs, records) = with_one_limit(&limited(&case.pairs), limit);
        let ours = intersect(&case.automaton, &records, room);
        assert_eq!(ours, keep_with_one_limit(&case.automaton, &pairs, limit, room), "seed {seed}");
        given += usize::from(ours.is_ok() && !pairs.is_empty());
        refused += usize::from(ours == Err(Refusal::Delay));
    }
    assert!(given > 1_000 && refused > 500, "{given} tables given, {refused} refused");
}

/// Tables and pairs for a join that are not too wide.
fn narrow_join(random: &mut Random) -> JoinCase {
    loop {
        let case = join_case(random);
        if judge_width(&case.first, &case.second).is_ok() {
            return case;
        }
    }
}

#[test]
fn equal_limits_of_a_join_are_its_single_limit() {
    let (mut given, mut refused) = (0, 0);
    for seed in 0..1_500 {
        let mut random = Random::new(seed);
        let JoinCase { first, second, pairs } = narrow_join(&mut random);
        let limit = random.pick(&[0, 1, 2, 3, 5, 64]);
        let (pairs, records) = with_one_limit(&limited(&pairs), limit);
        let room = Room { states: random.pick(&[8, 50, 200]), arcs: random.pick(&[8, 50, 400]) };
        let ours = join(&first, &second, &records, Room::AMPLE, room);
        assert_eq!(ours, join_with_one_limit(&first, &second, &pairs, limit, Room::AMPLE, room), "seed {seed}");
        given += usize::from(ours.is_ok() && !pairs.is_empty());
        refused += usize::from(ours == Err(Refusal::Delay));
    }
    assert!(given > 300 && refused > 100, "{given} tables given, {refused} refused");
}

/// The pairs with the limit in a place, or all limits, raised at random, none above 64.
fn raised(random: &mut Random, pairs: &[LimitedPair], place: Option<usize>) -> Vec<LimitedPair> {
    let mut pairs = pairs.to_vec();
    let chosen = (0..pairs.len()).filter(|&other| place.is_none_or(|place| place == other));
    for other in chosen.collect::<Vec<usize>>() {
        pairs[other].1 = random.range(pairs[other].1 as usize, MOST_LIMIT as usize) as u64;
    }
    pairs
}

#[test]
fn a_table_given_stays_when_limits_are_raised() {
    let mut tables = 0;
    for seed in 0..3_000 {
        let mut random = Random::new(seed);
        let case = if random.chance(20) { case(&mut random) } else { small_case(&mut random) };
        let room = Room { states: random.pick(&[4, 20, 64]), arcs: random.pick(&[8, 60, 512]) };
        let pairs = limited(&case.pairs);
        let Ok(kept) = intersect(&case.automaton, &pairs, room) else { continue };
        for place in (0..pairs.len()).map(Some).chain([None]) {
            let again = raised(&mut random, &pairs, place);
            assert_eq!(keep(&case.automaton, &again), Ok(kept.clone()), "seed {seed}: {again:?}");
        }
        tables += usize::from(pairs.len() > 1);
    }
    assert!(tables > 300, "only {tables} tables of several pairs");
}

#[test]
fn a_join_given_stays_when_limits_are_raised() {
    let mut tables = 0;
    for seed in 0..1_500 {
        let mut random = Random::new(seed);
        let JoinCase { first, second, pairs } = narrow_join(&mut random);
        let pairs = limited(&pairs);
        let Ok(given) = joined(&first, &second, &pairs) else { continue };
        for place in (0..pairs.len()).map(Some).chain([None]) {
            let again = raised(&mut random, &pairs, place);
            assert_eq!(joined(&first, &second, &again), Ok(given.clone()), "seed {seed}: {again:?}");
        }
        tables += usize::from(pairs.len() > 1);
    }
    assert!(tables > 200, "only {tables} tables of several pairs");
}

#[test]
fn a_lower_limit_gives_the_same_table_or_is_refused() {
    let (mut given, mut refused) = (0, 0);
    for seed in 0..3_000 {
        let mut random = Random::new(seed);
        let case = small_case(&mut random);
        let mut pairs = limited(&case.pairs);
        let Ok(kept) = keep(&case.automaton, &pairs) else { continue };
        if pairs.is_empty() {
            continue;
        }
        let place = random.below(pairs.len());
        pairs[place].1 = random.below(pairs[place].1 as usize + 1) as u64;
        match keep(&case.automaton, &pairs) {
            Ok(other) => {
                assert_eq!(other, kept, "seed {seed}");
                given += 1;
            }
            Err(refusal) => {
                assert_eq!(refusal, Refusal::Delay, "seed {seed}");
                refused += 1;
            }
        }
    }
    assert!(given > 500 && refused > 100, "{given} tables given, {refused} refused");
}

#[test]
fn the_order_of_the_list_and_of_a_pair_alters_nothing() {
    for seed in 0..3_000 {
        let mut random = Random::new(seed);
        let case = small_case(&mut random);
        let pairs = limited(&case.pairs);
        let turned = |&((first, second), limit): &LimitedPair| ((second, first), limit);
        let mixed: Vec<LimitedPair> =
            random.shuffled(&pairs).iter().map(|pair| if random.chance(50) { turned(pair) } else { *pair }).collect();
        assert_eq!(keep(&case.automaton, &mixed), keep(&case.automaton, &pairs), "seed {seed}: {mixed:?}");
    }
}

#[test]
fn some_pairs_first_with_limits_of_their_own() {
    let mut tables = 0;
    for seed in 0..3_000 {
        let mut random = Random::new(seed);
        let case = small_case(&mut random);
        let pairs = limited(&case.pairs);
        let Ok(at_once) = keep(&case.automaton, &pairs) else { continue };
        let (one, rest) = pairs.split_at(random.below(pairs.len() + 1));
        let others = if random.chance(50) { rest.to_vec() } else { raised(&mut random, rest, None) };
        let Ok(first) = keep(&case.automaton, one) else { continue };
        let Ok(then) = keep(&first, &others) else { continue };
        assert_eq!(then, at_once, "seed {seed}");
        tables += usize::from(!one.is_empty() && !rest.is_empty());
    }
    assert!(tables > 200, "only {tables} tables");
}
