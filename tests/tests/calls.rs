//! The calls on lent bytes: refusals in their order, and what every lent byte holds afterwards.

use std::collections::BTreeMap;
use tomchoen_tests::automaton::{Automaton, State};
use tomchoen_tests::calls::{self, Counts, JoinRequest, PathOutcome, PathRequest, ResultSpace, TableOutcome};
use tomchoen_tests::damage::damaged_table;
use tomchoen_tests::generate::small_case;
use tomchoen_tests::memory::{encode, judge, LentTable, ARC_BYTES, STATE_BYTES};
use tomchoen_tests::random::Random;
use tomchoen_tests::refusal::Refusal;
use tomchoen_tests::requests::{outcome, request, Outcome, Request};
use tomchoen_tests::sample::{first_to_last, p, q, s, table, Row};
use tomchoen_tests::text::write;

/// Space of so many records and a few bytes more, filled with a mark.
fn space(states: usize, arcs: usize) -> ResultSpace {
    ResultSpace { states: vec![0xa5; STATE_BYTES * states + 3], arcs: vec![0xa5; ARC_BYTES * arcs + 7] }
}

/// Work space filled with a mark.
fn work(bytes: usize) -> Vec<u8> {
    vec![0xa5; bytes]
}

/// Checks what an outcome leaves behind: records over the front and the rest kept, or all kept; other space zero.
fn check_bytes(outcome: &TableOutcome, lent: &ResultSpace, work: usize) {
    let cleared = |bytes: &[u8]| bytes.iter().all(|&byte| byte == 0);
    assert!(outcome.work.len() == work && cleared(&outcome.work));
    assert!(cleared(&outcome.product.states) && cleared(&outcome.product.arcs));
    match outcome.answer {
        Err(_) => assert_eq!(outcome.result, *lent),
        Ok(counts) => {
            let used = (counts.states as usize * STATE_BYTES, counts.arcs as usize * ARC_BYTES);
            assert_eq!(outcome.result.states[used.0..], lent.states[used.0..]);
            assert_eq!(outcome.result.arcs[used.1..], lent.arcs[used.1..]);
        }
    }
}

/// The table that an outcome gives.
fn given(outcome: &TableOutcome) -> Automaton {
    let counts = outcome.answer.unwrap();
    let Counts { tapes, states, arcs } = counts;
    let (state_records, arc_records) = (outcome.result.states.clone(), outcome.result.arcs.clone());
    judge(&LentTable { tapes, states, arcs, state_records, arc_records }).unwrap()
}

/// The table that an outcome gives, or its refusal.
fn answered(outcome: &TableOutcome) -> Result<Automaton, Refusal> {
    outcome.answer.map(|_| given(outcome))
}

/// A table without arcs that is refused with 2.
fn malformed() -> LentTable {
    let mut table = encode(&table(1, &[(None, None)], &[]));
    table.state_records[0] = 2;
    table
}

/// A table with one altered byte of its arc records.
fn with_arc_byte(at: usize, byte: u8) -> LentTable {
    let mut table = encode(&p());
    table.arc_records[at] = byte;
    table
}

/// The refusal of a table in memory, 0 where it is good.
fn refused(table: &LentTable) -> u64 {
    judge(table).err().map_or(0, Refusal::number)
}

#[test]
fn records_are_laid_out_as_designed() {
    let automaton = table(2, &[(Some(258), None), (None, Some(3))], &[(0, 1, 999_999_999, &["AB", ""])]);
    let table = encode(&automaton);
    assert_eq!(table.state_records, [1, 2, 1, 0, 0, 0, 0, 0, 0, 0, 0, 0, 0, 0, 0, 1, 3, 0, 0, 0]);
    assert_eq!(table.arc_records[..12], [0, 0, 1, 0, 0xff, 0xc9, 0x9a, 0x3b, 2, b'A', b'B', 0]);
    assert!(table.arc_records.len() == 80 && table.arc_records[12..].iter().all(|&byte| byte == 0));
    assert_eq!(judge(&table), Ok(automaton));
}

#[test]
fn counts_before_records() {
    for (tapes, states, arcs) in [(0, 0, 0), (9, 0, 0), (1, 1_025, 0), (1, 0, 8_193)] {
        assert_eq!(refused(&LentTable { tapes, states, arcs, state_records: vec![9; 5], arc_records: Vec::new() }), 3);
    }
}

#[test]
fn records_in_order() {
    let good = encode(&p());
    assert_eq!(refused(&good), 0);
    assert_eq!(refused(&LentTable { states: 4, ..good.clone() }), 1);
    assert_eq!(refused(&LentTable { arcs: 4, ..good.clone() }), 1);
    let mut cut = malformed();
    cut.states = 2;
    assert_eq!(refused(&cut), 2);
    cut.state_records[0] = 1;
    assert_eq!(refused(&cut), 1);
    let mut longer = good.clone();
    longer.state_records.extend([9; 10]);
    longer.arc_records.extend([9; 80]);
    assert_eq!(judge(&longer), judge(&good));
}

#[test]
fn faults_of_a_state_record() {
    let record = |record: [u8; 10]| {
        refused(&LentTable { tapes: 1, states: 1, arcs: 0, state_records: record.to_vec(), arc_records: Vec::new() })
    };
    assert_eq!(record([0, 0, 0, 0, 0, 1, 0xff, 0xc9, 0x9a, 0x3b]), 0);
    assert_eq!(record([0, 0, 0, 0, 0, 1, 0, 0xca, 0x9a, 0x3b]), 3);
    assert_eq!(record([0, 1, 0, 0, 0, 1, 0, 0xca, 0x9a, 0x3b]), 2);
    assert_eq!(record([1, 0, 0xca, 0x9a, 0x3b, 2, 0, 0, 0, 0]), 2);
    assert_eq!(record([1, 0, 0xca, 0x9a, 0x3b, 0, 0, 0, 0, 1]), 2);
}

#[test]
fn faults_of_an_arc_record() {
    // the first arc of P: source, target, weight in 0..8, label of tape 1 in 8..17, of tape 4 in 35..44
    assert_eq!(refused(&with_arc_byte(9, b'a')), 2);
    assert_eq!(refused(&with_arc_byte(10, b'A')), 2);
    assert_eq!(refused(&with_arc_byte(35, 1)), 2);
    assert_eq!(refused(&with_arc_byte(79, 1)), 2);
    assert_eq!(refused(&with_arc_byte(7, 0x3c)), 3);
    assert_eq!(refused(&with_arc_byte(0, 3)), 4);
    assert_eq!(refused(&with_arc_byte(3, 1)), 4);
    let mut table = with_arc_byte(8, 9);
    assert_eq!(refused(&table), 2);
    table.arc_records[9..17].copy_from_slice(b"ABCDEFGH");
    assert_eq!(refused(&table), 3);
    table.arc_records[0] = 3;
    assert_eq!(refused(&table), 3);
    table.arc_records[7] = 0xff;
    table.arc_records[40] = 1;
    assert_eq!(refused(&table), 2);
}

#[test]
fn reading_and_writing() {
    let text = write(&p());
    let lent = space(3, 3);
    let outcome = calls::read(&text, &lent);
    check_bytes(&outcome, &lent, 0);
    assert_eq!(given(&outcome), p());
    assert_eq!(calls::read(&text, &space(2, 0)).answer, Err(Refusal::StatesFull));
    assert_eq!(calls::read(&text, &space(3, 2)).answer, Err(Refusal::ArcsFull));
    let written = calls::write(&encode(&p()), &work(text.len() + 5));
    assert_eq!(written.answer, Ok(text.len() as u64));
    assert_eq!(written.output, [&text[..], &[0xa5; 5]].concat());
    let short = calls::write(&encode(&p()), &work(text.len() - 1));
    assert_eq!((short.answer, short.output), (Err(Refusal::Space), work(text.len() - 1)));
    assert_eq!(calls::write(&malformed(), &[]).answer, Err(Refusal::Form));
}

#[test]
fn order_of_keeping() {
    let call = |table: &LentTable, pairs: &[u8], lent: &ResultSpace, bytes| {
        let outcome = calls::intersect(table, pairs, lent, &work(bytes));
        check_bytes(&outcome, lent, bytes);
        answered(&outcome)
    };
    let (table, small, need) = (encode(&q()), space(1, 1), 320 + 16 + 128);
    assert_eq!(call(&malformed(), &[9, 9, 65], &small, 0), Err(Refusal::Form));
    assert_eq!(call(&table, &[1, 1, 65, 1, 3, 0], &small, 0), Err(Refusal::Tape));
    assert_eq!(call(&table, &[1, 1, 65], &small, 0), Err(Refusal::Pairs));
    assert_eq!(call(&table, &[1, 2, 65], &small, 0), Err(Refusal::Limit));
    assert_eq!(call(&table, &[1, 2, 1], &small, need - 1), Err(Refusal::Space));
    assert_eq!(call(&table, &[1, 2, 1], &small, need), Err(Refusal::StatesFull));
    assert_eq!(call(&table, &[1, 2, 1], &space(3, 1), 3 * 320 + 16 + 128), Err(Refusal::ArcsFull));
    assert_eq!(call(&table, &[1, 2, 0], &space(3, 3), 9_999), Err(Refusal::Delay));
    let kept = first_to_last(2, 3, &[(0, 1, 0, &["A", ""]), (1, 2, 0, &["", "A"])]);
    assert_eq!(call(&table, &[1, 2, 1], &space(3, 2), 9_999), Ok(kept));
    // four and five pairs
    let even = first_to_last(8, 2, &[(0, 1, 1, &["A"; 8])]);
    let (eight, four) = (encode(&even), [1, 2, 64, 3, 4, 0, 5, 6, 1, 8, 7, 64]);
    assert_eq!(call(&eight, &four, &space(2, 1), 9_999), Ok(even));
    assert_eq!(call(&eight, &[&four[..], &[1, 2, 0]].concat(), &space(2, 1), 9_999), Err(Refusal::Pairs));
}

#[test]
fn order_of_a_product() {
    let call = |first: &LentTable, second: &LentTable, lent: &ResultSpace, bytes| {
        let outcome = calls::product(first, second, lent, &work(bytes));
        check_bytes(&outcome, lent, bytes);
        answered(&outcome)
    };
    let heavy = encode(&table(1, &[(Some(0), Some(999_999_999))], &[]));
    let one = encode(&first_to_last(1, 2, &[(0, 1, 1, &["A"])]));
    let wide = encode(&Automaton::empty(8));
    let mut sized = one.clone();
    sized.tapes = 9;
    assert_eq!(call(&malformed(), &sized, &space(0, 0), 0), Err(Refusal::Form));
    assert_eq!(call(&sized, &malformed(), &space(0, 0), 0), Err(Refusal::Size));
    assert_eq!(call(&wide, &malformed(), &space(0, 0), 0), Err(Refusal::Form));
    assert_eq!(call(&wide, &one, &space(1, 0), 0), Err(Refusal::Width));
    assert_eq!(call(&heavy, &one, &space(1, 0), 15), Err(Refusal::Space));
    assert_eq!(call(&heavy, &one, &space(1, 0), 16), Err(Refusal::StatesFull));
    assert_eq!(call(&heavy, &one, &space(2, 0), 32), Err(Refusal::ArcsFull));
    assert_eq!(call(&heavy, &one, &space(2, 1), 48), Err(Refusal::Weight));
    assert_eq!(call(&one, &one, &space(5, 5), 999), Ok(first_to_last(2, 2, &[(0, 1, 2, &["A", "A"])])));
    assert_eq!(call(&one, &encode(&Automaton::empty(2)), &space(0, 0), 0), Ok(Automaton::empty(3)));
}

#[test]
fn order_of_a_join() {
    let call = |first: &LentTable, second: &LentTable, pairs: &[u8], spaces: [(usize, usize); 2], bytes| {
        let (product, result) = (space(spaces[0].0, spaces[0].1), space(spaces[1].0, spaces[1].1));
        let request = JoinRequest { pairs: pairs.to_vec(), product, result: result.clone(), work: work(bytes) };
        let outcome = calls::join(first, second, &request);
        check_bytes(&outcome, &result, bytes);
        assert_eq!(outcome.product.states.len(), STATE_BYTES * spaces[0].0 + 3);
        answered(&outcome)
    };
    let none = [(0, 0), (0, 0)];
    let one = encode(&first_to_last(1, 2, &[(0, 1, 1, &["A"])]));
    let slow = encode(&first_to_last(1, 3, &[(0, 1, 1, &[""]), (1, 2, 1, &["A"])]));
    let heavy = encode(&table(1, &[(Some(0), Some(999_999_999))], &[]));
    assert_eq!(call(&malformed(), &one, &[2, 2, 65], none, 0), Err(Refusal::Form));
    assert_eq!(call(&one, &malformed(), &[2, 2, 65], none, 0), Err(Refusal::Form));
    assert_eq!(call(&encode(&Automaton::empty(8)), &one, &[9, 2, 65], none, 0), Err(Refusal::Width));
    assert_eq!(call(&one, &one, &[1, 1, 65, 1, 2, 65], none, 0), Err(Refusal::Tape));
    assert_eq!(call(&one, &one, &[1, 1, 65, 1, 1, 65], none, 0), Err(Refusal::Pairs));
    assert_eq!(call(&one, &one, &[1, 1, 65], [(1, 1), (1, 1)], 0), Err(Refusal::Limit));
    assert_eq!(call(&one, &one, &[1, 1, 0], [(1, 2), (3, 4)], 16 + 32 + 960 + 64 + 64 - 1), Err(Refusal::Space));
    assert_eq!(call(&one, &one, &[1, 1, 0], [(1, 2), (3, 4)], 16 + 32 + 960 + 64 + 64), Err(Refusal::StatesFull));
    assert_eq!(call(&one, &one, &[1, 1, 0], [(2, 0), (0, 0)], 999), Err(Refusal::ArcsFull));
    assert_eq!(call(&heavy, &one, &[1, 1, 0], [(2, 1), (0, 0)], 9_999), Err(Refusal::Weight));
    assert_eq!(call(&one, &one, &[1, 1, 0], [(2, 1), (1, 0)], 9_999), Err(Refusal::StatesFull));
    assert_eq!(call(&one, &one, &[1, 1, 0], [(2, 1), (2, 0)], 9_999), Err(Refusal::ArcsFull));
    assert_eq!(call(&one, &slow, &[1, 1, 0], [(9, 9), (9, 9)], 9_999), Err(Refusal::Delay));
    let met = first_to_last(1, 3, &[(0, 1, 2, &["A"]), (1, 2, 1, &[""])]);
    assert_eq!(call(&one, &slow, &[1, 1, 1], [(9, 9), (9, 9)], 9_999), Ok(met));
    let both = first_to_last(2, 3, &[(0, 1, 2, &["A", ""]), (1, 2, 1, &["", "A"])]);
    assert_eq!(call(&one, &slow, &[], [(9, 9), (9, 9)], 9_999), Ok(both));
}

#[test]
fn order_of_union_choosing_and_dropping() {
    let (one, two) = (encode(&s()), encode(&p()));
    let lent = space(3, 3);
    let bytes = |outcome: TableOutcome| {
        check_bytes(&outcome, &lent, 0);
        answered(&outcome)
    };
    assert_eq!(bytes(calls::union(&malformed(), &one, &lent)), Err(Refusal::Form));
    assert_eq!(bytes(calls::union(&one, &two, &lent)), Err(Refusal::Tape));
    assert_eq!(bytes(calls::union(&one, &one, &lent)), Err(Refusal::StatesFull));
    assert_eq!(calls::union(&one, &one, &space(4, 3)).answer, Err(Refusal::ArcsFull));
    let weights = [(Some(0), None), (None, Some(0)), (Some(0), None), (None, Some(0))];
    let [ab, ba]: [&[&str]; 2] = [&["A", "B"], &["B", "A"]];
    let twice = table(2, &weights, &[(0, 1, 0, ab), (0, 1, 0, ba), (2, 3, 0, ab), (2, 3, 0, ba)]);
    assert_eq!(answered(&calls::union(&one, &one, &space(4, 4))), Ok(twice));
    assert_eq!(bytes(calls::project(&two, &[0; 9], &lent)), Err(Refusal::Width));
    assert_eq!(bytes(calls::project(&two, &[], &lent)), Err(Refusal::Tape));
    assert_eq!(bytes(calls::project(&two, &[1, 4], &lent)), Err(Refusal::Tape));
    assert_eq!(calls::project(&two, &[3], &space(2, 0)).answer, Err(Refusal::StatesFull));
    let chosen = first_to_last(8, 3, &[(0, 1, 1, &[""; 8]), (1, 1, 2, &["A"; 8]), (1, 2, 3, &["B"; 8])]);
    assert_eq!(bytes(calls::project(&two, &[3; 8], &lent)), Ok(chosen));
    assert_eq!(bytes(calls::drop_tapes(&two, 0b1000, &lent)), Err(Refusal::Tape));
    assert_eq!(bytes(calls::drop_tapes(&two, 0b0111, &lent)), Err(Refusal::Tape));
    assert_eq!(calls::drop_tapes(&two, 0b0001, &space(3, 2)).answer, Err(Refusal::ArcsFull));
    assert_eq!(bytes(calls::drop_tapes(&two, 0, &lent)), Ok(p()));
    let kept = first_to_last(1, 3, &[(0, 1, 1, &["X"]), (1, 1, 2, &["Y"]), (1, 2, 3, &["Z"])]);
    assert_eq!(bytes(calls::drop_tapes(&two, 0b0101, &lent)), Ok(kept));
}

#[test]
fn a_union_past_every_table() {
    let large = Automaton { tapes: 1, states: vec![State::default(); 1_024], arcs: Vec::new() };
    let lent = ResultSpace { states: vec![0; 30_000], arcs: Vec::new() };
    assert_eq!(calls::union(&encode(&large), &encode(&large), &lent).answer, Err(Refusal::StatesFull));
}

#[test]
fn results_at_the_greatest_size() {
    let mut large: BTreeMap<u64, usize> = BTreeMap::new();
    for seed in 0..6_000 {
        let request = request(&mut Random::new(seed));
        if let Outcome::Table(outcome) = outcome(&request) {
            let (result, _) = lent_by(&request);
            if result.room().states > 1_024 {
                *large.entry(outcome.answer.err().map_or(0, Refusal::number)).or_insert(0) += 1;
            }
            if let Ok(counts) = outcome.answer {
                assert!(counts.states <= 1_024 && counts.arcs <= 8_192);
            }
        }
    }
    assert!([0, 8, 9].iter().all(|answer| large.contains_key(answer)), "{large:?}");
}

#[test]
fn order_of_a_lookup() {
    let call = |table: &LentTable, tuple: &[u8], bytes| {
        let outcome = calls::lookup(table, tuple, &work(bytes));
        assert_eq!(outcome.work, vec![0; bytes]);
        outcome.answer
    };
    let table = encode(&p());
    let long = [b'A'; 65];
    assert_eq!(call(&malformed(), b"", 0), Err(Refusal::Form));
    assert_eq!(call(&table, b"A\nB\nC", 0), Err(Refusal::Short));
    assert_eq!(call(&table, b"a\n", 0), Err(Refusal::Tape));
    assert_eq!(call(&table, b"a\nB\nC\n\n", 0), Err(Refusal::Tape));
    assert_eq!(call(&table, &[b"a\nB\n", &long[..], b"\n"].concat(), 0), Err(Refusal::Size));
    assert_eq!(call(&table, &[b"a\nB\n", &long[1..], b"\n"].concat(), 0), Err(Refusal::Form));
    assert_eq!(call(&table, b"AB\nXYZ\nAB\n", 8 * 3 * 3 * 4 * 3 - 1), Err(Refusal::Space));
    assert_eq!(call(&table, b"AB\nXYZ\nAB\n", 8 * 3 * 3 * 4 * 3), Ok(Some(6)));
    assert_eq!(call(&table, b"AB\nXZ\nAB\n", 9_999), Ok(None));
    assert_eq!(call(&encode(&Automaton::empty(1)), b"\n", 0), Ok(None));
}

#[test]
fn order_of_a_forecast() {
    let call = |table: &LentTable, pairs: &[u8], result: usize, bytes: usize| {
        let outcome = calls::forecast(table, pairs, &work(result), &work(bytes));
        assert_eq!(outcome.work, vec![0; bytes]);
        let told = outcome.answer.map_or(0, |told| told as usize);
        assert_eq!(outcome.result[told..], work(result)[told..]);
        outcome.answer.map(|told| outcome.result[..told as usize].to_vec())
    };
    let table = encode(&p());
    assert_eq!(call(&malformed(), &[9, 9, 9], 0, 0), Err(Refusal::Form));
    assert_eq!(call(&LentTable { states: 4, ..table.clone() }, &[9, 9, 9], 0, 0), Err(Refusal::Short));
    assert_eq!(call(&with_arc_byte(0, 3), &[9, 9, 9], 0, 0), Err(Refusal::State));
    assert_eq!(call(&table, &[1, 1, 0, 2, 2, 0, 3, 3, 0, 1, 2, 0, 1, 2, 0, 1, 4, 0], 0, 0), Err(Refusal::Tape));
    assert_eq!(call(&table, &[1, 1, 65, 0, 2, 65], 0, 0), Err(Refusal::Tape));
    assert_eq!(call(&table, &[1, 2, 65, 2, 3, 65], 0, 0), Err(Refusal::Pairs));
    assert_eq!(call(&table, &[1, 1, 0], 0, 0), Err(Refusal::Pairs));
    assert_eq!(call(&table, &[1, 3, 65], 6, 191), Err(Refusal::Space));
    assert_eq!(call(&table, &[1, 3, 65], 5, 192), Err(Refusal::Space));
    // whatever the limit is
    for limit in 0..=255 {
        assert_eq!(call(&table, &[1, 3, limit], 6, 192), Ok(vec![1, 0, 2, 0, 39, 0]));
        assert_eq!(call(&table, &[1, 2, limit], 20, 999), Ok(vec![1, 0, 2, 0, 183, 0]));
    }
    // no pairs ask for work, too; one or two last bytes are no pair
    assert_eq!(call(&table, &[], 0, 191), Err(Refusal::Space));
    assert_eq!(call(&table, &[], 0, 192), Ok(Vec::new()));
    assert_eq!(call(&table, &[9], 3, 192), Ok(Vec::new()));
    assert_eq!(call(&table, &[9, 9], 3, 192), Ok(Vec::new()));
    assert_eq!(call(&table, &[1, 3, 0, 1], 6, 192), Ok(vec![1, 0, 2, 0, 39, 0]));
    assert_eq!(call(&table, &[1, 3, 0, 1, 2], 6, 192), Ok(vec![1, 0, 2, 0, 39, 0]));
    assert_eq!(call(&encode(&Automaton::empty(2)), &[2, 1, 0], 6, 0), Ok(vec![1, 0, 0, 0, 0, 0]));
}

#[test]
fn forecasts_of_four_pairs() {
    // 33 states in a row: on tapes 1 and 2 even, on 3 and 4 loops of both signs, on 5 and 6 one symbol, on 7 and 8 two
    let mut rows: Vec<Row> =
        (1..33).map(|state| (state - 1, state, 0, &["A", "B", "", "", "AAAAAAAA", "", "", "AAAAAAAB"][..])).collect();
    rows.push((0, 0, 0, &["", "", "A", "", "", "", "", ""]));
    rows.push((32, 32, 0, &["", "", "", "A", "", "", "", ""]));
    let table = encode(&first_to_last(8, 33, &rows));
    let outcome = calls::forecast(&table, &[3, 4, 0, 8, 7, 64, 5, 6, 65, 2, 1, 255], &work(26), &work(64 * 33));
    assert_eq!(outcome.answer, Ok(24));
    assert_eq!(outcome.result[..6], [3, 0, 0, 0, 0, 0]);
    assert_eq!(outcome.result[6..12], [2, 0, 0, 1, 0, 0]);
    assert_eq!(outcome.result[12..18], [1, 0, 0, 1, 0x21, 0x42]);
    assert_eq!(outcome.result[18..24], [1, 0, 0, 0, 33, 0]);
    assert_eq!(outcome.result[24..], [0xa5; 2]);
    let five = calls::forecast(&table, &[3, 4, 0, 8, 7, 0, 5, 6, 0, 2, 1, 0, 1, 2, 0], &work(30), &work(64 * 33));
    assert_eq!((five.answer, five.result), (Err(Refusal::Pairs), work(30)));
}

#[test]
fn damaged_tables_never_fail_and_good_ones_come_back() {
    for seed in 0..20_000 {
        let mut random = Random::new(seed);
        let automaton = small_case(&mut random).automaton;
        assert_eq!(judge(&encode(&automaton)), Ok(automaton.clone()));
        let damaged = damaged_table(&mut random, &automaton);
        if let Ok(read) = judge(&damaged) {
            let again = encode(&read);
            assert_eq!(again.state_records, damaged.state_records[..again.state_records.len()]);
            assert_eq!(again.arc_records, damaged.arc_records[..again.arc_records.len()]);
        }
    }
}

/// The result space and the length of the work that a request lends.
fn lent_by(request: &Request) -> (ResultSpace, usize) {
    match request {
        Request::Read { result, .. }
        | Request::Union { result, .. }
        | Request::Project { result, .. }
        | Request::DropTapes { result, .. } => (result.clone(), 0),
        Request::Intersect { result, work, .. } | Request::Product { result, work, .. } => (result.clone(), work.len()),
        Request::Join { request, .. } => (request.result.clone(), request.work.len()),
        Request::Write { .. } | Request::Lookup { .. } => panic!("no table is given"),
        Request::Forecast { .. } | Request::Path { .. } => panic!("no table is given"),
    }
}

/// Checks what a call for a path leaves behind: what it tells over the front of result and list, the rest kept.
fn check_path_bytes(outcome: &PathOutcome, lent: &PathRequest) {
    assert_eq!(outcome.work, vec![0; lent.work.len()]);
    let (mut told, mut listed) = (0, 0);
    if outcome.word == 0 {
        assert_eq!(outcome.result[8..16], [0; 8]);
        let arcs = u32::from_le_bytes(outcome.result[20..24].try_into().unwrap());
        (told, listed) = (24, 2 * arcs as usize);
    }
    assert_eq!(outcome.result[told..], lent.result[told..]);
    assert_eq!(outcome.list[listed..], lent.list[listed..]);
}

/// Whether six bytes are a forecast: which of the three, a delay that a table can have, a number; zeros where it tells none.
fn is_forecast_record(record: &[u8]) -> bool {
    let [which, delay, number] = [0, 2, 4].map(|at| u16::from_le_bytes([record[at], record[at + 1]]));
    match which {
        1 => delay <= 8_184,
        2 => delay <= 8_184 && number == 0,
        _ => which == 3 && delay == 0 && number == 0,
    }
}

#[test]
fn random_requests_leave_every_byte_as_stated() {
    let mut answers: BTreeMap<u64, usize> = BTreeMap::new();
    let mut count = |refusal: Option<Refusal>| *answers.entry(refusal.map_or(0, Refusal::number)).or_insert(0) += 1;
    for seed in 0..6_000 {
        let request = request(&mut Random::new(seed));
        match (outcome(&request), &request) {
            (Outcome::Table(outcome), _) => {
                let (result, work) = lent_by(&request);
                check_bytes(&outcome, &result, work);
                count(outcome.answer.err());
                if outcome.answer.is_ok() {
                    given(&outcome);
                }
            }
            (Outcome::Text(outcome), Request::Write { output, .. }) => {
                let used = outcome.answer.map_or(0, |length| length as usize);
                assert_eq!(outcome.output[used..], output[used..]);
                count(outcome.answer.err());
            }
            (Outcome::Lookup(outcome), Request::Lookup { work, .. }) => {
                assert_eq!(outcome.work, vec![0; work.len()]);
                count(outcome.answer.err());
            }
            (Outcome::Forecast(outcome), Request::Forecast { pairs, result, work, .. }) => {
                assert_eq!(outcome.work, vec![0; work.len()]);
                let told = outcome.answer.map_or(0, |told| told as usize);
                assert_eq!(outcome.result[told..], result[told..]);
                assert!(outcome.answer.is_err() || told == 6 * (pairs.len() / 3));
                assert!(outcome.result[..told].chunks(6).all(is_forecast_record));
                count(outcome.answer.err());
            }
            (Outcome::Path(outcome), Request::Path { request, .. }) => {
                check_path_bytes(&outcome, request);
                count(Refusal::ALL.into_iter().find(|refusal| refusal.number() == outcome.word));
            }
            _ => panic!("an outcome of another call"),
        }
    }
    assert_eq!(answers.len(), 15, "{answers:?}");
    assert!(answers[&0] > 2_000, "{answers:?}");
    println!("{answers:?}");
}
