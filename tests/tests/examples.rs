//! The examples of the source documents under `examples/`: the files are the constructions below, `agree` answers as they say,
//! and the accounts are those the documents state. One more has a slip in it.

use std::collections::BTreeSet;
use std::fs;
use std::path::PathBuf;
use tomchoen_tests::accounts::{accounts, Account};
use tomchoen_tests::agree::{agree, agree_table};
use tomchoen_tests::automaton::{Automaton, Room};
use tomchoen_tests::columns::drop_tapes;
use tomchoen_tests::join::join;
use tomchoen_tests::pairs::PairRecord;
use tomchoen_tests::product::product;
use tomchoen_tests::sample::{first_to_last, p, table, tuple};
use tomchoen_tests::text::{pair_line, read, write};

/// A file of the folder `examples`.
fn file(name: &str) -> Vec<u8> {
    let path = PathBuf::from(env!("CARGO_MANIFEST_DIR")).join("../examples").join(name);
    fs::read(&path).unwrap_or_else(|error| panic!("{}: {error}", path.display()))
}

/// Checks that an example's input is this table with these pairs and limits, and that `agree` answers with its output.
fn check(name: &str, pairs: &[PairRecord], automaton: &Automaton) {
    let input = file(&format!("{name}.in"));
    let construction = [pair_line(pairs), write(automaton)].concat();
    assert_eq!(String::from_utf8_lossy(&input), String::from_utf8_lossy(&construction), "{name}.in");
    let output = file(&format!("{name}.out"));
    assert_eq!(String::from_utf8_lossy(&agree(&input)), String::from_utf8_lossy(&output), "{name}.out");
}

/// What `agree` writes for this table with these pairs and limits.
fn written(pairs: &[PairRecord], automaton: &Automaton) -> String {
    String::from_utf8(agree(&[pair_line(pairs), write(automaton)].concat())).unwrap()
}

/// The text of an example's output.
fn output_of(name: &str) -> String {
    String::from_utf8(file(&format!("{name}.out"))).unwrap()
}

/// The accounts of an example's output with at most so many arcs; no two paths are alike.
fn accounts_of(name: &str, most: usize) -> BTreeSet<Account> {
    account_set(&agree_table(&file(&format!("{name}.in"))).unwrap(), most)
}

/// The accounts of a table with at most so many arcs; no two paths are alike.
fn account_set(automaton: &Automaton, most: usize) -> BTreeSet<Account> {
    let list = accounts(automaton, most);
    let set: BTreeSet<Account> = list.iter().cloned().collect();
    assert_eq!(set.len(), list.len());
    set
}

/// Strings as an account of a weight.
fn account(strings: &[String], weight: usize) -> Account {
    (tuple(&strings.iter().map(String::as_str).collect::<Vec<&str>>()), weight as u64)
}

/// All ways to mix `left` times one word with `right` times another, no word split.
fn shuffles(one: &str, left: usize, two: &str, right: usize) -> Vec<String> {
    let mut found = Vec::new();
    if left == 0 && right == 0 {
        found.push(String::new());
    }
    if left > 0 {
        found.extend(shuffles(one, left - 1, two, right).iter().map(|rest| format!("{one}{rest}")));
    }
    if right > 0 {
        found.extend(shuffles(one, left, two, right - 1).iter().map(|rest| format!("{two}{rest}")));
    }
    found
}

/// Document 001, figure 1a.
fn figure_1() -> Automaton {
    first_to_last(
        4,
        3,
        &[
            (0, 0, 1, &["A", "A", "DC", "CD"]),
            (0, 0, 2, &["A", "", "C", ""]),
            (0, 1, 0, &["", "", "", ""]),
            (1, 1, 4, &["BA", "AB", "C", ""]),
            (1, 2, 8, &["", "A", "", "CC"]),
        ],
    )
}

/// Document 001, figure 2a.
fn figure_2() -> Automaton {
    first_to_last(
        4,
        3,
        &[
            (0, 0, 1, &["A", "A", "DC", "CD"]),
            (0, 0, 2, &["A", "", "C", ""]),
            (0, 1, 0, &["", "", "", ""]),
            (1, 1, 4, &["BA", "AB", "", "C"]),
            (1, 2, 8, &["", "A", "", "C"]),
        ],
    )
}

#[test]
fn figure_1_of_001_has_the_stated_support() {
    let mut stated = BTreeSet::new();
    let most = 6;
    for (i, j, h) in triples(most) {
        for mixed in shuffles("DC", i, "C", j) {
            let strings = [
                "A".repeat(i + j) + &"BA".repeat(h),
                "A".repeat(i) + &"AB".repeat(h) + "A",
                mixed + &"C".repeat(h),
                "CD".repeat(i) + "CC",
            ];
            stated.insert(account(&strings, i + 2 * j + 4 * h + 8));
        }
    }
    assert_eq!(account_set(&figure_1(), most + 2), stated);
}

/// All triples of numbers whose sum is at most `most`.
fn triples(most: usize) -> Vec<(usize, usize, usize)> {
    let pairs = (0..=most).flat_map(|i| (0..=most - i).map(move |j| (i, j)));
    pairs.flat_map(|(i, j)| (0..=most - i - j).map(move |h| (i, j, h))).collect()
}

#[test]
fn figure_1_of_001() {
    check("001-figure-1", &[(1, 2, 2), (3, 4, 2)], &figure_1());
    assert_eq!(written(&[(1, 2, 1), (3, 4, 2)], &figure_1()), output_of("001-figure-1"));
    assert_eq!(written(&[(1, 2, 0), (3, 4, 64)], &figure_1()), "refused  10\n");
    assert_eq!(written(&[(1, 2, 64), (3, 4, 1)], &figure_1()), "refused  10\n");
    let stated = (0..10).map(|i| {
        let (left, right) = ("A".repeat(i + 1) + "BA", "CD".repeat(i) + "CC");
        account(&[left.clone(), left, right.clone(), right], 14 + i)
    });
    assert_eq!(accounts_of("001-figure-1", 13), stated.collect());
}

#[test]
fn figure_2_of_001_in_two_calls() {
    check("001-figure-2-first", &[(1, 2, 1)], &figure_2());
    let most = 5;
    let stated = triples(most).into_iter().map(|(i, j, h)| {
        let left = "A".repeat(i + j + 1) + &"BA".repeat(h);
        let third = "DC".repeat(i) + &"CD".repeat(j) + "C";
        account(&[left.clone(), left, third, "CD".repeat(i + j) + &"C".repeat(h + 1)], i + j + 2 + 4 * h + 8)
    });
    assert_eq!(accounts_of("001-figure-2-first", most + 3), stated.collect());
    let between = read(&file("001-figure-2-first.out"), Room::AMPLE).unwrap();
    check("001-figure-2-second", &[(3, 4, 2)], &between);
    let stated = (0..10).map(|i| {
        let (left, right) = ("A".repeat(i + 1), "CD".repeat(i) + "C");
        account(&[left.clone(), left, right.clone(), right], 10 + i)
    });
    assert_eq!(accounts_of("001-figure-2-second", 12), stated.collect());
    assert_eq!(written(&[(1, 2, 1), (3, 4, 2)], &figure_2()), output_of("001-figure-2-second"));
}

#[test]
fn footnote_10_of_001() {
    let rows: &[(usize, usize, u64, &[&str])] = &[
        (0, 1, 0, &["", "", "", "X", "Y"]),
        (1, 1, 1, &["A", "C", "", "", ""]),
        (1, 2, 0, &["", "", "", "", ""]),
        (2, 2, 2, &["B", "", "C", "", ""]),
    ];
    let automaton = first_to_last(5, 3, rows);
    check("001-footnote-10-both", &[(2, 3, 64), (4, 5, 64)], &automaton);
    check("001-footnote-10-one", &[(2, 3, 8)], &automaton);
    assert!(accounts_of("001-footnote-10-both", 20).is_empty());
    assert_eq!(file("001-footnote-10-one.out"), b"refused  10\n");
}

/// Document 002: a(baa)*, one for each symbol.
fn a_baa() -> Automaton {
    table(1, &[(Some(0), None), (None, Some(0)), (None, None)], &[(0, 1, 1, &["A"]), (1, 2, 1, &["B"]), (2, 0, 1, &["A"])])
}

/// Document 002: strings over a and b whose length is a multiple of four.
fn multiple_of_four() -> Automaton {
    let mut weights = vec![(None, None); 4];
    weights[0] = (Some(0), Some(0));
    let rows: &[(usize, usize, u64, &[&str])] = &[
        (0, 1, 0, &["A"]),
        (0, 1, 0, &["B"]),
        (1, 2, 0, &["A"]),
        (1, 2, 0, &["B"]),
        (2, 3, 0, &["A"]),
        (2, 3, 0, &["B"]),
        (3, 0, 0, &["A"]),
        (3, 0, 0, &["B"]),
    ];
    table(1, &weights, rows)
}

#[test]
fn intersection_of_002() {
    let both = product(&a_baa(), &multiple_of_four(), Room::AMPLE).unwrap();
    check("002-intersection", &[(1, 2, 0)], &both);
    let stated = [1, 5, 9].map(|k| {
        let word = "A".to_string() + &"BAA".repeat(k);
        account(&[word.clone(), word], 1 + 3 * k)
    });
    assert_eq!(accounts_of("002-intersection", 28), stated.into_iter().collect());
}

/// Document 003: ab marked 1, with symbols marked 2 put in anywhere; the second tape spells it without marks.
fn marked_ab() -> Automaton {
    let mut rows: Vec<(usize, usize, u64, &[&str])> = Vec::new();
    for state in 0..3 {
        rows.extend([(state, state, 0, &["A2", "A"][..]), (state, state, 0, &["B2", "B"]), (state, state, 0, &["C2", "C"])]);
    }
    rows.extend([(0, 1, 0, &["A1", "A"][..]), (1, 2, 0, &["B1", "B"])]);
    first_to_last(2, 3, &rows)
}

/// Document 003: bc marked 2, with symbols marked 1 put in anywhere.
fn marked_bc() -> Automaton {
    let mut rows: Vec<(usize, usize, u64, &[&str])> = Vec::new();
    for state in 0..3 {
        rows.extend([(state, state, 0, &["A1"][..]), (state, state, 0, &["B1"]), (state, state, 0, &["C1"])]);
    }
    rows.extend([(0, 1, 0, &["B2"][..]), (1, 2, 0, &["C2"])]);
    first_to_last(1, 3, &rows)
}

#[test]
fn shuffle_of_003() {
    let both = product(&marked_ab(), &marked_bc(), Room::AMPLE).unwrap();
    check("003-shuffle", &[(1, 3, 0)], &both);
    let found = accounts_of("003-shuffle", 10);
    assert_eq!(found.len(), 6);
    assert!(found.iter().all(|(strings, weight)| strings[0] == strings[2] && *weight == 0));
    let words: BTreeSet<Vec<u8>> = found.into_iter().map(|(strings, _)| strings[1].clone()).collect();
    let stated = ["ABBC", "ABCB", "BABC", "BACB", "BCAB"];
    assert_eq!(words, stated.iter().map(|word| word.as_bytes().to_vec()).collect());
}

/// Document 004, section 5: the first transducer.
fn first_transducer() -> Automaton {
    first_to_last(
        2,
        10,
        &[
            (0, 1, 1, &["A", ""]),
            (1, 2, 1, &["B", "A"]),
            (2, 3, 1, &["C", "B"]),
            (3, 4, 1, &["A", ""]),
            (4, 2, 1, &["B", "C"]),
            (2, 5, 1, &["", "A"]),
            (5, 6, 1, &["", "B"]),
            (6, 7, 1, &["", "C"]),
            (7, 8, 1, &["C", ""]),
            (8, 9, 1, &["", "A"]),
        ],
    )
}

/// Document 004, section 5: the second transducer.
fn second_transducer() -> Automaton {
    let mut weights = vec![(None, None); 5];
    weights[0].0 = Some(0);
    weights[1].1 = Some(0);
    let rows: &[(usize, usize, u64, &[&str])] = &[
        (0, 1, 100, &["", "A"]),
        (1, 2, 100, &["A", "B"]),
        (2, 3, 100, &["B", ""]),
        (3, 4, 100, &["", "C"]),
        (4, 1, 100, &["C", "A"]),
    ];
    table(2, &weights, rows)
}

#[test]
fn transducer_intersection_of_004() {
    let (first, second) = (first_transducer(), second_transducer());
    let both = product(&first, &second, Room::AMPLE).unwrap();
    check("004-section-5", &[(1, 3, 2), (2, 4, 2)], &both);
    assert_eq!(written(&[(2, 4, 1), (1, 3, 2)], &both), output_of("004-section-5"));
    assert_eq!(written(&[(1, 3, 1), (2, 4, 64)], &both), "refused  10\n");
    assert_eq!(written(&[(1, 3, 64), (2, 4, 0)], &both), "refused  10\n");
    let words = ["ABCABC".to_string(), "ABCABCA".to_string()];
    let doubled = [words.clone(), words.clone()].concat();
    assert_eq!(accounts_of("004-section-5", 40), [account(&doubled, 10 + 900)].into_iter().collect());
    let joined = join(&first, &second, &[((1, 1), 2), ((2, 2), 1)], Room::AMPLE, Room::AMPLE).unwrap();
    assert_eq!(account_set(&joined, 40), [account(&words, 10 + 900)].into_iter().collect());
    let dropped = drop_tapes(&read(&file("004-section-5.out"), Room::AMPLE).unwrap(), 0b1100, Room::AMPLE).unwrap();
    assert_eq!(String::from_utf8_lossy(&write(&joined)), String::from_utf8_lossy(&write(&dropped)));
}

#[test]
fn examples_1_to_3_of_004() {
    check("004-example-1", &[(1, 3, 1)], &p());
    assert_eq!(accounts_of("004-example-1", 20), [(tuple(&["AB", "XYZ", "AB"]), 6)].into_iter().collect());
    check("004-example-2", &[(1, 2, 2)], &first_to_last(3, 2, &[(0, 0, 1, &["A", "", "X"]), (0, 1, 2, &["", "A", "Y"])]));
    assert_eq!(accounts_of("004-example-2", 20), [(tuple(&["A", "A", "XY"]), 3)].into_iter().collect());
    let third = first_to_last(3, 2, &[(0, 0, 1, &["A", "", "X"]), (0, 1, 2, &["A", "A", "Y"]), (1, 1, 3, &["", "A", "Z"])]);
    check("004-example-3", &[(1, 2, 3)], &third);
    assert_eq!(file("004-example-3.out"), b"refused  10\n");
}

#[test]
fn a_slip() {
    // docs/TEXT.md's input, its second arc leading to a state that is not there
    let slip = table(2, &[(Some(0), Some(5))], &[(0, 0, 2, &["A", "A"]), (0, 1, 3, &["B", "C"])]);
    check("slip", &[(1, 2, 0)], &slip);
    assert_eq!(file("slip.out"), b"refused   4\n");
}
