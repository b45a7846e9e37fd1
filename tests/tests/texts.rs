//! Refusals of texts: each at least once, and the order between two faults.

use tomchoen_tests::agree::{agree, MOST_INPUT};
use tomchoen_tests::automaton::Room;
use tomchoen_tests::pairs::PairRecord;
use tomchoen_tests::refusal::Refusal;
use tomchoen_tests::text::{pair_line, read, read_pair_line, write, Reader};

const HEADER: &str = "  2     2     1\n";
const FIRST: &str = "         0         -\n";
const SECOND: &str = "         - 999999999\n";
const ARC: &str = "     0     1        12     ABC0        Z\n";

/// The refusal of a table's text in ample space.
fn refused(lines: &[&str]) -> u64 {
    refused_in(lines, Room::AMPLE)
}

/// The refusal of a table's text in some space, 0 where it is read.
fn refused_in(lines: &[&str], room: Room) -> u64 {
    read(lines.concat().as_bytes(), room).err().map_or(0, Refusal::number)
}

/// The refusal of an arc line in a good table.
fn refused_arc(line: &str) -> u64 {
    refused(&[HEADER, FIRST, SECOND, line])
}

/// What `agree` answers: the number of a refusal, or 0.
fn agree_refuses(lines: &[&str]) -> u64 {
    let output = String::from_utf8(agree(lines.concat().as_bytes())).unwrap();
    output.strip_prefix("refused").map_or(0, |number| {
        assert_eq!(number.len(), 5);
        number.trim().parse().unwrap()
    })
}

#[test]
fn a_good_text_is_read_and_written_back() {
    let text = [HEADER, FIRST, SECOND, ARC].concat();
    let automaton = read(text.as_bytes(), Room::AMPLE).unwrap();
    assert_eq!(automaton.states[1].final_weight, Some(999_999_999));
    assert_eq!(automaton.arcs[0].labels, vec![b"ABC0".to_vec(), b"Z".to_vec()]);
    assert_eq!(write(&automaton), text.as_bytes());
}

#[test]
fn every_cut_is_short() {
    let text = [HEADER, FIRST, SECOND, ARC].concat();
    for length in 0..text.len() {
        assert_eq!(read(&text.as_bytes()[..length], Room::AMPLE), Err(Refusal::Short), "{length} bytes");
    }
}

#[test]
fn short_precedes_form_in_a_line() {
    assert_eq!(refused(&["x"]), 1);
    assert_eq!(refused(&["  2     1\n"]), 1);
    assert_eq!(refused(&[HEADER, FIRST, "xxxxxxxxxx\n"]), 1);
    assert_eq!(refused(&[HEADER, FIRST, SECOND, &ARC.replace('A', "a")[..39]]), 1);
}

#[test]
fn form_of_an_earlier_line_precedes_a_cut() {
    assert_eq!(refused(&[HEADER, "         0         x\n", "   "]), 2);
    assert_eq!(refused(&["  2     2     x\n"]), 2);
}

#[test]
fn numbers_out_of_form() {
    for field in ["     ", "    ", "01", "00", "+1", "-1", "1 ", "\t1", "1x", "0x1", "1.", "é"] {
        let header = format!("  2{:>w$}     1\n", field, w = 6 - (field.len() - field.chars().count()));
        assert_eq!(refused(&[&header, FIRST, SECOND, ARC]), 2, "{field:?}");
    }
    for weight in ["          ", "         +", "        - ", "-         ", "        --", "        00", "0000000001", "        1-"]
    {
        assert_eq!(refused(&[HEADER, &format!("{weight}         -\n"), SECOND, ARC]), 2, "{weight:?}");
    }
    assert_eq!(refused_arc("     0     1         -     ABC0        Z\n"), 2);
}

#[test]
fn labels_out_of_form() {
    for label in [
        "ABCDEFGHI",
        "        a",
        "      A B",
        "A        ",
        "       A-",
        "       A\t",
        "        @",
        "        [",
        "        /",
        "        :",
    ] {
        assert_eq!(refused_arc(&format!("     0     1        12{label}        Z\n")), 2, "{label:?}");
    }
    assert_eq!(refused_arc("     0     1        12 ABCDEFGH         \n"), 0);
}

#[test]
fn line_ends_and_trailing_bytes() {
    assert_eq!(refused(&["  2     2     1\r\n", FIRST, SECOND, ARC]), 2);
    assert_eq!(refused(&[HEADER, FIRST, SECOND, &ARC.replace('\n', " ")]), 2);
    assert_eq!(refused(&[HEADER, FIRST, SECOND, ARC, "\n"]), 2);
    assert_eq!(refused(&[HEADER, FIRST, SECOND, ARC, ARC]), 2);
}

#[test]
fn sizes() {
    for header in ["  0     0     0\n", "  9     0     0\n", "  1  1025     0\n", "  1     0  8193\n", "999999999999999\n"] {
        assert_eq!(refused(&[header]), 3, "{header:?}");
    }
    assert_eq!(refused(&[HEADER, "1000000000         -\n", SECOND, ARC]), 3);
    assert_eq!(refused(&[HEADER, "         -9999999999\n", SECOND, ARC]), 3);
    assert_eq!(refused_arc("     0     11000000000     ABC0        Z\n"), 3);
    assert_eq!(refused_arc("     0     1 999999999     ABC0        Z\n"), 0);
}

#[test]
fn states_of_an_arc() {
    assert_eq!(refused_arc("     2     1        12     ABC0        Z\n"), 4);
    assert_eq!(refused_arc("     0999999        12     ABC0        Z\n"), 4);
    assert_eq!(refused(&["  1     0     1\n", "     0     0         0         \n"]), 4);
}

#[test]
fn order_within_a_line() {
    // form before size, wherever they stand; size before state
    assert_eq!(refused(&["  9     2    01\n"]), 2);
    assert_eq!(refused(&["  9     2     1x"]), 2);
    assert_eq!(refused(&[HEADER, "1000000000         x\n", SECOND, ARC]), 2);
    assert_eq!(refused_arc("     0     11000000000     ABC0        z\n"), 2);
    assert_eq!(refused_arc("     9     1        12     ABC0        z\n"), 2);
    assert_eq!(refused_arc("     9     11000000000     ABC0        Z\n"), 3);
    assert_eq!(refused_arc("     9     11000000000     ABC0        Z "), 2);
}

#[test]
fn order_between_lines() {
    let heavy = "1000000000         -\n";
    assert_eq!(refused(&[HEADER, heavy, "x", ARC]), 3);
    assert_eq!(refused(&[HEADER, FIRST, heavy, ARC, "trailing"]), 3);
    assert_eq!(refused(&[HEADER, FIRST, SECOND, "     9     1        12     ABC0        Z\n", "trailing"]), 4);
}

#[test]
fn space_after_the_header() {
    let room = |states, arcs| Room { states, arcs };
    assert_eq!(refused_in(&[HEADER, FIRST, SECOND, ARC], room(2, 1)), 0);
    assert_eq!(refused_in(&[HEADER, "rubbish"], room(1, 0)), 8);
    assert_eq!(refused_in(&[HEADER], room(2, 0)), 9);
    assert_eq!(refused_in(&["  9     2     1\n"], room(1, 0)), 3);
    assert_eq!(refused_in(&["  1  1025     1\n"], room(1, 0)), 3);
    assert_eq!(refused_in(&["  1     2     1x"], room(1, 0)), 2);
}

#[test]
fn space_that_agree_lends() {
    assert_eq!(agree_refuses(&["  0\n", "  1    65     0\n"]), 8);
    assert_eq!(agree_refuses(&["  0\n", "  1    65  8193\n"]), 3);
    assert_eq!(agree_refuses(&["  0\n", "  1    64   513\n"]), 9);
    assert_eq!(agree_refuses(&["  0\n", "  1    64   512\n"]), 1);
    assert_eq!(agree_refuses(&["  1  1  2 65\n", "  2    65   513\n"]), 8);
}

#[test]
fn pair_lines() {
    let table = [HEADER, FIRST, SECOND, ARC].concat();
    assert_eq!(agree_refuses(&["  0\n", &table]), 0);
    assert_eq!(agree_refuses(&["  1  1  2  9\n", &table]), 0);
    // 1 as far as it can be judged before 2: fewer than four bytes, or a line that is not complete
    for input in ["", "a", "abc", "  0", "  1\n", "  1  1  2", "  1  1  2\n", "  1  1  2  0", "  1  x     \r", "  2  1  2  0\n"] {
        assert_eq!(agree_refuses(&[input]), 1, "{input:?}");
    }
    for input in ["abcd", "  x\n", " 01\n", "  -\n", " -1\n", "1  \n", "   \n", "  0\r", "  0 ", "\n\n\n\n", "  0  0\n"] {
        assert_eq!(agree_refuses(&[input]), 2, "{input:?}");
        assert_eq!(agree_refuses(&[input, &table]), 2, "{input:?}");
    }
    assert_eq!(agree_refuses(&["999  1  2  0\n", &table]), 1);
}

#[test]
fn no_table_begins_with_a_pair_line() {
    for tapes in 1..=8 {
        for states in [0, 9, 10, 99, 100, 999, 1_000, 1_024] {
            for arcs in [0, 9, 10, 99, 100, 999, 1_000, 8_192] {
                let text = format!("{tapes:3}{states:6}{arcs:6}\n{}", FIRST.repeat(4));
                let fault = read_pair_line(&mut Reader::new(text.as_bytes())).err();
                assert_eq!(fault.map(|fault| fault.refusal), Some(Refusal::Form), "{text}");
            }
        }
    }
}

#[test]
fn numbers_of_a_pair_line() {
    let table = [HEADER, FIRST, SECOND, ARC].concat();
    for field in ["  x", "  -", "   ", " 01", "001", " -1", " +1", "1  ", "1 0", "\t 1", "0x1", "1.0", "  \n"] {
        for line in [format!("  1{field}  2  0\n"), format!("  1  1{field}  0\n"), format!("  1  1  2{field}\n")] {
            assert_eq!(agree_refuses(&[&line, &table]), 2, "{line:?}");
        }
    }
    for end in [" ", "\r", "0", "\0"] {
        assert_eq!(agree_refuses(&[&format!("  1  1  2  0{end}"), &table]), 2, "{end:?}");
    }
    // a line for one pair with the limit in front is read as what it says: tapes 0 and 1, then tapes 1 and 1
    assert_eq!(agree_refuses(&["  1  0  1  2\n", &table]), 5);
    assert_eq!(agree_refuses(&["  1  1  1  2\n", &table]), 6);
    assert_eq!(agree_refuses(&["  1  2  1  2\n", &table]), 0);
}

#[test]
fn every_cut_of_an_input_is_short() {
    let input = ["  1  1  2 64\n", HEADER, FIRST, SECOND, ARC].concat();
    for length in 0..input.len() {
        assert_eq!(agree_refuses(&[&input[..length]]), 1, "{length} bytes");
    }
    assert_eq!(agree_refuses(&[&input]), 0);
}

#[test]
fn pairs_are_judged_after_the_table() {
    let table = [HEADER, FIRST, SECOND, ARC].concat();
    let cut = &table[..table.len() - 1];
    assert_eq!(agree_refuses(&["  1  0  2 65\n", cut]), 1);
    assert_eq!(agree_refuses(&["  1  0  2 65\n", &table, " "]), 2);
    assert_eq!(agree_refuses(&["  1  1  2 65\n", cut]), 1);
    assert_eq!(agree_refuses(&["  1  1  2 65\n", &table, " "]), 2);
    assert_eq!(agree_refuses(&["  1  1  2 65\n", "  9     0     0\n"]), 3);
    assert_eq!(agree_refuses(&["  1  1  2 65\n", HEADER, FIRST, SECOND, "     9     1        12     ABC0        Z\n"]), 4);
    assert_eq!(agree_refuses(&["  1  0  2  0\n", &table]), 5);
    assert_eq!(agree_refuses(&["  1  1  3 99\n", &table]), 5);
    assert_eq!(agree_refuses(&["  2  1  1 99999  1 99\n", &table]), 5);
    assert_eq!(agree_refuses(&["  1  1  1 99\n", &table]), 6);
    assert_eq!(agree_refuses(&["  5  1  2  0  1  2  0  1  2  0  1  2  0  1  2 65\n", &table]), 6);
    // a limit that its columns hold is judged by 7, whatever it is
    for (limit, refusal) in [(" 64", 0), (" 65", 7), (" 99", 7), ("100", 7), ("256", 7), ("320", 7), ("999", 7)] {
        assert_eq!(agree_refuses(&[&format!("  1  1  2{limit}\n"), &table]), refusal, "{limit}");
    }
}

#[test]
fn limits_in_each_place_of_a_pair_line() {
    let table = "  8     1     0\n         0         0\n";
    let line = |records: &[PairRecord]| String::from_utf8(pair_line(records)).unwrap();
    let good = [(1, 2, 0), (3, 4, 64), (6, 5, 7), (8, 7, 64)];
    assert_eq!(line(&good), "  4  1  2  0  3  4 64  6  5  7  8  7 64\n");
    assert_eq!(agree_refuses(&[&line(&good), table]), 0);
    for place in 0..4 {
        for (limit, refusal) in [(64, 0), (65, 7), (256, 7), (999, 7)] {
            let mut records = good;
            records[place].2 = limit;
            assert_eq!(agree_refuses(&[&line(&records), table]), refusal, "{limit} in place {place}");
            // 5 and 6 of any place come first
            for other in 0..4 {
                let (mut foreign, mut twice) = (records, records);
                foreign[other].1 = 9;
                twice[other].1 = twice[(other + 1) % 4].0;
                assert_eq!(agree_refuses(&[&line(&foreign), table]), 5, "{limit} in place {place}, tape 9 in {other}");
                assert_eq!(agree_refuses(&[&line(&twice), table]), 6, "{limit} in place {place}, a tape twice in {other}");
            }
        }
    }
}

#[test]
fn the_size_of_the_input_is_judged_first() {
    let at = |length: usize| String::from_utf8(agree(&vec![b'x'; length])).unwrap();
    assert_eq!(at(MOST_INPUT), "refused   2\n");
    assert_eq!(at(MOST_INPUT + 1), "refused   3\n");
    assert_eq!(at(1), "refused   1\n");
}
