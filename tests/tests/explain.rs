//! `explain` on texts: a worked case of each refusal that stands in the input and of each slip of docs/TEXT.md, with line
//! and columns; whole outputs; the program.

use std::io::Write;
use std::path::PathBuf;
use std::process::{Command, Output, Stdio};
use tomchoen_tests::agree::{agree, MOST_INPUT};
use tomchoen_tests::explain::{explain, print, read, Explanation, Hint, TextFault};
use tomchoen_tests::fault::Expected;
use tomchoen_tests::refusal::Refusal;

/// The lines of docs/TEXT.md's input.
const PAIRS: &str = "  1  1  2  0\n";
const HEADER: &str = "  2     1     2\n";
const STATE: &str = "         0         5\n";
const FIRST: &str = "     0     0         2        A        A\n";
const SECOND: &str = "     0     0         3        B        C\n";

/// docs/TEXT.md's input with one of its lines, counted from 1, written otherwise.
fn with_line(line: usize, text: &str) -> String {
    let mut lines = [PAIRS, HEADER, STATE, FIRST, SECOND];
    lines[line - 1] = text;
    lines.concat()
}

/// docs/TEXT.md's input.
fn good() -> String {
    with_line(1, PAIRS)
}

/// The explanation of an input.
fn explained(input: impl AsRef<[u8]>) -> Explanation {
    explain(input.as_ref(), input.as_ref().len() as u64)
}

/// The fault of an input that is refused for its text.
fn text_fault(input: impl AsRef<[u8]>) -> TextFault {
    match explained(&input) {
        Explanation::Text(text) => text,
        other => panic!("{other:?}"),
    }
}

/// Refusal, line and columns of an input that is refused for its text.
fn told(input: impl AsRef<[u8]>) -> (u64, usize, (usize, usize)) {
    let fault = text_fault(&input).fault;
    let place = fault.place.unwrap();
    assert_eq!(agree(input.as_ref()), format!("refused{:>4}\n", fault.refusal.number()).into_bytes());
    (fault.refusal.number(), place.line, (place.first, place.last))
}

/// The hint for an input.
fn hint(input: impl AsRef<[u8]>) -> Option<Hint> {
    text_fault(input).hint
}

/// The text told of an input.
fn text(input: impl AsRef<[u8]>) -> String {
    print::text(&explained(input))
}

#[test]
fn short() {
    assert_eq!(told(""), (1, 1, (1, 4)));
    assert_eq!(told("  1"), (1, 1, (4, 4)));
    assert_eq!(told("  1  1"), (1, 1, (7, 13)));
    assert_eq!(told(PAIRS), (1, 2, (1, 16)));
    assert_eq!(told(&good()[..40]), (1, 3, (12, 21)));
    assert!(text(&good()[..40]).contains("bytes:    the line must have 21 bytes with its end, and has 11\n"));
    assert!(text("  1").contains("bytes:    the line must have at least 4 bytes with its end, and has 3\n"));
    assert_eq!(told(&good()[..91]), (1, 5, (1, 41)));
    // what is cut is told before its form
    assert_eq!(told(&with_line(5, "     x     0         3        b")), (1, 5, (32, 41)));
}

#[test]
fn form_is_told_at_the_leftmost_fault() {
    assert_eq!(told(with_line(1, "  1  1 x2  y\n")), (2, 1, (7, 9)));
    assert_eq!(told(with_line(2, "  2    01    02\n")), (2, 2, (4, 9)));
    assert_eq!(told(with_line(3, "         -         x\n")), (2, 3, (11, 20)));
    assert_eq!(told(with_line(4, "     0     0         2        a        a\n")), (2, 4, (23, 31)));
    assert_eq!(told(with_line(4, "     0     0         2        A        a ")), (2, 4, (32, 40)));
    // form is told before size and state, wherever these stand
    assert_eq!(told(with_line(2, "  9  9999    01\n")), (2, 2, (10, 15)));
    assert_eq!(told(with_line(4, "     7     71000000000        A ABCDEFGHx")), (2, 4, (41, 41)));
}

#[test]
fn size() {
    assert_eq!(told(with_line(2, "  0  1025  8193\n")), (3, 2, (1, 3)));
    assert_eq!(told(with_line(2, "  8  1025  8193\n")), (3, 2, (4, 9)));
    assert_eq!(told(with_line(2, "  8  1024  8193\n")), (3, 2, (10, 15)));
    assert_eq!(told(with_line(3, "10000000009999999999\n")), (3, 3, (1, 10)));
    assert_eq!(told(with_line(3, "         -9999999999\n")), (3, 3, (11, 20)));
    assert_eq!(told(with_line(4, "     7     71000000000        A        A\n")), (3, 4, (13, 22)));
    assert_eq!(text_fault(with_line(2, "  9     0     0\n")).fault.expected, Expected::NumberFrom(1, 8));
}

#[test]
fn more_bytes_than_agree_takes() {
    let long = vec![b' '; MOST_INPUT + 5];
    let (kept, size) = read(&long[..]).unwrap();
    assert_eq!((kept.len(), size), (MOST_INPUT + 1, 65_541));
    let explanation = explain(&kept, size);
    assert_eq!(explanation.refusal(), Some(Refusal::Size));
    let expected = "refused   3: size\nthe input as a whole\nfound:    65,541 bytes\nexpected: at most 65,536 bytes\n";
    assert_eq!(print::text(&explanation), expected);
    // with one byte less it is judged as usual
    assert_eq!(told(vec![b' '; MOST_INPUT]), (2, 1, (1, 3)));
}

#[test]
fn states_of_arcs() {
    assert_eq!(told(with_line(4, "     1     1         2        A        A\n")), (4, 4, (1, 6)));
    assert_eq!(told(with_line(5, "     0999999         2        A        A\n")), (4, 5, (7, 12)));
    assert_eq!(text_fault(with_line(5, "     0     1         2        A        A\n")).fault.expected, Expected::State(1));
    assert!(text(
        with_line(2, "  2     2     2\n")
            .replace(STATE, &STATE.repeat(2))
            .replace("     0     0         3", "     0     2         3")
    )
    .contains("expected: a state of this table, 0 to 1\n"));
    let without_states = "  0\n  1     0     1\n     0     0         0         \n";
    assert_eq!(told(without_states), (4, 3, (1, 6)));
    assert!(text(without_states).contains("expected: no arc: this table has no states\n"));
}

#[test]
fn tapes_of_pairs() {
    assert_eq!(told(with_line(1, "  1  0  3 65\n")), (5, 1, (4, 6)));
    assert_eq!(told(with_line(1, "  1  1  3 65\n")), (5, 1, (7, 9)));
    assert_eq!(told(with_line(1, "  2  1  2 65  1  3 65\n")), (5, 1, (16, 18)));
    // the whole list by 5, then by 6, then by 7
    assert_eq!(told(with_line(1, "  2  1  1 65  1  3 65\n")), (5, 1, (16, 18)));
    assert_eq!(told(with_line(1, "  2  1  2 65  2  1 65\n")), (6, 1, (13, 15)));
}

#[test]
fn pairs_that_name_a_tape_twice_or_are_too_many() {
    assert_eq!(told(with_line(1, "  1  2  2  0\n")), (6, 1, (7, 9)));
    assert!(text(with_line(1, "  1  2  2  0\n")).contains("this one is, in columns 4-6\n"));
    assert_eq!(told(with_line(1, "  5  1  2  0  1  2  0  1  2  0  1  2  0  1  2  0\n")), (6, 1, (1, 3)));
}

#[test]
fn limits() {
    assert_eq!(told(with_line(1, "  1  1  2 65\n")), (7, 1, (10, 12)));
    let table = "  4     0     0\n";
    assert_eq!(told(format!("  2  1  2 64  3  4999\n{table}")), (7, 1, (19, 21)));
    assert_eq!(told(format!("  2  1  2999  3  4 65\n{table}")), (7, 1, (10, 12)));
}

#[test]
fn space_for_the_table_read() {
    assert_eq!(told("  0\n  1    65   513\n"), (8, 2, (4, 9)));
    assert_eq!(told("  0\n  1    64   513\n"), (9, 2, (10, 15)));
    let expected = "\
refused   9: arcs full
line 2 (header), columns 10-15 (number of arcs)
found:    \"   513\"
expected: a number up to 512, for which agree lends space
table:    64 states, 513 arcs
lent:     64 states, 512 arcs by agree; a program in C can lend up to 1,024 states, 8,192 arcs (docs/C-API.md)
";
    assert_eq!(text("  0\n  1    64   513\n"), expected);
}

#[test]
fn slips_of_text_md() {
    let small = with_line(4, "     0     0         2        a        A\n");
    assert_eq!((told(&small), hint(&small)), ((2, 4, (23, 31)), Some(Hint::SmallLetter)));
    let windows = good().replace('\n', "\r\n");
    assert_eq!((told(&windows), hint(&windows)), ((2, 1, (13, 13)), Some(Hint::CarriageReturn)));
    let marked = [&b"\xEF\xBB\xBF"[..], good().as_bytes()].concat();
    assert_eq!((told(&marked), hint(&marked)), ((2, 1, (1, 3)), Some(Hint::ByteOrderMark)));
    let tab = with_line(3, "\t0         5\n");
    assert_eq!((told(&tab), hint(&tab)), ((2, 3, (1, 10)), Some(Hint::Tab)));
    let zero = with_line(3, "         0        05\n");
    assert_eq!((told(&zero), hint(&zero)), ((2, 3, (11, 20)), Some(Hint::LeadingZero)));
    let blank = with_line(3, "                   5\n");
    assert_eq!((told(&blank), hint(&blank)), ((2, 3, (1, 10)), Some(Hint::BlankWeight)));
    let stripped = with_line(4, "     0     0         2        A\n");
    assert_eq!((told(&stripped), hint(&stripped)), ((2, 4, (32, 40)), Some(Hint::EarlyEnd(31))));
    let stripped_last = with_line(5, "     0     0         3        B\n");
    assert_eq!((told(&stripped_last), hint(&stripped_last)), ((1, 5, (33, 41)), Some(Hint::EarlyEnd(31))));
    let stripped_by_one = with_line(5, "     0     0         3        B        \n");
    assert_eq!((told(&stripped_by_one), hint(&stripped_by_one)), ((1, 5, (41, 41)), Some(Hint::EarlyEnd(39))));
    let unended = good().trim_end().to_string();
    assert_eq!((told(&unended), hint(&unended)), ((1, 5, (41, 41)), Some(Hint::NoLineEnd)));
    let empty_line = good() + "\n";
    assert_eq!((told(&empty_line), hint(&empty_line)), ((2, 6, (1, 1)), Some(Hint::EmptyLine)));
}

#[test]
fn slips_of_text_md_in_counts_and_pairs() {
    assert_eq!(told(with_line(2, "  2     1     3\n")), (1, 6, (1, 41)));
    assert_eq!(told(with_line(2, "  2     1     1\n")), (2, 5, (1, 40)));
    assert_eq!(told(with_line(5, "     0     1         3        B        C\n")), (4, 5, (7, 12)));
    assert_eq!(told(with_line(1, "  1  1  3  0\n")), (5, 1, (7, 9)));
    assert_eq!(told(with_line(1, "  1  1  1  0\n")), (6, 1, (7, 9)));
    assert_eq!(told(with_line(1, "  1  1  2 65\n")), (7, 1, (10, 12)));
}

#[test]
fn hints_for_lines_of_another_kind() {
    let more = with_line(2, "  2     2     2\n");
    assert_eq!((told(&more), hint(&more)), ((2, 4, (1, 10)), Some(Hint::ArcForState)));
    assert!(text(&more).ends_with("lines:    the header counts 2 states, 2 arcs, which makes 6 lines\n"));
    let less = with_line(2, "  2     0     2\n");
    assert_eq!((told(&less), hint(&less)), ((2, 3, (1, 6)), Some(Hint::StateForArc)));
}

#[test]
fn other_hints() {
    // a table alone; a line that is too long; two lines in one; a label one column to the left
    assert_eq!(hint(&good()[13..]), Some(Hint::NoPairLine));
    assert_eq!(hint(with_line(4, "     0     0         2        A        A  \n")), Some(Hint::LateEnd(42)));
    assert_eq!(hint(with_line(4, &FIRST.replace('\n', " "))), Some(Hint::LateEnd(81)));
    assert_eq!(hint(with_line(4, "     0     0         2       A         A\n")), Some(Hint::NotAtRight));
    assert_eq!(hint(with_line(2, "  2           2\n")), Some(Hint::BlankNumber));
    assert_eq!(hint(with_line(5, "     0     0         2        B        C\r\n")), Some(Hint::CarriageReturn));
    assert_eq!(hint(with_line(5, "     0     0         2        B        -\n")), None);
}

#[test]
fn what_stands_there_is_quoted() {
    let odd = with_line(4, "     0     0         2    \"\\\0\x7f~        A\n");
    assert!(text(odd).contains("found:    \"    \\x22\\x5C\\x00\\x7F~\"\n"));
    let many = good() + &"x".repeat(150);
    assert!(text(many).contains(&format!("found:    \"{}\" and 50 bytes more\n", "x".repeat(100))));
}

#[test]
fn whole_texts() {
    let expected = "\
refused   2: form
line 4 (arc 0), columns 23-31 (label on tape 1)
found:    \"        a\"
expected: a label: 0 to 8 symbols, A to Z and 0 to 9, at the right of its columns, the first of them blank
hint:     a small letter: labels have capital letters
";
    assert_eq!(text(with_line(4, "     0     0         2        a        A\n")), expected);
    let expected = "\
refused   1: short
line 6 (arc 2), columns 1-41
found:    the end of the file
expected: a whole line with its line end (byte 10)
bytes:    the line is missing; it must have 41 bytes with its end
lines:    the header counts 1 state, 3 arcs, which makes 6 lines
";
    assert_eq!(text(with_line(2, "  2     1     3\n")), expected);
}

/// A file of the repository.
fn file(path: &str) -> String {
    std::fs::read_to_string(PathBuf::from(env!("CARGO_MANIFEST_DIR")).join("..").join(path)).unwrap()
}

#[test]
fn the_example_of_text_md() {
    let expected = "\
refused   4: state
line 5 (arc 1), columns 7-12 (target)
found:    \"     1\"
expected: state 0, the only one of this table
";
    assert_eq!(file("examples/slip.in"), with_line(5, "     0     1         3        B        C\n"));
    assert_eq!(text(file("examples/slip.in")), expected);
    let shown: String = expected.lines().map(|line| format!("    {line}\n")).collect();
    assert!(file("docs/TEXT.md").contains(&shown));
}

#[test]
fn every_refusal_has_a_word() {
    let words: Vec<&str> = Refusal::ALL.iter().map(|refusal| refusal.word()).collect();
    let listed = "short form size state tape pairs limit states-full arcs-full delay weight width space path";
    assert_eq!(words, listed.split(' ').map(|word| word.replace('-', " ")).collect::<Vec<String>>());
}

/// Runs `explain` with some arguments on an input.
fn run(arguments: &[&str], input: &[u8]) -> Output {
    let mut command = Command::new(env!("CARGO_BIN_EXE_explain"));
    command.args(arguments).stdin(Stdio::piped()).stdout(Stdio::piped()).stderr(Stdio::piped());
    let mut child = command.spawn().unwrap();
    // a program that does not read its input may have ended before
    let _ = child.stdin.take().unwrap().write_all(input);
    child.wait_with_output().unwrap()
}

#[test]
fn the_program_on_standard_input() {
    let table = run(&[], good().as_bytes());
    assert_eq!((table.status.code(), String::from_utf8(table.stdout).unwrap()), (Some(0), text(good())));
    let slip = with_line(1, "  1  1  2 65\n");
    let refused = run(&[], slip.as_bytes());
    assert_eq!((refused.status.code(), String::from_utf8(refused.stdout).unwrap()), (Some(1), text(&slip)));
    let long = run(&[], &vec![b' '; 3 * MOST_INPUT]);
    assert_eq!(long.status.code(), Some(1));
    assert!(String::from_utf8(long.stdout).unwrap().contains("found:    196,608 bytes\n"));
}

#[test]
fn the_program_on_a_file() {
    let file = PathBuf::from(env!("CARGO_TARGET_TMPDIR")).join("explained.in");
    std::fs::write(&file, with_line(1, "  1  1  2 65\n")).unwrap();
    let refused = run(&[file.to_str().unwrap()], b"");
    assert_eq!(refused.status.code(), Some(1));
    assert!(refused.stdout.starts_with(b"refused   7: limit\nline 1 (pair line), columns 10-12 (limit of pair 1)\n"));
    for (arguments, told) in [
        (&["no such file"][..], "no such file: "),
        (&[env!("CARGO_TARGET_TMPDIR")], "irectory"),
        (&["one", "two"], "usage: explain [FILE]"),
        (&["--unknown"], "usage: explain [FILE]"),
    ] {
        let wrong = run(arguments, b"");
        assert_eq!((wrong.status.code(), &wrong.stdout[..]), (Some(2), &b""[..]), "{arguments:?}");
        assert!(String::from_utf8(wrong.stderr).unwrap().contains(told), "{arguments:?}");
    }
    let help = run(&["--help"], b"");
    assert_eq!(help.status.code(), Some(0));
    assert!(help.stdout.starts_with(b"usage: explain [FILE]\n"));
}
