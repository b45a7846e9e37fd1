//! `explain` on generated inputs: damage of a known kind at a known place is told with its number, line and columns, as
//! they follow from how the damage was made; and the answer told of any input is that of `agree`.

use std::collections::BTreeMap;
use tomchoen_tests::agree::agree;
use tomchoen_tests::damage::{joined, justified, lines_of, widths};
use tomchoen_tests::explain::{explain, judge, print, Explanation};
use tomchoen_tests::generate::{agree_input, case, small_case, Case};
use tomchoen_tests::pairs::PairRecord;
use tomchoen_tests::random::Random;
use tomchoen_tests::text::pair_line;

/// A damaged input, and what must be told of it: the number of the refusal, the line and the columns.
struct Damaged {
    what: &'static str,
    input: Vec<u8>,
    refusal: u64,
    line: usize,
    columns: (usize, usize),
}

/// A field of an input written otherwise: line and columns counted from 1, and the refusal that follows.
struct Rewritten {
    what: &'static str,
    line: usize,
    columns: (usize, usize),
    bytes: Vec<u8>,
    refusal: u64,
}

/// A case that `agree` reads: no more states and arcs than it lends.
fn readable_case(random: &mut Random) -> Case {
    loop {
        let case = if random.chance(70) { small_case(random) } else { case(random) };
        if case.automaton.states.len() <= 64 && case.automaton.arcs.len() <= 512 {
            return case;
        }
    }
}

/// The first and last column of a field.
fn columns_of(widths: &[usize], field: usize) -> (usize, usize) {
    let before: usize = widths[..field].iter().sum();
    (before + 1, before + widths[field])
}

/// A number out of form.
fn bad_number(random: &mut Random, field: &[u8]) -> Option<(&'static str, Vec<u8>)> {
    let blanks = field.iter().take_while(|&&byte| byte == b' ').count();
    let mut bytes = field.to_vec();
    let what = match random.below(6) {
        0 if blanks < field.len() => {
            bytes[random.range(blanks, field.len() - 1)] = random.pick(b"AOlx.:/");
            "a letter for a digit"
        }
        1 if blanks > 0 => {
            bytes[blanks - 1] = b'0';
            "a leading zero"
        }
        2 if blanks > 0 => {
            bytes[random.below(blanks)] = b'\t';
            "a tab in a number"
        }
        3 => {
            bytes.fill(b' ');
            "a number left blank"
        }
        4 if blanks > 0 => {
            bytes.rotate_left(1);
            "a number one column to the left"
        }
        5 if blanks > 0 => {
            bytes[blanks - 1] = random.pick(b"+-");
            "a sign"
        }
        _ => return None,
    };
    Some((what, bytes))
}

/// A label out of form.
fn bad_label(random: &mut Random, field: &[u8]) -> Option<(&'static str, Vec<u8>)> {
    let blanks = field.iter().take_while(|&&byte| byte == b' ').count();
    let mut bytes = field.to_vec();
    let what = match random.below(5) {
        0 if blanks < field.len() => {
            bytes[random.range(blanks, field.len() - 1)] = random.range(usize::from(b'a'), usize::from(b'z')) as u8;
            "a small letter"
        }
        1 => {
            bytes[random.below(blanks)] = b'\t';
            "a tab in a label"
        }
        2 if blanks < field.len() => {
            bytes.rotate_left(1);
            "a label one column to the left"
        }
        3 => {
            bytes.copy_from_slice(b"ABCDEFGHI");
            "a label of nine symbols"
        }
        4 => {
            bytes[random.range(1, field.len() - 1)] = random.pick(b"@[`{/:-_\x00\x7f\xff");
            "a byte that is no symbol"
        }
        _ => return None,
    };
    Some((what, bytes))
}

/// A header's count above what its field takes (3), or above the space that is lent (8, 9).
fn great_count(random: &mut Random, field: usize) -> (&'static str, String, u64) {
    let (what, number, refusal) = match (field, random.below(2)) {
        (0, 0) => ("no tapes", 0, 3),
        (0, _) => ("too many tapes", random.range(9, 999), 3),
        (1, 0) => ("states above 1,024", random.range(1_025, 999_999), 3),
        (1, _) => ("states above 64", random.range(65, 1_024), 8),
        (_, 0) => ("arcs above 8,192", random.range(8_193, 999_999), 3),
        _ => ("arcs above 512", random.range(513, 8_192), 9),
    };
    (what, number.to_string(), refusal)
}

/// A number that has its form and is out of range, for a field of a line: of the header, a weight, an arc's state.
fn great_number(random: &mut Random, case: &Case, line: usize, field: usize) -> Option<(&'static str, String, u64)> {
    let states = case.automaton.states.len();
    let is_arc = line >= 2 + states;
    match (line, field) {
        (0, _) => None,
        (1, _) => Some(great_count(random, field)),
        (_, 0) if is_arc => Some(("a source that is not there", random.range(states, 999_999).to_string(), 4)),
        (_, 1) if is_arc => Some(("a target that is not there", random.range(states, 999_999).to_string(), 4)),
        _ => Some(("a weight of ten digits", random.range(1_000_000_000, 9_999_999_999).to_string(), 3)),
    }
}

/// One field of a line, counted from 0, written otherwise.
fn rewritten(random: &mut Random, case: &Case, line: usize) -> Option<Rewritten> {
    let widths = &widths(case)[line];
    let field = random.below(widths.len());
    let columns = columns_of(widths, field);
    let bytes = &lines_of(case)[line][columns.0 - 1..columns.1];
    let is_label = widths[field] == 9;
    let (what, bytes, refusal) = if is_label {
        bad_label(random, bytes).map(|(what, bytes)| (what, bytes, 2))?
    } else if random.chance(50) {
        bad_number(random, bytes).map(|(what, bytes)| (what, bytes, 2))?
    } else {
        let (what, number, refusal) = great_number(random, case, line, field)?;
        (what, justified(&number, widths[field]), refusal)
    };
    Some(Rewritten { what, line: line + 1, columns, bytes, refusal })
}

/// Puts what is rewritten into the lines.
fn put(lines: &mut [Vec<u8>], rewritten: &Rewritten) {
    let (first, last) = rewritten.columns;
    lines[rewritten.line - 1].splice(first - 1..last, rewritten.bytes.iter().copied());
}

/// One field written otherwise.
fn one_field(random: &mut Random, case: &Case) -> Option<Damaged> {
    let mut lines = lines_of(case);
    let at = random.below(lines.len());
    let rewritten = rewritten(random, case, at)?;
    put(&mut lines, &rewritten);
    let Rewritten { what, line, columns, refusal, .. } = rewritten;
    Some(Damaged { what, input: joined(&lines, b"\n"), refusal, line, columns })
}

/// Two fields written otherwise, of one line or of two: the upper line is told, then the lesser number, then the left one.
fn two_fields(random: &mut Random, case: &Case) -> Option<Damaged> {
    let mut lines = lines_of(case);
    let at = random.below(lines.len());
    let other = if random.chance(70) { at } else { random.below(lines.len()) };
    let (one, two) = (rewritten(random, case, at)?, rewritten(random, case, other)?);
    if (one.line, one.columns) == (two.line, two.columns) {
        return None;
    }
    put(&mut lines, &one);
    put(&mut lines, &two);
    let what = match (one.line == two.line, one.refusal == two.refusal) {
        (true, true) => "two of a number in a line",
        (true, false) => "two numbers in a line",
        _ => "two lines",
    };
    let told = [one, two].into_iter().min_by_key(|fault| (fault.line, fault.refusal, fault.columns))?;
    Some(Damaged { what, input: joined(&lines, b"\n"), refusal: told.refusal, line: told.line, columns: told.columns })
}

/// Each line ended by CR LF: told of the first.
fn windows_lines(_: &mut Random, case: &Case) -> Option<Damaged> {
    let lines = lines_of(case);
    let column = lines[0].len() + 1;
    let input = joined(&lines, b"\r\n");
    Some(Damaged { what: "CR LF in each line", input, refusal: 2, line: 1, columns: (column, column) })
}

/// A line with a byte before its end, or in the place of its end.
fn line_end(random: &mut Random, case: &Case) -> Option<Damaged> {
    let mut lines = lines_of(case);
    let at = random.below(lines.len());
    let column = lines[at].len() + 1;
    let end: usize = lines[..=at].iter().map(|line| line.len() + 1).sum();
    let (what, byte) = random.pick(&[
        ("CR LF in a line", b'\r'),
        ("a line one column longer", b' '),
        ("a line one column longer", b'A'),
        ("another byte for a line end", b' '),
        ("another byte for a line end", b'\0'),
    ]);
    let is_instead = what == "another byte for a line end";
    lines[at].extend((!is_instead).then_some(byte));
    let mut input = joined(&lines, b"\n");
    input[end - 1] = byte;
    Some(Damaged { what, input, refusal: 2, line: at + 1, columns: (column, column) })
}

/// The input cut before some byte. Of a pair line four bytes are missed first.
fn cut(random: &mut Random, case: &Case) -> Option<Damaged> {
    let lines = lines_of(case);
    let mut input = joined(&lines, b"\n");
    let left = if random.chance(30) { random.below(20) } else { random.below(input.len()) }.min(input.len() - 1);
    input.truncate(left);
    let (mut at, mut before) = (0, 0);
    while before + lines[at].len() < left {
        before += lines[at].len() + 1;
        at += 1;
    }
    let length = if left < 4 { 4 } else { lines[at].len() + 1 };
    let what = if left == before { "a cut before a line" } else { "a cut in a line" };
    Some(Damaged { what, input, refusal: 1, line: at + 1, columns: (left - before + 1, length) })
}

/// Bytes behind the last line.
fn behind(random: &mut Random, case: &Case) -> Option<Damaged> {
    let lines = lines_of(case);
    let mut input = joined(&lines, b"\n");
    let (what, more, last) = random.pick(&[
        ("a byte behind the last line", &b"A"[..], 1),
        ("a byte behind the last line", b" ", 1),
        ("a byte behind the last line", b"\0", 1),
        ("an empty line", b"\n", 1),
        ("an empty line", b"\n\n", 1),
        ("a line behind the last", b"  1\nABC", 3),
    ]);
    input.extend(more);
    Some(Damaged { what, input, refusal: 2, line: lines.len() + 1, columns: (1, last) })
}

/// Blanks at the end of an arc's line taken off, some or all: the line then ends in a label, or the file before the line
/// does.
fn stripped(random: &mut Random, case: &Case) -> Option<Damaged> {
    let mut lines = lines_of(case);
    let arcs = case.automaton.arcs.len();
    let at = lines.len() - 1 - if random.chance(50) { 0 } else { random.below(arcs.max(1)) };
    let blanks = lines[at].iter().rev().take_while(|&&byte| byte == b' ').count();
    if arcs == 0 || blanks == 0 {
        return None;
    }
    let (length, left) = (lines[at].len(), lines[at].len() - random.range(1, blanks));
    lines[at].truncate(left);
    // labels begin behind column 22
    let label = left.checked_sub(22)? / 9;
    let (what, refusal, columns) = if at + 1 == lines.len() {
        ("the last line stripped", 1, (left + 2, length + 1))
    } else {
        ("a line stripped", 2, (23 + 9 * label, 31 + 9 * label))
    };
    Some(Damaged { what, input: joined(&lines, b"\n"), refusal, line: at + 1, columns })
}

/// The input of a case with another pair line.
fn with_pairs(case: &Case, records: &[PairRecord]) -> Vec<u8> {
    [pair_line(records), joined(&lines_of(case)[1..], b"\n")].concat()
}

/// A tape that is not there, or a limit above 64.
fn pair_number(random: &mut Random, case: &Case) -> Option<Damaged> {
    let mut records = case.pairs.clone();
    let place = random.below(records.len().max(1));
    let record = records.get_mut(place)?;
    let foreign = if random.chance(30) { 0 } else { random.range(case.automaton.tapes + 1, 999) as u64 };
    let (what, refusal, before) = match random.below(3) {
        0 => {
            record.0 = foreign;
            ("a first tape that is not there", 5, 0)
        }
        1 => {
            record.1 = foreign;
            ("a second tape that is not there", 5, 3)
        }
        _ => {
            record.2 = random.range(65, 999) as u64;
            ("a limit above 64", 7, 6)
        }
    };
    let column = 4 + 9 * place + before;
    Some(Damaged { what, input: with_pairs(case, &records), refusal, line: 1, columns: (column, column + 2) })
}

/// A tape named twice: told where it stands the second time.
fn tape_twice(random: &mut Random, case: &Case) -> Option<Damaged> {
    let mut records = case.pairs.clone();
    let mut tapes: Vec<&mut u64> = records.iter_mut().flat_map(|(first, second, _)| [first, second]).collect();
    if tapes.is_empty() {
        return None;
    }
    let second = random.range(1, tapes.len() - 1);
    *tapes[second] = *tapes[random.below(second)];
    let column = 4 + 9 * (second / 2) + 3 * (second % 2);
    let input = with_pairs(case, &records);
    Some(Damaged { what: "a tape twice", input, refusal: 6, line: 1, columns: (column, column + 2) })
}

/// Five pairs or more, all of tapes that are there.
fn many_pairs(random: &mut Random, case: &Case) -> Option<Damaged> {
    let mut tape = || random.range(1, case.automaton.tapes) as u64;
    let pairs: Vec<PairRecord> = (0..30).map(|_| (tape(), tape(), 64 + tape())).collect();
    let input = with_pairs(case, &pairs[..random.range(5, 30)]);
    Some(Damaged { what: "more than four pairs", input, refusal: 6, line: 1, columns: (1, 3) })
}

/// The header of a case with other counts of states and arcs.
fn recounted(case: &Case, states: usize, arcs: usize) -> Vec<u8> {
    let mut lines = lines_of(case);
    lines[1] = format!("{:>3}{states:>6}{arcs:>6}", case.automaton.tapes).into_bytes();
    joined(&lines, b"\n")
}

/// One arc more or less in the header than there are.
fn arc_count(random: &mut Random, case: &Case) -> Option<Damaged> {
    let (states, arcs) = (case.automaton.states.len(), case.automaton.arcs.len());
    let length = 22 + 9 * case.automaton.tapes;
    let last = 2 + states + arcs;
    if random.chance(50) && arcs < 512 {
        let (input, columns) = (recounted(case, states, arcs + 1), (1, length + 1));
        return Some(Damaged { what: "an arc more in the header", input, refusal: 1, line: last + 1, columns });
    }
    let input = recounted(case, states, arcs.checked_sub(1)?);
    Some(Damaged { what: "an arc less in the header", input, refusal: 2, line: last, columns: (1, length) })
}

/// One state more or less in the header than there are: an arc's line read as a state's, or the other way round.
fn state_count(random: &mut Random, case: &Case) -> Option<Damaged> {
    let (states, arcs) = (case.automaton.states.len(), case.automaton.arcs.len());
    if random.chance(50) && states < 64 {
        // an arc's source ends in column 6, and columns 7 to 10 of a target below 100 are blank
        let (refusal, columns) = if arcs > 0 { (2, (1, 10)) } else { (1, (1, 21)) };
        let input = recounted(case, states + 1, arcs);
        return Some(Damaged { what: "a state more in the header", input, refusal, line: 3 + states, columns });
    }
    let input = recounted(case, states.checked_sub(1)?, arcs);
    let initial = case.automaton.states[states - 1].initial;
    let columns = match initial {
        _ if arcs == 0 => (1, 20),
        // five digits of a weight reach into column 6; column 11 is blank
        Some(10_000..) => (7, 12),
        _ => (1, 6),
    };
    Some(Damaged { what: "a state less in the header", input, refusal: 2, line: 2 + states, columns })
}

/// A count of the header that is too great.
fn great_header(random: &mut Random, case: &Case) -> Option<Damaged> {
    let mut lines = lines_of(case);
    let field = random.below(3);
    let columns = columns_of(&widths(case)[1], field);
    let (what, number, refusal) = great_count(random, field);
    lines[1].splice(columns.0 - 1..columns.1, justified(&number, columns.1 + 1 - columns.0));
    Some(Damaged { what, input: joined(&lines, b"\n"), refusal, line: 2, columns })
}

/// A byte order mark at the front.
fn byte_order_mark(_: &mut Random, case: &Case) -> Option<Damaged> {
    let input = [&b"\xEF\xBB\xBF"[..], &joined(&lines_of(case), b"\n")].concat();
    Some(Damaged { what: "a byte order mark", input, refusal: 2, line: 1, columns: (1, 3) })
}

/// Makes damage of one kind in a case, where the case has the place for it.
type Kind = fn(&mut Random, &Case) -> Option<Damaged>;

/// The kinds of damage.
const KINDS: [Kind; 14] = [
    one_field,
    two_fields,
    windows_lines,
    line_end,
    cut,
    behind,
    stripped,
    pair_number,
    tape_twice,
    many_pairs,
    arc_count,
    state_count,
    great_header,
    byte_order_mark,
];

/// Damage of one of the kinds; of one field or two most often.
fn damaged(random: &mut Random) -> Damaged {
    loop {
        let case = readable_case(random);
        let kind = if random.chance(40) { random.pick(&KINDS[..2]) } else { random.pick(&KINDS) };
        if let Some(damaged) = kind(random, &case) {
            return damaged;
        }
    }
}

/// Checks what is told of a damaged input, as a value and as text.
fn check(damaged: &Damaged) {
    let Damaged { what, input, refusal, line, columns } = damaged;
    let shown = String::from_utf8_lossy(input);
    assert_eq!(agree(input), format!("refused{refusal:>4}\n").into_bytes(), "{what}:\n{shown}");
    let explanation = explain(input, input.len() as u64);
    let Explanation::Text(text) = &explanation else { panic!("{what}: {explanation:?}\n{shown}") };
    let place = text.fault.place.unwrap_or_else(|| panic!("{what}: no place\n{shown}"));
    let told = (text.fault.refusal.number(), place.line, (place.first, place.last));
    assert_eq!(told, (*refusal, *line, *columns), "{what}:\n{shown}");
    let printed = print::text(&explanation);
    let of_columns =
        if columns.0 == columns.1 { format!("column {}", columns.0) } else { format!("columns {}-{}", columns.0, columns.1) };
    let mut lines = printed.lines();
    assert!(lines.next().is_some_and(|first| first.starts_with(&format!("refused{refusal:>4}: "))), "{what}: {printed}");
    let second = lines.next().unwrap_or_default();
    assert!(second.starts_with(&format!("line {line} (")), "{what}: {printed}");
    assert!(second.contains(&format!("), {of_columns} (")) || second.ends_with(&format!("), {of_columns}")), "{what}: {printed}");
}

#[test]
fn the_right_line_and_columns_of_damaged_inputs() {
    let mut met: BTreeMap<&str, usize> = BTreeMap::new();
    for number in 0..6_000 {
        let damaged = damaged(&mut Random::for_case(5, number));
        check(&damaged);
        *met.entry(damaged.what).or_insert(0) += 1;
    }
    println!("{met:#?}");
    assert_eq!(met.len(), 44, "{met:#?}");
    assert!(met.values().all(|&count| count >= 10), "{met:#?}");
}

/// The counts of the first line of a table's text.
fn counts(text: &str) -> (String, String) {
    (text[3..9].trim().to_string(), text[9..15].trim().to_string())
}

/// So many of something.
fn counted(number: &str, one: &str) -> String {
    format!("{number} {one}{}", if number == "1" { "" } else { "s" })
}

#[test]
fn the_answer_of_agree() {
    let mut met: BTreeMap<String, usize> = BTreeMap::new();
    for number in 0..4_000 {
        let input = agree_input(&mut Random::for_case(6, number));
        let answer = String::from_utf8(agree(&input)).unwrap();
        let explanation = explain(&input, input.len() as u64);
        assert_eq!(judge(&input).refusal(), explanation.refusal(), "{number}: {answer}");
        let told = print::text(&explanation);
        if answer.starts_with("refused") {
            assert!(told.starts_with(&format!("{}: ", answer.trim_end())), "{number}: {answer}{told}");
            *met.entry(answer.trim_end().to_string()).or_insert(0) += 1;
        } else {
            let (states, arcs) = counts(&answer);
            let result = format!("\nresult: {}, {}", counted(&states, "state"), counted(&arcs, "arc"));
            assert!(told.starts_with("table: ") && told.contains(&result), "{number}: {answer}{told}");
            *met.entry("a table".to_string()).or_insert(0) += 1;
        }
    }
    println!("{met:?}");
    assert_eq!(met.len(), 11, "{met:?}");
    assert!(met.values().all(|&count| count >= 5), "{met:?}");
}
