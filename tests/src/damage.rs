//! Damaged texts and damaged records: byte edits, cuts, insertions, line ends, leading zeros, big numbers, sizes near a bound.

use crate::agree::MOST_INPUT;
use crate::automaton::Automaton;
use crate::generate::{input_of, Case};
use crate::memory::{encode, LentTable, ARC_BYTES, STATE_BYTES};
use crate::random::Random;
use crate::text::{pair_line, write};

/// The widths of the fields of each line of an input.
pub fn widths(case: &Case) -> Vec<Vec<usize>> {
    let mut lines = vec![vec![3; 1 + 3 * case.pairs.len()], vec![3, 6, 6]];
    lines.extend(case.automaton.states.iter().map(|_| vec![10, 10]));
    let mut arc = vec![6, 6, 10];
    arc.extend(vec![9; case.automaton.tapes]);
    lines.extend(case.automaton.arcs.iter().map(|_| arc.clone()));
    lines
}

/// The lines of an input without their ends.
pub fn lines_of(case: &Case) -> Vec<Vec<u8>> {
    let text = input_of(case);
    let mut lines: Vec<Vec<u8>> = text.split(|&byte| byte == 10).map(<[u8]>::to_vec).collect();
    lines.pop();
    lines
}

/// A line among the first few or anywhere: heads are damaged as often as what follows them.
fn some_line(random: &mut Random, count: usize) -> usize {
    if random.chance(35) {
        random.below(count.min(3))
    } else {
        random.below(count)
    }
}

/// A byte that stands near an edge of what is allowed.
fn odd_byte(random: &mut Random) -> u8 {
    if random.chance(5) {
        return random.below(256) as u8;
    }
    random.pick(b"  0019AZaz@[`{/:-+.,\n\r\t\x00\x7f\xff_I1O")
}

/// A number near an edge of the range of a field: of a pair line, a header, a state or a weight.
fn edge_number(random: &mut Random, line: usize, width: usize, case: &Case) -> u64 {
    let (states, arcs) = (case.automaton.states.len() as u64, case.automaton.arcs.len() as u64);
    let tapes = case.automaton.tapes as u64;
    match (line, width) {
        (_, 3) => random.pick(&[0, 1, 4, 5, 8, 9, 10, 63, 64, 65, 99, 100, 256, 320, 999, tapes, tapes + 1]),
        (1, _) => random.pick(&[
            0,
            1,
            63,
            64,
            65,
            511,
            512,
            513,
            1_023,
            1_024,
            1_025,
            8_191,
            8_192,
            8_193,
            99_999,
            100_000,
            999_999,
            states + 1,
            states.saturating_sub(1),
            arcs + 1,
            arcs.saturating_sub(1),
        ]),
        (_, 6) => random.pick(&[0, states, states, states + 1, states.saturating_sub(1), 64, 1_024, 65_536, 999_999]),
        _ => random.pick(&[
            0,
            1,
            99_999_999,
            999_999_999,
            999_999_999,
            1_000_000_000,
            1_000_000_000,
            1_999_999_999,
            4_294_967_295,
            4_294_967_296,
            9_999_999_999,
        ]),
    }
}

/// `text` right-justified in `width` columns, cut to them at its right end.
pub fn justified(text: &str, width: usize) -> Vec<u8> {
    let mut field = format!("{text:>width$}").into_bytes();
    field.drain(..field.len() - width);
    field
}

/// What may stand in a field of a line instead.
fn odd_field(random: &mut Random, line: usize, field: &[u8], case: &Case) -> Vec<u8> {
    let width = field.len();
    let text = String::from_utf8_lossy(field).into_owned();
    let bare = text.trim_start();
    match random.below(16) {
        0 => vec![b' '; width],
        1 => vec![random.pick(b"0919A"); width],
        2 => justified(&format!("0{bare}"), width),
        3 => format!("{bare:<width$}").into_bytes(),
        4 => justified(&format!("{}{bare}", random.pick(&["+", "-", "00", "0x", "."])), width),
        5 => justified("-", width),
        6 => justified(&format!("{} {}", random.below(9), random.below(9)), width),
        7 => justified(random.pick(&["A", "Z9", "a", "z", "0", "00", "A B", "A-", "12345678", "I1O0"]), width),
        8 => justified(random.pick(&["ABCDEFGH", "ABCDEFGHI", "AbC", "A@", "[", "/0", "0:", "`", "{"]), width),
        9 => {
            let mut field = field.to_vec();
            let at = random.below(width);
            field[at] = odd_byte(random);
            field
        }
        _ if width == 9 => justified(random.pick(&["", "A", "AB", "ABCDEFGH", "a", "ABCDEFGHI"]), width),
        _ => justified(&edge_number(random, line, width, case).to_string(), width),
    }
}

/// Replaces one field of one line, or two of them.
fn damage_field(random: &mut Random, lines: &mut [Vec<u8>], case: &Case) {
    let widths = widths(case);
    let at = some_line(random, widths.len().min(lines.len()));
    for _ in 0..random.pick(&[1, 1, 2]) {
        let field = if random.chance(40) { random.below(3).min(widths[at].len() - 1) } else { random.below(widths[at].len()) };
        let start: usize = widths[at][..field].iter().sum();
        let end = start + widths[at][field];
        if lines[at].len() >= end {
            let odd = odd_field(random, at, &lines[at][start..end], case);
            lines[at].splice(start..end, odd);
        }
    }
}

/// Adds one to a count of the header, or takes one off, so that the lines after it are one too many or one too few.
fn damage_count(random: &mut Random, lines: &mut [Vec<u8>], case: &Case) {
    let (tapes, states, arcs) = (case.automaton.tapes, case.automaton.states.len(), case.automaton.arcs.len());
    let shifted = |random: &mut Random, count: usize| if random.chance(50) { count + 1 } else { count.saturating_sub(1) };
    let counts = match random.below(3) {
        0 => (shifted(random, tapes), states, arcs),
        1 => (tapes, shifted(random, states), arcs),
        _ => (tapes, states, shifted(random, arcs)),
    };
    if let Some(header) = lines.get_mut(1) {
        *header = format!("{:>3}{:>6}{:>6}", counts.0, counts.1, counts.2).into_bytes();
    }
}

/// Repeats, removes or exchanges a line.
fn damage_lines(random: &mut Random, lines: &mut Vec<Vec<u8>>) {
    let at = some_line(random, lines.len());
    match random.below(3) {
        0 => lines.insert(at, lines[at].clone()),
        1 if lines.len() > 1 => {
            lines.remove(at);
        }
        _ => {
            let other = random.below(lines.len());
            lines.swap(at, other);
        }
    }
}

/// Lines joined, each ended by `end`.
pub fn joined(lines: &[Vec<u8>], end: &[u8]) -> Vec<u8> {
    lines.iter().flat_map(|line| [line, end].concat()).collect()
}

/// Replaces, inserts or removes one byte, or cuts the text.
fn damage_bytes(random: &mut Random, text: &mut Vec<u8>) {
    if text.is_empty() {
        return;
    }
    let at = if random.chance(40) { random.below(text.len().min(60)) } else { random.below(text.len()) };
    match random.below(5) {
        0 | 1 => text[at] = odd_byte(random),
        2 => text.insert(at, odd_byte(random)),
        3 => {
            text.remove(at);
        }
        _ => text.truncate(at + random.below(2)),
    }
}

/// Adds bytes after the end, a few or up to the size bound, or takes the last one off.
fn damage_end(random: &mut Random, text: &mut Vec<u8>) {
    match random.below(12) {
        0..=4 => {
            text.pop();
        }
        5..=7 => text.push(odd_byte(random)),
        8 | 9 => text.extend(b"\n"),
        10 => text.extend(b"  1     0     0\n"),
        _ => {
            let size = random.pick(&[MOST_INPUT - 1, MOST_INPUT, MOST_INPUT, MOST_INPUT + 1, MOST_INPUT + 1, 2 * MOST_INPUT]);
            let filler = odd_byte(random);
            text.resize(size.max(text.len()), filler);
        }
    }
}

/// Lines joined, one of them or all with another end.
fn joined_otherwise(random: &mut Random, lines: &[Vec<u8>]) -> Vec<u8> {
    let end: &[u8] = random.pick(&[&b"\r\n"[..], b"\r", b"\r", b"", b"\n\n", b" ", b"\0", b" \n"]);
    if random.chance(30) {
        return joined(lines, end);
    }
    let at = some_line(random, lines.len());
    [joined(&lines[..at], b"\n"), lines[at].clone(), end.to_vec(), joined(&lines[at + 1..], b"\n")].concat()
}

/// A damaged input of `agree`: one to three faults.
pub fn damaged_input(random: &mut Random, case: &Case) -> Vec<u8> {
    let mut lines = lines_of(case);
    let (mut of_bytes, mut of_end, mut of_line_ends) = (0, 0, false);
    for _ in 0..random.pick(&[1, 1, 1, 1, 2, 2, 3]) {
        match random.below(20) {
            0..=9 => damage_field(random, &mut lines, case),
            10 | 11 => damage_count(random, &mut lines, case),
            12 | 13 => damage_lines(random, &mut lines),
            14..=16 => of_bytes += 1,
            17 => of_line_ends = true,
            _ => of_end += 1,
        }
    }
    let mut text = if of_line_ends { joined_otherwise(random, &lines) } else { joined(&lines, b"\n") };
    for _ in 0..of_bytes {
        damage_bytes(random, &mut text);
    }
    for _ in 0..of_end {
        damage_end(random, &mut text);
    }
    text
}

/// An input that is hardly a text of a table at all.
pub fn stray_input(random: &mut Random) -> Vec<u8> {
    match random.below(24) {
        0 => Vec::new(),
        1 => {
            let size = random.pick(&[MOST_INPUT - 1, MOST_INPUT, MOST_INPUT + 1]);
            vec![random.pick(b" 0\nA"); size]
        }
        2 => pair_line(&vec![(1, 2, random.below(1_000) as u64); random.range(0, 999)]),
        3..=6 => random
            .pick(&[&b"abc"[..], b"abcd", b"  0", b"  0\n", b"  0 ", b"  0  0\n", b"  1\n", b"  1  1  2\n", b"999\n", b"\n"])
            .to_vec(),
        7..=9 => (0..random.below(60)).map(|_| random.below(256) as u8).collect(),
        10..=12 => (0..random.below(60)).map(|_| odd_byte(random)).collect(),
        13..=15 => [pair_line(&[]), write(&Automaton::empty(random.range(1, 8)))].concat(),
        _ => {
            let header = format!(
                "{:>3}{:>6}{:>6}\n",
                random.range(0, 9),
                random.pick(&[0, 64, 65, 1_024, 1_025]),
                random.pick(&[0, 512, 513, 8_192, 8_193])
            );
            let records = if random.chance(50) { vec![(1, 2, random.below(70) as u64)] } else { Vec::new() };
            [pair_line(&records), header.into_bytes()].concat()
        }
    }
}

/// Alters a byte to one near an edge.
fn damage_record_byte(random: &mut Random, records: &mut [u8]) {
    if !records.is_empty() {
        let at = random.below(records.len());
        records[at] = random.pick(&[0, 1, 2, 8, 9, b'A', b'Z', b'0', b'9', b'a', b'@', 0x9a, 0x3b, 0x7f, 0xff]);
    }
}

/// A table in memory with some counts, bytes or lengths altered.
pub fn damaged_table(random: &mut Random, automaton: &Automaton) -> LentTable {
    let mut table = encode(automaton);
    for _ in 0..random.range(1, 3) {
        match random.below(9) {
            0 => table.tapes = random.pick(&[0, 1, 2, 7, 8, 9, 255]),
            1 => table.states = random.pick(&[0, table.states + 1, table.states.saturating_sub(1), 1_024, 1_025]),
            2 => table.arcs = random.pick(&[0, table.arcs + 1, table.arcs.saturating_sub(1), 8_192, 8_193]),
            3 | 4 => damage_record_byte(random, &mut table.state_records),
            5 | 6 => damage_record_byte(random, &mut table.arc_records),
            7 => table.state_records.resize(random.below(table.state_records.len() + STATE_BYTES + 1), 0),
            _ => table.arc_records.resize(random.below(table.arc_records.len() + ARC_BYTES + 1), 0),
        }
    }
    table
}
