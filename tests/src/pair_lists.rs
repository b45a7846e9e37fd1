//! Seeded lists of pairs: good ones and ones with faults; limits equal and unequal, at the edges of their range and
//! near what decides refusal 10; the bytes of a list.

use crate::automaton::Automaton;
use crate::intersect::longest_leftovers;
use crate::pairs::{Pair, PairRecord, Tapes, MOST_LIMIT};
use crate::random::Random;

/// A limit that is not refused for itself, often at an edge.
pub fn good_limit(random: &mut Random) -> u64 {
    random.pick(&[0, 0, 1, 1, 1, 2, 2, 3, 4, 5, 7, 8, 9, 16, 30, 31, 32, 63, 64, 64])
}

/// A limit above 64; some of them have a low byte that is not.
fn bad_limit(random: &mut Random) -> u64 {
    random.pick(&[65, 65, 65, 66, 100, 127, 128, 192, 255, 256, 257, 320, 321, 512, 999])
}

/// A limit of either kind.
fn any_limit(random: &mut Random) -> u64 {
    if random.chance(40) {
        bad_limit(random)
    } else {
        good_limit(random)
    }
}

/// Limits that no call reads: each any byte, many of them above 64.
pub fn unread_limits(random: &mut Random, count: usize) -> Vec<u64> {
    let limit = |random: &mut Random| if random.chance(50) { random.below(256) as u64 } else { any_limit(random) };
    (0..count).map(|_| limit(random)).collect()
}

/// Limits near the longest leftovers of the pairs: mostly just enough, often one of them too low, sometimes two; low
/// ones where keeping is refused with any.
fn near_leftovers(random: &mut Random, automaton: &Automaton, pairs: &[Pair]) -> Vec<u64> {
    let Some(longest) = longest_leftovers(automaton, pairs) else {
        return pairs.iter().map(|_| random.below(10) as u64).collect();
    };
    let more = |random: &mut Random| random.pick(&[0, 0, 0, 0, 1, 2, 9]);
    let mut limits: Vec<u64> = longest.iter().map(|&length| (length + more(random)).min(MOST_LIMIT)).collect();
    let lowered: Vec<usize> = (0..pairs.len()).filter(|&place| longest[place] > 0).collect();
    for _ in 0..random.pick(&[0, 0, 1, 1, 1, 2]).min(lowered.len()) {
        let place = random.pick(&lowered);
        limits[place] = if random.chance(70) { longest[place] - 1 } else { random.below(longest[place] as usize) as u64 };
    }
    limits
}

/// Good limits for the pairs of a table, `suited` being one that suits it: all the same, near the longest leftovers,
/// one apart from the others, or each its own.
pub fn limits(random: &mut Random, automaton: &Automaton, pairs: &[Pair], suited: u64) -> Vec<u64> {
    let apart = random.below(pairs.len().max(1));
    let each = |random: &mut Random, of_others: Option<u64>| -> Vec<u64> {
        let limit = |random: &mut Random, place: usize| match of_others {
            _ if place == apart => suited,
            Some(limit) => limit,
            None => good_limit(random),
        };
        (0..pairs.len()).map(|place| limit(random, place)).collect()
    };
    match random.below(10) {
        0 | 1 => vec![suited; pairs.len()],
        2..=6 => near_leftovers(random, automaton, pairs),
        7 => each(random, Some(MOST_LIMIT)),
        _ => each(random, None),
    }
}

/// A good list of pairs of distinct tapes.
pub fn random_pairs(random: &mut Random, tapes: usize) -> Vec<Tapes> {
    let order = random.shuffled(&(1..=tapes as u64).collect::<Vec<u64>>());
    let count = random.below(tapes / 2 + 1);
    (0..count).map(|pair| (order[2 * pair], order[2 * pair + 1])).collect()
}

/// A list with a fault of its tapes or its length, first tapes being 1 to `first` and second ones 1 to `second`: a tape
/// outside, a tape twice, too many pairs, or several of these; any limits beside them.
fn bad_pairs(random: &mut Random, records: &[PairRecord], first: usize, second: usize) -> Vec<PairRecord> {
    let tapes = |random: &mut Random| (random.range(1, first) as u64, random.range(1, second) as u64);
    let mut records = records.to_vec();
    for _ in 0..random.range(1, 2) {
        let (one, two) = tapes(random);
        let outside = [(0, two), (first as u64 + 1, two), (one, second as u64 + 1), (one, 999)];
        let (one, two) = random.pick(&[&outside[..], &[(one, one), (one, two), (one, two), (one, two)]].concat());
        let at = random.below(records.len() + 1);
        records.insert(at, (one, two, any_limit(random)));
    }
    if random.chance(20) {
        let many = random.pick(&[5, 5, 6, 20, 999]);
        while records.len() < many {
            let (one, two) = tapes(random);
            records.push((one, two, any_limit(random)));
        }
    }
    records
}

/// The list with a limit above 64 in one place or several, often in the last.
fn bad_limits(random: &mut Random, records: &[PairRecord]) -> Vec<PairRecord> {
    let mut records = records.to_vec();
    for _ in 0..random.pick(&[1, 1, 1, 2, 4]).min(records.len()) {
        let place = if random.chance(40) { records.len() - 1 } else { random.below(records.len()) };
        records[place].2 = bad_limit(random);
    }
    records
}

/// The list with faults of its tapes or its length (5, 6), of its limits (7), or of both kinds.
pub fn faulty(random: &mut Random, records: &[PairRecord], first: usize, second: usize) -> Vec<PairRecord> {
    match random.below(4) {
        0 => bad_pairs(random, records, first, second),
        1 | 2 => bad_limits(random, records),
        _ => {
            let records = bad_pairs(random, records, first, second);
            bad_limits(random, &records)
        }
    }
}

/// The bytes of a list, a number above 255 as 255; sometimes with one or two bytes behind it, which are no pair.
pub fn bytes_of(random: &mut Random, records: &[PairRecord]) -> Vec<u8> {
    let byte = |number: u64| number.min(255) as u8;
    let mut bytes: Vec<u8> =
        records.iter().flat_map(|&(first, second, limit)| [byte(first), byte(second), byte(limit)]).collect();
    if random.chance(20) {
        bytes.extend((0..random.range(1, 2)).map(|_| random.pick(&[0, 1, 2, 3, 9, 64, 65, 255])));
    }
    bytes
}
