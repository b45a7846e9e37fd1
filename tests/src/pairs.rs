//! Pairs of tapes, each with a delay limit of its own: refusals 5, 6 and 7.

use crate::fault::Expected;
use crate::lines::Field;
use crate::refusal::{refuse_if, Refusal};
use std::collections::HashMap;

/// Most pairs of a list.
pub const MOST_PAIRS: usize = 4;
/// Greatest delay limit.
pub const MOST_LIMIT: u64 = 64;

/// Two tapes as a record names them, not judged.
pub type Tapes = (u64, u64);

/// The record of a pair, not judged: first tape, second tape, limit.
pub type PairRecord = (u64, u64, u64);

/// A pair of tapes, numbered from 1.
pub type Pair = (usize, usize);

/// A pair of tapes and the limit that it is held to.
pub type LimitedPair = (Pair, u64);

/// The tapes of some records, without their limits.
pub fn tapes_of(records: &[PairRecord]) -> Vec<Tapes> {
    records.iter().map(|&(first, second, _)| (first, second)).collect()
}

/// The limits of some records.
pub fn limits_of(records: &[PairRecord]) -> Vec<u64> {
    records.iter().map(|&(_, _, limit)| limit).collect()
}

/// The records of some tapes with as many limits.
pub fn records_of(tapes: &[Tapes], limits: &[u64]) -> Vec<PairRecord> {
    tapes.iter().zip(limits).map(|(&(first, second), &limit)| (first, second, limit)).collect()
}

/// Tapes as a pair, once judged.
pub fn pair_of((first, second): Tapes) -> Pair {
    (first as usize, second as usize)
}

/// Records as pairs with their limits, once judged.
pub fn limited(records: &[PairRecord]) -> Vec<LimitedPair> {
    records.iter().map(|&(first, second, limit)| (pair_of((first, second)), limit)).collect()
}

/// Whether `tape` is in 1..n.
fn is_tape(tape: u64, tapes: usize) -> bool {
    1 <= tape && tape <= tapes as u64
}

/// The first number that stands there before, by the keys of both places: the one before and its own.
fn repeated<K: Copy>(numbers: impl IntoIterator<Item = (K, u64)>) -> Option<(K, K)> {
    let mut seen = HashMap::new();
    numbers.into_iter().find_map(|(key, number)| seen.insert(number, key).map(|before| (before, key)))
}

/// Why a list of pairs is refused: the refusal, the number of the list that is wrong, and what should stand there.
#[derive(Clone, Copy, Debug, PartialEq, Eq)]
pub struct ListFault {
    pub refusal: Refusal,
    pub field: Field,
    pub expected: Expected,
}

impl From<ListFault> for Refusal {
    fn from(fault: ListFault) -> Refusal {
        fault.refusal
    }
}

/// The tapes that a list names, with their places in it.
fn named(pairs: &[Tapes]) -> impl Iterator<Item = (Field, u64)> + '_ {
    let of_pair = |(place, &(first, second)): (usize, &Tapes)| {
        [(Field::FirstTape(place + 1), first), (Field::SecondTape(place + 1), second)]
    };
    pairs.iter().enumerate().flat_map(of_pair)
}

/// Judges the tapes of pairs on one table by 5, 6: all in 1..n, and all differ.
fn judge_tapes(pairs: &[Tapes], tapes: usize) -> Result<(), ListFault> {
    if let Some((field, _)) = named(pairs).find(|&(_, tape)| !is_tape(tape, tapes)) {
        return Err(ListFault { refusal: Refusal::Tape, field, expected: Expected::Tape(tapes as u64) });
    }
    let expected = Expected::NumberFrom(0, MOST_PAIRS as u64);
    let many = ListFault { refusal: Refusal::Pairs, field: Field::PairCount, expected };
    refuse_if(pairs.len() > MOST_PAIRS, many)?;
    let twice = |(before, field)| ListFault { refusal: Refusal::Pairs, field, expected: Expected::OtherTape(before) };
    repeated(named(pairs)).map_or(Ok(()), |places| Err(twice(places)))
}

/// Judges the tapes of pairs on one table by 5, 6.
pub fn judge_pairs(pairs: &[Tapes], tapes: usize) -> Result<(), Refusal> {
    Ok(judge_tapes(pairs, tapes)?)
}

/// Judges the tapes of a join's pairs by 5, 6: each side's in its range, and distinct on that side.
fn judge_join_pairs(pairs: &[Tapes], first: usize, second: usize) -> Result<(), Refusal> {
    let foreign = pairs.iter().any(|&(i, j)| !is_tape(i, first) || !is_tape(j, second));
    refuse_if(foreign, Refusal::Tape)?;
    let on_first = repeated(pairs.iter().map(|pair| ((), pair.0)));
    let on_second = repeated(pairs.iter().map(|pair| ((), pair.1)));
    refuse_if(pairs.len() > MOST_PAIRS || on_first.is_some() || on_second.is_some(), Refusal::Pairs)
}

/// Judges the limits of pairs by 7, in list order.
fn judge_limits(records: &[PairRecord]) -> Result<(), ListFault> {
    let expected = Expected::NumberFrom(0, MOST_LIMIT);
    let fault = |place: usize| ListFault { refusal: Refusal::Limit, field: Field::Limit(place + 1), expected };
    records.iter().enumerate().try_for_each(|(place, &(_, _, limit))| refuse_if(limit > MOST_LIMIT, fault(place)))
}

/// Judges the records of keeping, telling which number is wrong: the tapes of the whole list by 5, 6, then its limits by 7.
pub fn judge_list(records: &[PairRecord], tapes: usize) -> Result<Vec<LimitedPair>, ListFault> {
    judge_tapes(&tapes_of(records), tapes)?;
    judge_limits(records)?;
    Ok(limited(records))
}

/// Judges the records of keeping by 5, 6, 7.
pub fn judge_intersect(records: &[PairRecord], tapes: usize) -> Result<Vec<LimitedPair>, Refusal> {
    Ok(judge_list(records, tapes)?)
}

/// Judges the records of a join: the tapes of the whole list by 5, 6, then its limits by 7.
pub fn judge_join(records: &[PairRecord], first: usize, second: usize) -> Result<Vec<LimitedPair>, Refusal> {
    judge_join_pairs(&tapes_of(records), first, second)?;
    judge_limits(records)?;
    Ok(limited(records))
}
