//! Join: product, keep i = n + j, drop the second tapes.

use crate::automaton::{Automaton, Room};
use crate::columns::drop_tapes;
use crate::intersect::intersect;
use crate::pairs::LimitedPair;
use crate::product::product;
use crate::refusal::Refusal;

/// The join of two tables on (judged) pairs, each held to its own limit; the refusal of the first step that refuses.
pub fn join(
    first: &Automaton,
    second: &Automaton,
    pairs: &[LimitedPair],
    between: Room,
    room: Room,
) -> Result<Automaton, Refusal> {
    let product = product(first, second, between)?;
    let raised: Vec<LimitedPair> = pairs.iter().map(|&((i, j), limit)| ((i, first.tapes + j), limit)).collect();
    let kept = intersect(&product, &raised, room)?;
    let marked = raised.iter().fold(0, |marked, &((_, tape), _)| marked | 1 << (tape - 1));
    drop_tapes(&kept, marked, room)
}
