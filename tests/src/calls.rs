//! Every call on lent bytes: what it answers, and what every lent slice holds after it, refused or not.
//!
//! A result's records stand over the front of its space, the rest keeps its bytes; refused, all of it does. Work space and a
//! join's product space are zero after every call.

use crate::agree::agree;
use crate::automaton::{Automaton, Room, Tuple};
use crate::columns;
use crate::forecast::{self, FORECAST_BYTES};
use crate::intersect;
use crate::join;
use crate::lookup;
use crate::memory::{encode_arcs, encode_states, judge, LentTable, ARC_BYTES, STATE_BYTES};
use crate::pairs::{judge_intersect, judge_join, judge_pairs, pair_of, tapes_of, PairRecord};
use crate::path::{self, Path, PATH_BYTES, PLACE_BYTES};
use crate::product;
use crate::refusal::{refuse_if, Refusal};
use crate::text;

/// The two byte slices lent for a table to be built.
#[derive(Clone, Debug, PartialEq, Eq)]
pub struct ResultSpace {
    pub states: Vec<u8>,
    pub arcs: Vec<u8>,
}

impl ResultSpace {
    /// The space in whole records.
    pub fn room(&self) -> Room {
        Room { states: (self.states.len() / STATE_BYTES) as u64, arcs: (self.arcs.len() / ARC_BYTES) as u64 }
    }

    /// The space after an automaton was written to it.
    fn holding(&self, automaton: &Automaton) -> ResultSpace {
        ResultSpace { states: over(&self.states, &encode_states(automaton)), arcs: over(&self.arcs, &encode_arcs(automaton)) }
    }

    /// The space with every byte zero.
    fn cleared(&self) -> ResultSpace {
        ResultSpace { states: zeros(&self.states), arcs: zeros(&self.arcs) }
    }
}

/// The counts of a table given.
#[derive(Clone, Copy, Debug, PartialEq, Eq)]
pub struct Counts {
    pub tapes: u64,
    pub states: u64,
    pub arcs: u64,
}

/// What a call that gives a table answers and leaves behind; `work` and `product` are empty where the call lends none.
#[derive(Clone, Debug, PartialEq, Eq)]
pub struct TableOutcome {
    pub answer: Result<Counts, Refusal>,
    pub result: ResultSpace,
    pub work: Vec<u8>,
    pub product: ResultSpace,
}

/// What a call that gives a text answers (its length) and leaves behind.
#[derive(Clone, Debug, PartialEq, Eq)]
pub struct TextOutcome {
    pub answer: Result<u64, Refusal>,
    pub output: Vec<u8>,
}

/// What a lookup answers (a weight or none) and leaves behind.
#[derive(Clone, Debug, PartialEq, Eq)]
pub struct LookupOutcome {
    pub answer: Result<Option<u64>, Refusal>,
    pub work: Vec<u8>,
}

/// What a forecast answers (how many bytes it tells) and leaves behind.
#[derive(Clone, Debug, PartialEq, Eq)]
pub struct ForecastOutcome {
    pub answer: Result<u64, Refusal>,
    pub result: Vec<u8>,
    pub work: Vec<u8>,
}

/// The word of a call for a path where the tuple has no weight.
pub const NO_PATH: u64 = 255;

/// What a call for a path answers and leaves behind. The word is 0 where a path is told, 255 where the tuple has no
/// weight, else the number of a refusal.
#[derive(Clone, Debug, PartialEq, Eq)]
pub struct PathOutcome {
    pub word: u64,
    pub result: Vec<u8>,
    pub list: Vec<u8>,
    pub work: Vec<u8>,
}

/// `bytes` over the front of `space`.
fn over(space: &[u8], bytes: &[u8]) -> Vec<u8> {
    [bytes, &space[bytes.len()..]].concat()
}

/// As many zeros.
fn zeros(space: &[u8]) -> Vec<u8> {
    vec![0; space.len()]
}

/// The outcome of a call that gave `answer` to `result`.
fn outcome(answer: Result<Automaton, Refusal>, result: &ResultSpace, work: &[u8], product: &ResultSpace) -> TableOutcome {
    TableOutcome {
        answer: answer.as_ref().map(counts).map_err(|&refusal| refusal),
        result: answer.map_or_else(|_| result.clone(), |automaton| result.holding(&automaton)),
        work: zeros(work),
        product: product.cleared(),
    }
}

/// No product space.
fn no_space() -> ResultSpace {
    ResultSpace { states: Vec::new(), arcs: Vec::new() }
}

/// The counts of an automaton.
fn counts(automaton: &Automaton) -> Counts {
    Counts { tapes: automaton.tapes as u64, states: automaton.states.len() as u64, arcs: automaton.arcs.len() as u64 }
}

/// 13 where the space lent is shorter than the need.
fn judge_space(lent: usize, need: u128) -> Result<(), Refusal> {
    refuse_if((lent as u128) < need, Refusal::Space)
}

/// Work of a build: 320 bytes a state of space, 16 an arc of space, 64 a state of the table read.
pub fn intersect_work(room: Room, states_read: u64) -> u128 {
    320 * u128::from(room.states) + 16 * u128::from(room.arcs) + 64 * u128::from(states_read)
}

/// Work of a product (docs/SPACE.md): 16 bytes a state and an arc of space.
pub fn product_work(room: Room) -> u128 {
    16 * u128::from(room.states) + 16 * u128::from(room.arcs)
}

/// Work of a join (docs/SPACE.md): the product's for its space, and the build's, the product's space being read.
pub fn join_work(between: Room, room: Room) -> u128 {
    product_work(between) + intersect_work(room, between.states)
}

/// Work of a lookup (docs/SPACE.md): 8 bytes a cell.
pub fn lookup_work(automaton: &Automaton, tuple: &[Vec<u8>]) -> u128 {
    8 * lookup::cells(automaton, tuple)
}

/// Work of a path: 24 bytes a cell of the lookup.
pub fn path_work(automaton: &Automaton, tuple: &[Vec<u8>]) -> u128 {
    24 * lookup::cells(automaton, tuple)
}

/// Work of a forecast: 64 bytes a state of the table read.
pub fn forecast_work(states_read: u64) -> u128 {
    64 * u128::from(states_read)
}

/// Reading: the text of a table into result space.
pub fn read(text: &[u8], result: &ResultSpace) -> TableOutcome {
    outcome(text::read(text, result.room()), result, &[], &no_space())
}

/// Writing: the text of a table into lent output; the output past it keeps its bytes.
pub fn write(table: &LentTable, output: &[u8]) -> TextOutcome {
    let written = || {
        let text = text::write(&judge(table)?);
        judge_space(output.len(), text.len() as u128)?;
        Ok(text)
    };
    text_outcome(written(), output)
}

/// The outcome of a call that gave `answer` to `output`.
fn text_outcome(answer: Result<Vec<u8>, Refusal>, output: &[u8]) -> TextOutcome {
    TextOutcome {
        answer: answer.as_ref().map(|text| text.len() as u64).map_err(|&refusal| refusal),
        output: answer.map_or_else(|_| output.to_vec(), |text| over(output, &text)),
    }
}

/// The records of a list of pairs lent as bytes, three a pair: first tape, second tape, limit. One or two last bytes
/// behind the last whole pair are no pair.
pub fn records_of_bytes(bytes: &[u8]) -> Vec<PairRecord> {
    let record = |bytes: &[u8]| (u64::from(bytes[0]), u64::from(bytes[1]), u64::from(bytes[2]));
    bytes.chunks_exact(3).map(record).collect()
}

/// Keeping.
pub fn intersect(table: &LentTable, pairs: &[u8], result: &ResultSpace, work: &[u8]) -> TableOutcome {
    let built = || {
        let automaton = judge(table)?;
        let pairs = judge_intersect(&records_of_bytes(pairs), automaton.tapes)?;
        judge_space(work.len(), intersect_work(result.room(), automaton.states.len() as u64))?;
        intersect::intersect(&automaton, &pairs, result.room())
    };
    outcome(built(), result, work, &no_space())
}

/// Product.
pub fn product(first: &LentTable, second: &LentTable, result: &ResultSpace, work: &[u8]) -> TableOutcome {
    let built = || {
        let (first, second) = (judge(first)?, judge(second)?);
        product::judge_width(&first, &second)?;
        judge_space(work.len(), product_work(result.room()))?;
        product::product(&first, &second, result.room())
    };
    outcome(built(), result, work, &no_space())
}

/// What a join takes besides its two tables.
#[derive(Clone, Debug, PartialEq, Eq)]
pub struct JoinRequest {
    pub pairs: Vec<u8>,
    pub product: ResultSpace,
    pub result: ResultSpace,
    pub work: Vec<u8>,
}

/// Join.
pub fn join(first: &LentTable, second: &LentTable, request: &JoinRequest) -> TableOutcome {
    let (between, room) = (request.product.room(), request.result.room());
    let built = || {
        let (first, second) = (judge(first)?, judge(second)?);
        product::judge_width(&first, &second)?;
        let pairs = judge_join(&records_of_bytes(&request.pairs), first.tapes, second.tapes)?;
        judge_space(request.work.len(), join_work(between, room))?;
        join::join(&first, &second, &pairs, between, room)
    };
    outcome(built(), &request.result, &request.work, &request.product)
}

/// Union.
pub fn union(first: &LentTable, second: &LentTable, result: &ResultSpace) -> TableOutcome {
    let built = || {
        let (first, second) = (judge(first)?, judge(second)?);
        columns::union(&first, &second, result.room())
    };
    outcome(built(), result, &[], &no_space())
}

/// Choosing.
pub fn project(table: &LentTable, tapes: &[u64], result: &ResultSpace) -> TableOutcome {
    let built = || columns::project(&judge(table)?, tapes, result.room());
    outcome(built(), result, &[], &no_space())
}

/// Dropping.
pub fn drop_tapes(table: &LentTable, marked: u8, result: &ResultSpace) -> TableOutcome {
    let built = || columns::drop_tapes(&judge(table)?, marked, result.room());
    outcome(built(), result, &[], &no_space())
}

/// The strings of a tuple lent as text, each ended by byte 10; 1 where bytes follow the last byte 10.
pub fn tuple_of_text(text: &[u8]) -> Result<Vec<Vec<u8>>, Refusal> {
    let mut strings: Vec<Vec<u8>> = text.split(|&byte| byte == 10).map(<[u8]>::to_vec).collect();
    let after_last = strings.pop().unwrap_or_default();
    refuse_if(!after_last.is_empty(), Refusal::Short)?;
    Ok(strings)
}

/// What a lookup judges before its work: the table, the tuple's text (1), the number of strings (5), their sizes (3),
/// their bytes (2).
fn judge_lookup(table: &LentTable, tuple: &[u8]) -> Result<(Automaton, Tuple), Refusal> {
    let automaton = judge(table)?;
    let tuple = tuple_of_text(tuple)?;
    lookup::judge_tuple(&automaton, &tuple)?;
    Ok((automaton, tuple))
}

/// Lookup: the table and the tuple, then the work (13).
pub fn lookup(table: &LentTable, tuple: &[u8], work: &[u8]) -> LookupOutcome {
    let found = || {
        let (automaton, tuple) = judge_lookup(table, tuple)?;
        judge_space(work.len(), lookup_work(&automaton, &tuple))?;
        Ok(lookup::lookup(&automaton, &tuple))
    };
    LookupOutcome { answer: found(), work: zeros(work) }
}

/// 14 where a list has fewer places than the path has arcs; a last byte alone is no place, and no path asks for none.
fn judge_list(lent: usize, path: Option<&Path>) -> Result<(), Refusal> {
    refuse_if(path.is_some_and(|path| lent / PLACE_BYTES < path.arcs.len()), Refusal::PathList)
}

/// What a path takes besides its table.
#[derive(Clone, Debug, PartialEq, Eq)]
pub struct PathRequest {
    pub tuple: Vec<u8>,
    pub result: Vec<u8>,
    pub list: Vec<u8>,
    pub work: Vec<u8>,
}

/// Path: the table and the tuple as for a lookup, then the work and the result (13), last the list (14). What is told
/// stands over the front of the result and of the list.
pub fn path(table: &LentTable, request: &PathRequest) -> PathOutcome {
    let PathRequest { tuple, result, list, work } = request;
    let found = || {
        let (automaton, tuple) = judge_lookup(table, tuple)?;
        judge_space(work.len(), path_work(&automaton, &tuple))?;
        judge_space(result.len(), PATH_BYTES as u128)?;
        let path = path::path(&automaton, &tuple);
        judge_list(list.len(), path.as_ref())?;
        Ok(path)
    };
    let (word, record, places) = match found() {
        Ok(Some(path)) => (0, path.record(), path.list()),
        Ok(None) => (NO_PATH, Vec::new(), Vec::new()),
        Err(refusal) => (Refusal::number(refusal), Vec::new(), Vec::new()),
    };
    PathOutcome { word, result: over(result, &record), list: over(list, &places), work: zeros(work) }
}

/// Forecast: the table, the tapes of the whole list of pairs (5, 6), the work and the result (13). The limits are not
/// read. A record for each pair, in list order, over the front of the result.
pub fn forecast(table: &LentTable, pairs: &[u8], result: &[u8], work: &[u8]) -> ForecastOutcome {
    let told = || {
        let automaton = judge(table)?;
        let pairs = tapes_of(&records_of_bytes(pairs));
        judge_pairs(&pairs, automaton.tapes)?;
        judge_space(work.len(), forecast_work(automaton.states.len() as u64))?;
        judge_space(result.len(), (FORECAST_BYTES * pairs.len()) as u128)?;
        Ok(pairs.into_iter().flat_map(|tapes| forecast::forecast(&automaton, pair_of(tapes)).record()).collect())
    };
    let TextOutcome { answer, output } = text_outcome(told(), result);
    ForecastOutcome { answer, result: output, work: zeros(work) }
}

/// `agree` on its whole input.
pub fn agree_text(input: &[u8]) -> Vec<u8> {
    agree(input)
}
