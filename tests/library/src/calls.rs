//! The calls of the static library, safe: vectors in, answers and vectors out.

use tomchoen_tests::calls::{Counts, ResultSpace};
use tomchoen_tests::calls::{ForecastOutcome, LookupOutcome, PathOutcome, TableOutcome, TextOutcome};
use tomchoen_tests::memory::LentTable;
use tomchoen_tests::refusal::Refusal;
use tomchoen_tests::requests::{Outcome, Request};

extern "C" {
    fn tomchoen_read(text: *const u8, n: usize, out_states: *mut u8, s: usize, out_arcs: *mut u8, a: usize) -> u64;
    fn tomchoen_write(
        tapes: usize, states: usize, arcs: usize, state_bytes: *const u8, s: usize, arc_bytes: *const u8, a: usize,
        output: *mut u8, n: usize,
    ) -> u64;
    fn tomchoen_build(
        tapes: usize, states: usize, arcs: usize, state_bytes: *const u8, s: usize, arc_bytes: *const u8, a: usize,
        pairs: *const u8, p: usize,
        out_states: *mut u8, os: usize, out_arcs: *mut u8, oa: usize, work: *mut u8, w: usize,
    ) -> u64;
    fn tomchoen_product(
        tapes: usize, states: usize, arcs: usize, state_bytes: *const u8, s: usize, arc_bytes: *const u8, a: usize,
        tapes2: usize, states2: usize, arcs2: usize, state_bytes2: *const u8, s2: usize, arc_bytes2: *const u8, a2: usize,
        out_states: *mut u8, os: usize, out_arcs: *mut u8, oa: usize, work: *mut u8, w: usize,
    ) -> u64;
    fn tomchoen_join(
        tapes: usize, states: usize, arcs: usize, state_bytes: *const u8, s: usize, arc_bytes: *const u8, a: usize,
        tapes2: usize, states2: usize, arcs2: usize, state_bytes2: *const u8, s2: usize, arc_bytes2: *const u8, a2: usize,
        pairs: *const u8, p: usize,
        product_states: *mut u8, ps: usize, product_arcs: *mut u8, pa: usize,
        out_states: *mut u8, os: usize, out_arcs: *mut u8, oa: usize, work: *mut u8, w: usize,
    ) -> u64;
    fn tomchoen_union(
        tapes: usize, states: usize, arcs: usize, state_bytes: *const u8, s: usize, arc_bytes: *const u8, a: usize,
        tapes2: usize, states2: usize, arcs2: usize, state_bytes2: *const u8, s2: usize, arc_bytes2: *const u8, a2: usize,
        out_states: *mut u8, os: usize, out_arcs: *mut u8, oa: usize,
    ) -> u64;
    fn tomchoen_project(
        tapes: usize, states: usize, arcs: usize, state_bytes: *const u8, s: usize, arc_bytes: *const u8, a: usize,
        chosen: *const u8, c: usize, out_states: *mut u8, os: usize, out_arcs: *mut u8, oa: usize,
    ) -> u64;
    fn tomchoen_drop(
        tapes: usize, states: usize, arcs: usize, state_bytes: *const u8, s: usize, arc_bytes: *const u8, a: usize,
        mask: u8, out_states: *mut u8, os: usize, out_arcs: *mut u8, oa: usize,
    ) -> u64;
    fn tomchoen_lookup(
        tapes: usize, states: usize, arcs: usize, state_bytes: *const u8, s: usize, arc_bytes: *const u8, a: usize,
        tuple: *const u8, t: usize, work: *mut u8, w: usize,
    ) -> u64;
    fn tomchoen_forecast(
        tapes: usize, states: usize, arcs: usize, state_bytes: *const u8, s: usize, arc_bytes: *const u8, a: usize,
        pairs: *const u8, p: usize, result: *mut u8, r: usize, work: *mut u8, w: usize,
    ) -> u64;
    fn tomchoen_path(
        tapes: usize, states: usize, arcs: usize, state_bytes: *const u8, s: usize, arc_bytes: *const u8, a: usize,
        tuple: *const u8, t: usize, result: *mut u8, r: usize, list: *mut u8, l: usize, work: *mut u8, w: usize,
    ) -> u64;
}

/// The refusal with a number, if there is one.
fn refusal(number: u64) -> Option<Refusal> {
    Refusal::ALL.into_iter().find(|refusal| refusal.number() == number)
}

/// What an answer tells: what stands above its low byte, or a refusal. Another low byte is no answer.
fn told(answer: u64) -> Result<u64, Refusal> {
    match answer & 255 {
        0 => Ok(answer >> 8),
        number => Err(refusal(number).unwrap_or_else(|| panic!("the answer {answer:#x} has no known low byte"))),
    }
}

/// The counts that an answer tells.
fn counts(answer: u64) -> Result<Counts, Refusal> {
    let above = told(answer)?;
    Ok(Counts { tapes: above & 255, states: above >> 8 & 65_535, arcs: above >> 24 })
}

/// No space.
fn none() -> ResultSpace {
    ResultSpace { states: Vec::new(), arcs: Vec::new() }
}

/// The numbers and slices of a table, as a call takes them.
macro_rules! table {
    ($call:ident($table:expr $(, $rest:expr)*)) => {{
        let t: &LentTable = $table;
        let (states, arcs) = (&t.state_records, &t.arc_records);
        // SAFETY: every pointer comes with the length of the vector that it points into, and no two vectors overlap.
        unsafe {
            $call(t.tapes as usize, t.states as usize, t.arcs as usize, states.as_ptr(), states.len(), arcs.as_ptr(), arcs.len() $(, $rest)*)
        }
    }};
}

/// The same of two tables.
macro_rules! tables {
    ($call:ident($first:expr, $second:expr $(, $rest:expr)*)) => {{
        let u: &LentTable = $second;
        let (states2, arcs2) = (&u.state_records, &u.arc_records);
        table!($call($first, u.tapes as usize, u.states as usize, u.arcs as usize, states2.as_ptr(), states2.len(), arcs2.as_ptr(), arcs2.len() $(, $rest)*))
    }};
}

/// The answer of a lookup as the library gives it, in work space that is lent.
pub fn lookup(table: &LentTable, tuple: &[u8], work: &mut [u8]) -> u64 {
    table!(tomchoen_lookup(table, tuple.as_ptr(), tuple.len(), work.as_mut_ptr(), work.len()))
}

/// The answer of a path, its result, list and work space lent.
pub fn path(table: &LentTable, tuple: &[u8], result: &mut [u8], list: &mut [u8], work: &mut [u8]) -> u64 {
    table!(tomchoen_path(
        table, tuple.as_ptr(), tuple.len(), result.as_mut_ptr(), result.len(), list.as_mut_ptr(), list.len(),
        work.as_mut_ptr(), work.len()
    ))
}

/// What the library answers to a request, and every lent byte after it.
pub fn outcome(request: &Request) -> Outcome {
    match request {
        Request::Read { text, result } => {
            let mut out = result.clone();
            // SAFETY: as above.
            let answer = unsafe {
                tomchoen_read(text.as_ptr(), text.len(), out.states.as_mut_ptr(), out.states.len(), out.arcs.as_mut_ptr(), out.arcs.len())
            };
            made(answer, out)
        }
        Request::Write { table, output } => {
            let mut output = output.clone();
            let answer = table!(tomchoen_write(table, output.as_mut_ptr(), output.len()));
            Outcome::Text(TextOutcome { answer: told(answer), output })
        }
        Request::Intersect { table, pairs, result, work } => {
            let (mut out, mut work) = (result.clone(), work.clone());
            let answer = table!(tomchoen_build(
                table, pairs.as_ptr(), pairs.len(),
                out.states.as_mut_ptr(), out.states.len(), out.arcs.as_mut_ptr(), out.arcs.len(), work.as_mut_ptr(), work.len()
            ));
            built(answer, out, work)
        }
        Request::Product { first, second, result, work } => {
            let (mut out, mut work) = (result.clone(), work.clone());
            let answer = tables!(tomchoen_product(
                first, second,
                out.states.as_mut_ptr(), out.states.len(), out.arcs.as_mut_ptr(), out.arcs.len(), work.as_mut_ptr(), work.len()
            ));
            built(answer, out, work)
        }
        Request::Join { first, second, request } => {
            let (mut out, mut work, mut product) = (request.result.clone(), request.work.clone(), request.product.clone());
            let pairs = &request.pairs;
            let answer = tables!(tomchoen_join(
                first, second, pairs.as_ptr(), pairs.len(),
                product.states.as_mut_ptr(), product.states.len(), product.arcs.as_mut_ptr(), product.arcs.len(),
                out.states.as_mut_ptr(), out.states.len(), out.arcs.as_mut_ptr(), out.arcs.len(), work.as_mut_ptr(), work.len()
            ));
            Outcome::Table(TableOutcome { answer: counts(answer), result: out, work, product })
        }
        Request::Union { first, second, result } => {
            let mut out = result.clone();
            let answer = tables!(tomchoen_union(
                first, second, out.states.as_mut_ptr(), out.states.len(), out.arcs.as_mut_ptr(), out.arcs.len()
            ));
            made(answer, out)
        }
        Request::Project { table, tapes, result } => {
            let mut out = result.clone();
            let tapes: Vec<u8> = tapes.iter().map(|&tape| tape.min(255) as u8).collect();
            let answer = table!(tomchoen_project(
                table, tapes.as_ptr(), tapes.len(), out.states.as_mut_ptr(), out.states.len(), out.arcs.as_mut_ptr(), out.arcs.len()
            ));
            made(answer, out)
        }
        Request::DropTapes { table, marked, result } => {
            let mut out = result.clone();
            let answer = table!(tomchoen_drop(
                table, *marked, out.states.as_mut_ptr(), out.states.len(), out.arcs.as_mut_ptr(), out.arcs.len()
            ));
            made(answer, out)
        }
        Request::Lookup { table, tuple, work } => {
            let mut work = work.clone();
            let answer = lookup(table, tuple, &mut work);
            let answer = if answer == 255 { Ok(None) } else { told(answer).map(Some) };
            Outcome::Lookup(LookupOutcome { answer, work })
        }
        Request::Forecast { table, pairs, result, work } => {
            let (mut result, mut work) = (result.clone(), work.clone());
            let answer = table!(tomchoen_forecast(
                table, pairs.as_ptr(), pairs.len(), result.as_mut_ptr(), result.len(), work.as_mut_ptr(), work.len()
            ));
            Outcome::Forecast(ForecastOutcome { answer: told(answer), result, work })
        }
        Request::Path { table, request } => {
            let (mut result, mut list) = (request.result.clone(), request.list.clone());
            let (mut work, tuple) = (request.work.clone(), &request.tuple);
            let word = path(table, tuple, &mut result, &mut list, &mut work);
            Outcome::Path(PathOutcome { word, result, list, work })
        }
    }
}

/// The outcome of a call without work space.
fn made(answer: u64, result: ResultSpace) -> Outcome {
    built(answer, result, Vec::new())
}

/// The outcome of a call with work space.
fn built(answer: u64, result: ResultSpace, work: Vec<u8>) -> Outcome {
    Outcome::Table(TableOutcome { answer: counts(answer), result, work, product: none() })
}
