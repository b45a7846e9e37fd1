//! Times `tomchoen_path` of the static library beside `tomchoen_lookup` on the same tables and tuples: CPU time of the
//! call alone, the least of several calls made in turn, with just the work space that each needs; the ratio of the two,
//! and how the time of a path grows with the input. The weights told are compared, too.

use tomchoen_library_tests::calls;
use tomchoen_library_tests::tables::{all_initial, dense, empty_chain, equal_arcs, weightless, words, Order};
use tomchoen_tests::automaton::{Automaton, Tuple};
use tomchoen_tests::calls::{lookup_work, path_work};
use tomchoen_tests::memory::encode;
use tomchoen_tests::path::{PATH_BYTES, PLACE_BYTES};

#[repr(C)]
struct Timespec {
    seconds: i64,
    nanos: i64,
}

extern "C" {
    fn clock_gettime(clock: i32, time: *mut Timespec) -> i32;
}

/// CPU seconds of this thread.
fn cpu() -> f64 {
    let mut time = Timespec { seconds: 0, nanos: 0 };
    // SAFETY: clock 3 is CLOCK_THREAD_CPUTIME_ID, and `time` is a timespec.
    unsafe { clock_gettime(3, &mut time) };
    time.seconds as f64 + time.nanos as f64 * 1e-9
}

/// What a call answers, and its CPU seconds.
fn timed(call: impl FnOnce() -> u64) -> (u64, f64) {
    let start = cpu();
    let answer = call();
    (answer, cpu() - start)
}

/// The little-endian number in bytes.
fn number(bytes: &[u8]) -> u64 {
    bytes.iter().rev().fold(0, |above, &byte| above << 8 | u64::from(byte))
}

/// The least seconds of a lookup and of a path, up to nine of each or a few seconds, and the number of arcs of the
/// path.
fn least(automaton: &Automaton, strings: &Tuple) -> (f64, f64, u64) {
    let table = encode(automaton);
    let tuple: Vec<u8> = strings.iter().flat_map(|string| [&string[..], b"\n"].concat()).collect();
    let lookup_need = lookup_work(automaton, strings) as usize;
    let mut work = vec![0; path_work(automaton, strings) as usize];
    let mut result = vec![0; PATH_BYTES];
    let mut list = vec![0; lookup_need / 8 * PLACE_BYTES];
    let (mut lookup_least, mut path_least, mut spent) = (f64::MAX, f64::MAX, 0.0);
    for run in 0..9 {
        if run >= 3 && spent > 4.0 {
            break;
        }
        let (weight, lookup) = timed(|| calls::lookup(&table, &tuple, &mut work[..lookup_need]));
        let (word, path) = timed(|| calls::path(&table, &tuple, &mut result, &mut list, &mut work));
        assert!(word == 0 && weight == number(&result[..8]) << 8, "the answers {weight:#x} and {word:#x} differ");
        (lookup_least, path_least) = (lookup_least.min(lookup), path_least.min(path));
        spent += lookup + path;
    }
    (lookup_least, path_least, number(&result[20..24]))
}

/// Times a table and a tuple at growing sizes, and prints a line for each.
fn growing(name: &str, sizes: &[usize], case: impl Fn(usize) -> (Automaton, Tuple)) {
    let mut before: Option<f64> = None;
    for &size in sizes {
        let (automaton, strings) = case(size);
        let (lookup, path, arcs) = least(&automaton, &strings);
        let growth = before.map_or("-".to_string(), |before| format!("{:.1}", path / before));
        let cells = lookup_work(&automaton, &strings) / 8;
        let name = format!("{name}, {size}");
        println!(
            "{name:<56} {cells:>9} {arcs:>6} {:>11.0} {:>11.0} {:>6.2} {growth:>6}",
            lookup * 1e6,
            path * 1e6,
            path / lookup
        );
        before = Some(path);
    }
}

/// So many strings of so many A.
fn strings(tapes: usize, symbols: usize) -> Tuple {
    vec![vec![b'A'; symbols]; tapes]
}

/// A string of so many A, and empty ones behind it.
fn first_string(tapes: usize, symbols: usize) -> Tuple {
    (0..tapes).map(|tape| if tape == 0 { vec![b'A'; symbols] } else { Vec::new() }).collect()
}

/// The two symbols of each eighth arc of a table, on each of its tapes.
fn spelled(automaton: &Automaton, symbols: usize) -> Tuple {
    let string: Vec<u8> = (0..symbols / 2).flat_map(|state| automaton.arcs[8 * state].labels[0].clone()).collect();
    vec![string; automaton.tapes]
}

fn main() {
    println!(
        "{:<56} {:>9} {:>6} {:>11} {:>11} {:>6} {:>6}",
        "table and tuple", "cells", "arcs", "lookup us", "path us", "ratio", "growth"
    );
    let one = |n: usize| (dense(1, 1_024), strings(1, n));
    let two = |n: usize| (dense(2, 1_024), strings(2, n));
    let three = |n: usize| (dense(3, 64), strings(3, n));
    let many = |n: usize| (dense(3, 1_024), strings(3, n));
    let chain = |n: usize, order: Order| (empty_chain(n, order), strings(1, 64));
    let equal = |tapes: usize, n: usize| (equal_arcs(tapes, 8_192), first_string(tapes, n));
    let no_weights = |(automaton, strings): (Automaton, Tuple)| (weightless(automaton), strings);
    let anywhere = |(automaton, strings): (Automaton, Tuple)| (all_initial(weightless(automaton)), strings);
    growing("1 tape, 1,024 states, symbols", &[16, 32, 64], one);
    growing("2 tapes, 1,024 states, symbols", &[8, 16, 32], two);
    growing("3 tapes, 64 states, symbols", &[8, 16, 32], three);
    growing("3 tapes, 1,024 states, symbols", &[4, 8, 16], many);
    growing("2 tapes, few cells reached, symbols", &[16, 32, 64], |n| {
        let automaton = words(2, 1_024);
        let strings = spelled(&automaton, n);
        (automaton, strings)
    });
    growing("chain of empty arcs forwards, states", &[256, 512, 1_024], |n| chain(n, Order::Forwards));
    growing("chain of empty arcs backwards, states", &[256, 512, 1_024], |n| chain(n, Order::Backwards));
    growing("chain of empty arcs in a mixed order, states", &[256, 512, 1_024], |n| chain(n, Order::Mixed));
    growing("all weights 0: 1 tape, 1,024 states, symbols", &[16, 32, 64], |n| no_weights(one(n)));
    growing("all weights 0: 3 tapes, 64 states, symbols", &[8, 16, 32], |n| no_weights(three(n)));
    growing("all weights 0: 3 tapes, 1,024 states, symbols", &[4, 8, 16], |n| no_weights(many(n)));
    growing("all weights 0: chain of empty arcs, states", &[256, 512, 1_024], |n| no_weights(chain(n, Order::Forwards)));
    growing("the same, all initial: 1 tape, symbols", &[16, 32, 64], |n| anywhere(one(n)));
    growing("the same, all initial: 3 tapes, 64 states, symbols", &[8, 16, 32], |n| anywhere(three(n)));
    growing("8,192 equal arcs at one state: 1 tape, symbols", &[16, 32, 64], |n| equal(1, n));
    growing("8,192 equal arcs at one state: 8 tapes, symbols", &[16, 32, 64], |n| equal(8, n));
}
