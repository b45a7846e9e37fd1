//! Times the static library and the second implementation on the same requests, call by call, both built for release: the ratio of the two, and how
//! the library's time grows with the input. The outcomes are compared, too.

use std::time::Instant;
use tomchoen_library_tests::calls;
use tomchoen_library_tests::tables::{chain, empty_chain, endless, wheel, Order};
use tomchoen_tests::automaton::{Automaton, Room};
use tomchoen_tests::calls::{intersect_work, join_work, lookup_work, product_work, JoinRequest, ResultSpace};
use tomchoen_tests::memory::{encode, ARC_BYTES, STATE_BYTES};
use tomchoen_tests::requests::{self, Request};
use tomchoen_tests::text::write;

/// The least seconds of several runs.
fn least<T>(runs: usize, mut run: impl FnMut() -> T) -> (T, f64) {
    let mut best: Option<(T, f64)> = None;
    for _ in 0..runs {
        let start = Instant::now();
        let result = run();
        let seconds = start.elapsed().as_secs_f64();
        if best.as_ref().is_none_or(|known| seconds < known.1) {
            best = Some((result, seconds));
        }
    }
    best.expect("at least one run")
}

/// Times one request and prints a line; the library's seconds.
fn time(name: &str, request: &Request, before: Option<f64>) -> f64 {
    let (found, library) = least(5, || calls::outcome(request));
    let (expected, second) = least(2, || requests::outcome(request));
    assert!(found == expected, "{name}: the two differ");
    let growth = before.map_or("-".to_string(), |before| format!("{:.1}", library / before));
    println!("{name:<58} {:>10.0} {:>14.0} {:>7.2} {growth:>7}", library * 1e6, second * 1e6, library / second);
    library
}

/// A lookup of strings of A with just the work that it needs.
fn lookup(automaton: &Automaton, lengths: &[usize]) -> Request {
    let strings: Vec<Vec<u8>> = lengths.iter().map(|&length| vec![b'A'; length]).collect();
    let tuple = strings.iter().flat_map(|string| [&string[..], b"\n"].concat()).collect();
    let work = vec![1; lookup_work(automaton, &strings) as usize];
    Request::Lookup { table: encode(automaton), tuple, work }
}

/// Space for so many states and arcs.
fn space(states: usize, arcs: usize) -> ResultSpace {
    ResultSpace { states: vec![1; states * STATE_BYTES], arcs: vec![1; arcs * ARC_BYTES] }
}

/// A build on so many pairs, 1 = 2, 3 = 4 and so on, with limits of 0, into space for as many states and arcs.
fn build(automaton: &Automaton, pairs: u8) -> Request {
    let result = space(automaton.states.len(), automaton.arcs.len());
    let work = vec![1; intersect_work(result.room(), automaton.states.len() as u64) as usize];
    let pairs = (0..pairs).flat_map(|pair| [2 * pair + 1, 2 * pair + 2, 0]).collect();
    Request::Intersect { table: encode(automaton), pairs, result, work }
}

/// The product of two wheels.
fn product(states: usize, degree: usize) -> Request {
    let result = space(1_024, 8_192);
    let work = vec![1; product_work(result.room()) as usize];
    Request::Product { first: encode(&wheel(states, degree, false)), second: encode(&wheel(states, degree, true)), result, work }
}

/// Their join on their only tapes, with a limit of 0.
fn join(states: usize) -> Request {
    let work = vec![1; join_work(Room::AMPLE, Room::AMPLE) as usize];
    let request = JoinRequest { pairs: vec![1, 1, 0], product: space(1_024, 8_192), result: space(1_024, 8_192), work };
    Request::Join { first: encode(&wheel(states, 2, false)), second: encode(&wheel(states, 2, true)), request }
}

/// Times a request at growing sizes.
fn growing(name: &str, sizes: &[usize], request: impl Fn(usize) -> Request) {
    let mut before = None;
    for &size in sizes {
        before = Some(time(&format!("{name}, {size}"), &request(size), before));
    }
}

fn main() {
    println!("{:<58} {:>10} {:>14} {:>7} {:>7}", "call", "library us", "second impl us", "ratio", "growth");
    let both = |_: usize, _: usize| b"A".to_vec();
    let sizes = [64, 128, 256, 512, 1_024];
    growing("build, one pair, 8 arcs a state, states", &sizes, |n| build(&chain(2, n, 8 * n, both), 1));
    growing("build, four pairs, 8 arcs a state, states", &sizes, |n| build(&chain(8, n, 8 * n, both), 4));
    growing("build, no pairs, 8 arcs a state, states", &sizes, |n| build(&chain(2, n, 8 * n, both), 0));
    growing("build, one pair, an endless delay, states", &[64, 128, 256, 512, 1_000], |n| build(&endless(n), 1));
    growing("product of wheels, states a side", &[4, 8, 16, 31], |n| product(n, 2));
    growing("product refused by 9, arcs a side from one state", &[1_024, 2_048, 4_096, 8_192], |n| product(1, n));
    growing("join of wheels, states a side", &[4, 8, 16, 31], join);
    let one = chain(1, 1_024, 8_192, |number, _| if number % 8 == 7 { Vec::new() } else { b"A".to_vec() });
    growing("lookup, 8,192 arcs, one tape, symbols", &[16, 32, 64], |n| lookup(&one, &[n]));
    let three = chain(3, 1_024, 8_192, |number, tape| if number % 4 == tape { Vec::new() } else { b"A".to_vec() });
    growing("lookup, 8,192 arcs, three tapes, symbols each", &[3, 6, 12], |n| lookup(&three, &[n, n, n]));
    growing("lookup, arcs without a symbol, 64 symbols, states", &[256, 512, 1_024], |n| {
        lookup(&empty_chain(n, Order::Forwards), &[64])
    });
    growing("the same, numbered backwards, states", &[256, 512, 1_024], |n| lookup(&empty_chain(n, Order::Backwards), &[64]));
    let labels = |number: usize, tape: usize| vec![b'A' + (number % 26) as u8; (number + tape) % 9];
    let large = |n: usize| chain(8, n, 8 * n, labels);
    growing("read, 8 tapes, 8 arcs a state, states", &sizes, |n| Request::Read {
        text: write(&large(n)),
        result: space(n, 8 * n),
    });
    growing("write, 8 tapes, 8 arcs a state, states", &sizes, |n| Request::Write {
        table: encode(&large(n)),
        output: vec![1; write(&large(n)).len()],
    });
}
