//! Tables that are timed.

use tomchoen_tests::automaton::{Arc, Automaton, State};
use tomchoen_tests::random::Random;

/// A chain of states with so many arcs in all from each to the next or to itself, in turn; labels by `label`.
pub fn chain(tapes: usize, states: usize, arcs: usize, label: impl Fn(usize, usize) -> Vec<u8>) -> Automaton {
    let mut records = vec![State { initial: None, final_weight: None }; states];
    records[0].initial = Some(0);
    for state in &mut records {
        state.final_weight = Some(1);
    }
    let arc = |number: usize| {
        let source = number % states;
        let target = if number / states % 2 == 0 { (source + 1) % states } else { source };
        Arc { source, target, weight: number as u64 % 7, labels: (0..tapes).map(|tape| label(number, tape)).collect() }
    };
    Automaton { tapes, states: records, arcs: (0..arcs).map(arc).collect() }
}

/// The chain with one state apart whose loop makes its closing delay endless.
pub fn endless(states: usize) -> Automaton {
    let mut automaton = chain(2, states - 1, 8 * (states - 1), |_, _| b"A".to_vec());
    automaton.states.push(State { initial: None, final_weight: None });
    let apart = states - 1;
    let labels = vec![Vec::new(), b"A".to_vec()];
    automaton.arcs.push(Arc { source: apart, target: apart, weight: 1, labels: labels.clone() });
    automaton.arcs.push(Arc { source: apart, target: 0, weight: 1, labels });
    automaton
}

/// A wheel: an arc for each of `degree` symbols from every state, to the states that follow; `turn` takes them in the
/// other order.
pub fn wheel(states: usize, degree: usize, turn: bool) -> Automaton {
    let arc = |number: usize| {
        let (source, symbol) = (number / degree, number % degree);
        let ahead = if turn { degree - symbol } else { symbol + 1 };
        Arc { source, target: (source + ahead) % states, weight: 1, labels: vec![vec![b'A' + (symbol % 26) as u8]] }
    };
    let mut records = vec![State { initial: None, final_weight: None }; states];
    records[0].initial = Some(0);
    records[states - 1].final_weight = Some(0);
    Automaton { tapes: 1, states: records, arcs: (0..states * degree).map(arc).collect() }
}

/// In which order the states of a chain are numbered.
#[derive(Clone, Copy)]
pub enum Order {
    Forwards,
    Backwards,
    Mixed,
}

/// A chain of arcs without a symbol to a loop with one, of a number of states that is a power of two.
pub fn empty_chain(states: usize, order: Order) -> Automaton {
    let number = |place: usize| match order {
        Order::Forwards => place,
        Order::Backwards => states - 1 - place,
        Order::Mixed => place * 387 % states,
    };
    let mut records = vec![State { initial: None, final_weight: None }; states];
    records[number(0)].initial = Some(0);
    records[number(states - 1)].final_weight = Some(0);
    let step = |place: usize| Arc { source: number(place), target: number(place + 1), weight: 1, labels: vec![Vec::new()] };
    let last = number(states - 1);
    let mut arcs: Vec<Arc> = (0..states - 1).map(step).collect();
    arcs.push(Arc { source: last, target: last, weight: 1, labels: vec![b"A".to_vec()] });
    Automaton { tapes: 1, states: records, arcs }
}

/// Eight arcs from each state, to the next one and to others, with A, AA, B or nothing on each tape; the first state is
/// initial, and all are final.
pub fn dense(tapes: usize, states: usize) -> Automaton {
    let mut random = Random::new(7);
    let mut arc = |number: usize| {
        let source = number / 8;
        let target = if number % 2 == 0 { (source + 1) % states } else { random.below(states) };
        let labels = (0..tapes).map(|_| random.pick(&[&b""[..], b"B", b"AA", b"A"]).to_vec()).collect();
        Arc { source, target, weight: number as u64 % 7, labels }
    };
    let arcs = (0..8 * states).map(&mut arc).collect();
    let mut records = vec![State { initial: None, final_weight: Some(1) }; states];
    records[0].initial = Some(0);
    Automaton { tapes, states: records, arcs }
}

/// Eight arcs from each state to the next, with two symbols on each tape that few other arcs have; the first state is
/// initial, and all are final.
pub fn words(tapes: usize, states: usize) -> Automaton {
    let symbol = |number: usize| b"ABCDEFGHIJKLMNOPQRSTUVWXYZ0123456789"[number % 36];
    let arc = |number: usize| {
        let label = vec![symbol(number), symbol(number / 36)];
        Arc { source: number / 8, target: (number / 8 + 1) % states, weight: 1, labels: vec![label; tapes] }
    };
    let mut records = vec![State { initial: None, final_weight: Some(1) }; states];
    records[0].initial = Some(0);
    Automaton { tapes, states: records, arcs: (0..8 * states).map(arc).collect() }
}

/// One state, initial and final, and so many equal arcs from it to itself, with A on the first of so many tapes.
pub fn equal_arcs(tapes: usize, arcs: usize) -> Automaton {
    let labels = (0..tapes).map(|tape| vec![b'A'; usize::from(tape == 0)]).collect();
    let arc = Arc { source: 0, target: 0, weight: 0, labels };
    Automaton { tapes, states: vec![State { initial: Some(0), final_weight: Some(0) }], arcs: vec![arc; arcs] }
}

/// The table with every weight 0, its arcs' and those of its states.
pub fn weightless(mut automaton: Automaton) -> Automaton {
    for state in &mut automaton.states {
        state.initial = state.initial.map(|_| 0);
        state.final_weight = state.final_weight.map(|_| 0);
    }
    for arc in &mut automaton.arcs {
        arc.weight = 0;
    }
    automaton
}

/// The table with all states initial, at weight 0.
pub fn all_initial(mut automaton: Automaton) -> Automaton {
    for state in &mut automaton.states {
        state.initial = Some(0);
    }
    automaton
}
