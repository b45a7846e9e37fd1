//! Weighted multi-tape automata ("tables") on plain types.

/// Most tapes of a table.
pub const MOST_TAPES: u64 = 8;
/// Most states of a table.
pub const MOST_STATES: u64 = 1_024;
/// Most arcs of a table.
pub const MOST_ARCS: u64 = 8_192;
/// Greatest weight of a state or an arc.
pub const MOST_WEIGHT: u64 = 999_999_999;
/// Most symbols of a label.
pub const MOST_LABEL: usize = 8;

/// A label: symbols as text bytes, A to Z and 0 to 9.
pub type Label = Vec<u8>;

/// One string for each tape.
pub type Tuple = Vec<Vec<u8>>;

/// A state's initial and final weight; `None` is absent.
#[derive(Clone, Copy, Debug, Default, PartialEq, Eq)]
pub struct State {
    pub initial: Option<u64>,
    pub final_weight: Option<u64>,
}

/// An arc; `labels` holds one label for each tape.
#[derive(Clone, Debug, PartialEq, Eq)]
pub struct Arc {
    pub source: usize,
    pub target: usize,
    pub weight: u64,
    pub labels: Vec<Label>,
}

/// An automaton whose parts are all in range; arcs stand in record order.
#[derive(Clone, Debug, PartialEq, Eq)]
pub struct Automaton {
    pub tapes: usize,
    pub states: Vec<State>,
    pub arcs: Vec<Arc>,
}

impl Automaton {
    /// The automaton without states.
    pub fn empty(tapes: usize) -> Self {
        Automaton { tapes, states: Vec::new(), arcs: Vec::new() }
    }

    /// For each state the numbers of its arcs, in record order.
    pub fn arcs_of_states(&self) -> Vec<Vec<usize>> {
        let mut of = vec![Vec::new(); self.states.len()];
        for (number, arc) in self.arcs.iter().enumerate() {
            of[arc.source].push(number);
        }
        of
    }

    /// For each state whether a path leads to it from one with an initial weight: a search forwards from the initial states.
    pub fn accessible(&self) -> Vec<bool> {
        let mut targets = vec![Vec::new(); self.states.len()];
        for arc in &self.arcs {
            targets[arc.source].push(arc.target);
        }
        searched(self.states.iter().map(|state| state.initial.is_some()).collect(), &targets)
    }

    /// For each state whether a path leads from it to one with a final weight: a search backwards from the final states.
    pub fn coaccessible(&self) -> Vec<bool> {
        let mut sources = vec![Vec::new(); self.states.len()];
        for arc in &self.arcs {
            sources[arc.target].push(arc.source);
        }
        searched(self.states.iter().map(|state| state.final_weight.is_some()).collect(), &sources)
    }
}

/// The states marked, and all that a search from them finds.
fn searched(mut marked: Vec<bool>, neighbours: &[Vec<usize>]) -> Vec<bool> {
    let mut stack: Vec<usize> = (0..marked.len()).filter(|&state| marked[state]).collect();
    while let Some(state) = stack.pop() {
        for &next in &neighbours[state] {
            if !marked[next] {
                marked[next] = true;
                stack.push(next);
            }
        }
    }
    marked
}

/// Whether a byte is a symbol: A to Z or 0 to 9.
pub fn is_symbol(byte: u8) -> bool {
    byte.is_ascii_uppercase() || byte.is_ascii_digit()
}

/// Space lent for a result, in states and arcs.
#[derive(Clone, Copy, Debug, PartialEq, Eq)]
pub struct Room {
    pub states: u64,
    pub arcs: u64,
}

impl Room {
    /// No less than any table needs.
    pub const AMPLE: Room = Room { states: MOST_STATES, arcs: MOST_ARCS };

    /// States that a result may have: those lent, at most 1,024.
    pub fn usable_states(self) -> u64 {
        self.states.min(MOST_STATES)
    }

    /// Arcs that a result may have: those lent, at most 8,192.
    pub fn usable_arcs(self) -> u64 {
        self.arcs.min(MOST_ARCS)
    }
}
