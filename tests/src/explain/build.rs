//! The numbers of a build: what it needs where it is refused with 8 or 9, which pairs and limits make it 10, and how near
//! it came to each limit where it gives a table.

use crate::agree::{Given, LENT, MOST_INPUT, PAIR_LINE};
use crate::automaton::{Automaton, Room, MOST_ARCS, MOST_STATES};
use crate::fault::Place;
use crate::forecast::{forecast, Forecast};
use crate::intersect::{survey, unlimited, Survey};
use crate::lines::{Field, LineKind};
use crate::pairs::{LimitedPair, Pair};
use crate::refusal::Refusal;
use crate::text::Header;

/// A number that is counted as far as the library's greatest space goes.
#[derive(Clone, Copy, Debug, PartialEq, Eq)]
pub enum Count {
    Exactly(u64),
    MoreThan(u64),
}

/// A number, or that it is above the bound.
fn up_to(bound: u64, number: u64) -> Count {
    if number <= bound {
        Count::Exactly(number)
    } else {
        Count::MoreThan(bound)
    }
}

/// What a build needs that is refused for its space.
#[derive(Clone, Copy, Debug, PartialEq, Eq)]
pub struct Needs {
    pub refusal: Refusal,
    /// The configurations that are reached.
    pub configs: Count,
    /// The arcs between them, if all configurations are known.
    pub arcs: Option<Count>,
    /// The refusal in the library's greatest space, if it is refused there.
    pub then: Option<Refusal>,
}

impl Needs {
    /// Searches on in the library's greatest space.
    pub fn new(given: &Given, refusal: Refusal) -> Needs {
        let survey = survey(&given.automaton, &given.pairs, Room::AMPLE);
        let configs = up_to(MOST_STATES, survey.configs);
        let is_known = matches!(configs, Count::Exactly(_));
        Needs { refusal, configs, arcs: is_known.then(|| up_to(MOST_ARCS, survey.arcs)), then: survey.refusal }
    }
}

/// A pair whose limit is exceeded.
#[derive(Clone, Copy, Debug, PartialEq, Eq)]
pub struct PairDelay {
    /// Its place in the list, counted from 1.
    pub number: usize,
    pub pair: Pair,
    /// Its columns in the pair line.
    pub place: Place,
    pub limit: u64,
    /// The longest leftover that a hopeful compatible step leaves.
    pub leftover: u64,
    pub forecast: Forecast,
}

/// What helps against 10.
#[derive(Clone, Debug, PartialEq, Eq)]
pub enum Remedy {
    /// The least limits that are not refused with 10, and how many configurations are reached with them, with how many
    /// arcs between them.
    Limits { limits: Vec<u64>, configs: u64, arcs: u64 },
    /// Limits that are not refused with 10, if there are any up to 64, reach more configurations than a table can have.
    TooLarge,
    /// The greatest limits are refused with 10.
    None,
}

/// Which pairs make a build 10, and what helps.
#[derive(Clone, Debug, PartialEq, Eq)]
pub struct Delays {
    pub pairs: Vec<PairDelay>,
    pub remedy: Remedy,
}

impl Delays {
    /// Of a build that is refused with 10.
    pub fn new(given: &Given, survey: &Survey) -> Delays {
        let kind = LineKind::Pairs { pairs: given.pairs.len() };
        let delay = |(place, (&(pair, limit), &beyond)): (usize, (&LimitedPair, &Option<u64>))| {
            let number = place + 1;
            let (first, last) = (Field::FirstTape(number).start() + 1, Field::Limit(number).end());
            let place = Place::of_columns(PAIR_LINE, kind, first, last);
            Some(PairDelay { number, pair, place, limit, leftover: beyond?, forecast: forecast(&given.automaton, pair) })
        };
        let pairs = given.pairs.iter().zip(&survey.beyond).enumerate().filter_map(delay).collect();
        Delays { pairs, remedy: remedy(given) }
    }
}

/// What helps against 10.
///
/// Limits that are not refused with 10 let the search take every hopeful compatible step, so that all of them reach the
/// same configurations: the least ones are the longest leftovers there, and the greatest limits are among them.
fn remedy(given: &Given) -> Remedy {
    let pairs = unlimited(given.pairs.iter().map(|&(pair, _)| pair));
    let survey = survey(&given.automaton, &pairs, Room::AMPLE);
    if survey.beyond.iter().any(Option::is_some) {
        Remedy::None
    } else if survey.configs > MOST_STATES {
        Remedy::TooLarge
    } else {
        Remedy::Limits { limits: survey.longest, configs: survey.configs, arcs: survey.arcs }
    }
}

/// What of a limit is used.
#[derive(Clone, Copy, Debug, PartialEq, Eq)]
pub enum Used {
    Bytes,
    StatesRead,
    ArcsRead,
    Configs,
    ArcsBetween,
    /// The longest leftover of the pair with this number.
    Leftover(usize),
}

/// How much of a limit is used.
#[derive(Clone, Copy, Debug, PartialEq, Eq)]
pub struct Use {
    pub what: Used,
    pub used: u64,
    pub limit: u64,
}

impl Use {
    /// Whether nine tenths of the limit or more are used.
    pub fn is_near(&self) -> bool {
        10 * self.used >= 9 * self.limit
    }
}

/// A table given: its input, its counts, and how near each limit came.
#[derive(Clone, Debug, PartialEq, Eq)]
pub struct Summary {
    pub read: Header,
    pub pairs: Vec<LimitedPair>,
    pub result: Header,
    pub uses: Vec<Use>,
}

/// The counts of a table.
fn counts(automaton: &Automaton) -> Header {
    let (states, arcs) = (automaton.states.len() as u64, automaton.arcs.len() as u64);
    Header { tapes: automaton.tapes as u64, states, arcs }
}

impl Summary {
    /// Of an input of `size` bytes and what came of it.
    pub fn new(size: u64, given: &Given, survey: &Survey, result: &Automaton) -> Summary {
        let read = counts(&given.automaton);
        let of = |what: Used, used: u64, limit: u64| Use { what, used, limit };
        let mut uses = vec![
            of(Used::Bytes, size, MOST_INPUT as u64),
            of(Used::StatesRead, read.states, LENT.states),
            of(Used::ArcsRead, read.arcs, LENT.arcs),
            of(Used::Configs, survey.configs, LENT.states),
            of(Used::ArcsBetween, survey.arcs, LENT.arcs),
        ];
        let leftovers = given.pairs.iter().zip(&survey.longest).enumerate();
        uses.extend(leftovers.map(|(place, (&(_, limit), &longest))| of(Used::Leftover(place + 1), longest, limit)));
        Summary { read, pairs: given.pairs.clone(), result: counts(result), uses }
    }
}
