//! What is wrong with an input of `agree`, and where: the refusal with its place and the numbers that a person needs; or
//! the table given and how near it came to each limit.
//!
//! `judge` tells the refusal and its place as fast as `agree` does; `explain` finds the numbers, too, and `print::text`
//! writes them down.

mod build;
mod found;
pub mod print;
mod words;

pub use build::{Count, Delays, Needs, PairDelay, Remedy, Summary, Use, Used};
pub use found::{Hint, TextFault};

use crate::agree::{read_input, Given, LENT, MOST_INPUT};
use crate::fault::Fault;
use crate::intersect::{intersect, survey, Survey};
use crate::refusal::Refusal;
use std::io::{self, Read};

/// How an input is judged.
#[derive(Clone, Debug, PartialEq, Eq)]
pub enum Verdict {
    /// Refused for what stands in it.
    Faulty(Fault),
    /// Read, and searched in the space that `agree` lends.
    Searched(Given, Survey),
}

impl Verdict {
    /// The refusal, if it is refused.
    pub fn refusal(&self) -> Option<Refusal> {
        match self {
            Verdict::Faulty(fault) => Some(fault.refusal),
            Verdict::Searched(_, survey) => survey.refusal,
        }
    }
}

/// Judges an input of `agree`.
pub fn judge(input: &[u8]) -> Verdict {
    match read_input(input) {
        Err(fault) => Verdict::Faulty(fault),
        Ok(given) => {
            let survey = survey(&given.automaton, &given.pairs, LENT);
            Verdict::Searched(given, survey)
        }
    }
}

/// All that is told of an input.
#[derive(Clone, Debug, PartialEq, Eq)]
pub enum Explanation {
    /// Refused for what stands in the input.
    Text(TextFault),
    /// The build needs more space than is lent.
    Full(Needs),
    /// Some pair's limit is too low.
    Delay(Delays),
    /// A table is given.
    Table(Summary),
}

impl Explanation {
    /// The refusal, if it is refused.
    pub fn refusal(&self) -> Option<Refusal> {
        match self {
            Explanation::Text(text) => Some(text.fault.refusal),
            Explanation::Full(needs) => Some(needs.refusal),
            Explanation::Delay(_) => Some(Refusal::Delay),
            Explanation::Table(_) => None,
        }
    }
}

/// Explains what `agree` answers to an input of `size` bytes; `input` has all of them, or more than `agree` takes.
pub fn explain(input: &[u8], size: u64) -> Explanation {
    match judge(input) {
        Verdict::Faulty(fault) => Explanation::Text(TextFault::new(input, size, fault)),
        Verdict::Searched(given, survey) => explain_build(size, &given, &survey),
    }
}

/// Explains a build.
fn explain_build(size: u64, given: &Given, survey: &Survey) -> Explanation {
    if survey.refusal == Some(Refusal::Delay) {
        return Explanation::Delay(Delays::new(given, survey));
    }
    match intersect(&given.automaton, &given.pairs, LENT) {
        Ok(result) => Explanation::Table(Summary::new(size, given, survey, &result)),
        Err(refusal) => Explanation::Full(Needs::new(given, refusal)),
    }
}

/// Reads an input and its size; of one that is too long no more is kept than shows that it is.
pub fn read(mut source: impl Read) -> io::Result<(Vec<u8>, u64)> {
    let mut input = Vec::new();
    source.by_ref().take(MOST_INPUT as u64 + 1).read_to_end(&mut input)?;
    let rest = io::copy(&mut source, &mut io::sink())?;
    let size = input.len() as u64 + rest;
    Ok((input, size))
}
