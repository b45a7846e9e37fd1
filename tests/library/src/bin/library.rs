//! Compares every call of the static library with the second implementation on generated requests: the answer and every lent byte.
//!
//!     library --cases N --laws N --seed S --keep DIR [--call NAME]
//!
//! It prints the seed, each difference, how often each answer was met, and last `N cases, M differences`. Of a
//! difference DIR keeps the request and both outcomes. With --laws it also tests demand 3's laws on the calls, by
//! weights looked up, equal limits beside a single one, and paths beside such weights. With --call all requests are of
//! one call: read, write, build, product, join, union, project, drop, lookup, forecast or path.
//! Exit status: 0 without a difference, 1 with one, 2 where the comparison could not be made.

use std::collections::{BTreeMap, BTreeSet};
use std::process::ExitCode;
use std::{env, fs, io};
use tomchoen_library_tests::{calls, laws};
use tomchoen_tests::calls::{PathOutcome, NO_PATH};
use tomchoen_tests::forecast::FORECAST_BYTES;
use tomchoen_tests::path::PATH_BYTES;
use tomchoen_tests::random::Random;
use tomchoen_tests::requests::{self, Outcome, Request};

const USAGE: &str = "usage: library --cases N --laws N --seed S --keep DIR [--call NAME]";

/// What the command line asks for.
struct Options {
    cases: u64,
    laws: u64,
    seed: u64,
    keep: String,
    call: Option<String>,
}

/// The options of a command line, or what is wrong with it.
fn options(mut words: impl Iterator<Item = String>) -> Result<Options, String> {
    let mut options = Options { cases: 0, laws: 0, seed: 0, keep: String::new(), call: None };
    while let Some(name) = words.next() {
        let value = words.next().ok_or(format!("{name} lacks a value"))?;
        let number = || value.parse::<u64>().map_err(|_| format!("{name}: {value} is no number"));
        match name.as_str() {
            "--cases" => options.cases = number()?,
            "--laws" => options.laws = number()?,
            "--seed" => options.seed = number()?,
            "--keep" => options.keep = value,
            "--call" if requests::request_of(&value, &mut Random::for_case(0, 0)).is_some() => options.call = Some(value),
            "--call" => return Err(format!("{value} is no call")),
            _ => return Err(format!("{name} is not known")),
        }
    }
    if options.keep.is_empty() {
        return Err("--keep is missing".to_string());
    }
    Ok(options)
}

/// Which forecasts stand in the records, each kind once.
fn forecasts(records: &[u8]) -> String {
    let kinds: BTreeSet<&str> = records
        .chunks(FORECAST_BYTES)
        .map(|record| match record[0] {
            1 => "number",
            2 => "over",
            3 => "mixed",
            _ => "none of the three",
        })
        .collect();
    if kinds.is_empty() {
        "no pairs".to_string()
    } else {
        kinds.into_iter().collect::<Vec<&str>>().join(", ")
    }
}

/// What a call for a path answered.
fn path(told: &PathOutcome) -> String {
    match (told.word, told.result.get(20..PATH_BYTES)) {
        (0, Some([0, 0, 0, 0])) => "told, no arcs".to_string(),
        (0, _) => "told".to_string(),
        (NO_PATH, _) => "none".to_string(),
        (number, _) => format!("refused {number:>2}"),
    }
}

/// The name of the call, and what it answered.
fn kind(request: &Request, outcome: &Outcome) -> String {
    let call = match request {
        Request::Read { .. } => "read",
        Request::Write { .. } => "write",
        Request::Intersect { .. } => "build",
        Request::Product { .. } => "product",
        Request::Join { .. } => "join",
        Request::Union { .. } => "union",
        Request::Project { .. } => "project",
        Request::DropTapes { .. } => "drop",
        Request::Lookup { .. } => "lookup",
        Request::Forecast { .. } => "forecast",
        Request::Path { .. } => "path",
    };
    let refusal = match outcome {
        Outcome::Table(made) => made.answer.err(),
        Outcome::Text(text) => text.answer.err(),
        Outcome::Lookup(found) => match found.answer {
            Ok(None) => return format!("{call}: none"),
            answer => answer.err(),
        },
        Outcome::Forecast(told) => match told.answer {
            Ok(bytes) => return format!("{call}: {}", forecasts(&told.result[..told.result.len().min(bytes as usize)])),
            answer => answer.err(),
        },
        Outcome::Path(told) => return format!("{call}: {}", path(told)),
    };
    refusal.map_or(format!("{call}: done"), |refusal| format!("{call}: refused {:>2}", refusal.number()))
}

/// Makes and compares one case.
fn compare(options: &Options, case: u64, answers: &mut BTreeMap<String, u64>) -> io::Result<bool> {
    let mut random = Random::for_case(options.seed, case);
    let asked = options.call.as_deref().and_then(|call| requests::request_of(call, &mut random));
    let request = asked.unwrap_or_else(|| requests::request(&mut random));
    let expected = requests::outcome(&request);
    *answers.entry(kind(&request, &expected)).or_insert(0) += 1;
    let found = calls::outcome(&request);
    if found == expected {
        return Ok(false);
    }
    fs::create_dir_all(&options.keep)?;
    let path = format!("{}/library-seed-{}-case-{case}.txt", options.keep, options.seed);
    fs::write(&path, format!("{request:?}\n\nexpected: {expected:?}\n\nlibrary:  {found:?}\n"))?;
    println!("difference: case {case}: expected {}, library gave {}; {path}", kind(&request, &expected), kind(&request, &found));
    Ok(true)
}

/// Compares all cases and tests the laws; how many differences there are.
fn run(options: &Options) -> io::Result<u64> {
    let mut answers = BTreeMap::new();
    let mut differences = 0;
    for case in 0..options.cases {
        differences += u64::from(compare(options, case, &mut answers)?);
    }
    for (answer, count) in &answers {
        println!("{count:>9} {answer}");
    }
    let mut found = laws::Found::default();
    for case in 0..options.laws {
        laws::check(options.seed, case, &mut found);
        laws::check_path(options.seed, case, &mut found);
    }
    for difference in &found.differences {
        println!("difference: {difference}");
    }
    if options.laws > 0 {
        let laws::Found { compared, tables, paths, refusals, passed_over, other_as_written, .. } = found;
        print!("laws: {compared} weights compared, {tables} tables compared, {paths} paths compared, ");
        println!("{refusals} refusals compared, {passed_over} passed over; {other_as_written} other weights as written");
    }
    Ok(differences + found.differences.len() as u64)
}

fn main() -> ExitCode {
    let options = match options(env::args().skip(1)) {
        Ok(options) => options,
        Err(reason) => {
            eprintln!("library: {reason}\n{USAGE}");
            return ExitCode::from(2);
        }
    };
    println!("seed {}", options.seed);
    match run(&options) {
        Ok(differences) => {
            println!("{} cases, {} differences", options.cases + options.laws, differences);
            ExitCode::from(u8::from(differences > 0))
        }
        Err(error) => {
            eprintln!("library: {error}");
            ExitCode::from(2)
        }
    }
}
