//! The programs: `differential` against the second implementation itself, a missing program and a wrong one; the generators.

use std::collections::{BTreeMap, BTreeSet};
use std::io::Write;
use std::path::Path;
use std::process::{Command, Output, Stdio};
use tomchoen_tests::agree::{agree, MOST_INPUT};
use tomchoen_tests::automaton::{is_symbol, Arc, Automaton, Tuple};
use tomchoen_tests::calls::{path_work, records_of_bytes, tuple_of_text, PathRequest, TableOutcome};
use tomchoen_tests::forecast::{forecast, is_mixed, symbols_in_use, useful_states, Forecast};
use tomchoen_tests::generate::agree_input;
use tomchoen_tests::memory::{judge, LentTable};
use tomchoen_tests::pairs::{limits_of, pair_of, tapes_of, Pair};
use tomchoen_tests::path::{path, Path as Found};
use tomchoen_tests::random::Random;
use tomchoen_tests::refusal::Refusal;
use tomchoen_tests::requests::{forecast_request, outcome, path_request, request_of, Outcome, Request};
use tomchoen_tests::text::{read_pair_line, Reader};

/// Runs `differential` on a program.
fn differential(program: &str, cases: &str, keep: &Path) -> Output {
    let mut command = Command::new(env!("CARGO_BIN_EXE_differential"));
    command.args(["--program", program, "--cases", cases, "--seed", "7", "--keep"]).arg(keep).output().unwrap()
}

/// The lines of an output.
fn lines(output: &Output) -> Vec<String> {
    String::from_utf8_lossy(&output.stdout).lines().map(str::to_string).collect()
}

#[test]
fn the_second_implementation_does_not_differ_from_itself() {
    let keep = Path::new(env!("CARGO_TARGET_TMPDIR")).join("same");
    let output = differential(env!("CARGO_BIN_EXE_agree_reference"), "300", &keep);
    assert_eq!(output.status.code(), Some(0));
    assert_eq!(lines(&output).first().unwrap(), "seed 7");
    assert_eq!(lines(&output).iter().rev().take(2).collect::<Vec<_>>(), ["300 cases, 0 differences", "explain: 0 differences"]);
    assert!(!keep.exists());
}

#[test]
fn a_wrong_program_differs() {
    let keep = Path::new(env!("CARGO_TARGET_TMPDIR")).join("wrong");
    let output = differential(env!("CARGO_BIN_EXE_differential"), "5", &keep);
    assert_eq!(output.status.code(), Some(1));
    assert_eq!(lines(&output).iter().rev().take(2).collect::<Vec<_>>(), ["5 cases, 5 differences", "explain: 5 differences"]);
    assert_eq!(lines(&output).iter().filter(|line| line.starts_with("difference of explain: ")).count(), 5);
    let input = std::fs::read(keep.join("seed-7-case-3.input")).unwrap();
    assert_eq!(input, agree_input(&mut Random::for_case(7, 3)));
    assert_eq!(std::fs::read(keep.join("seed-7-case-3.expected")).unwrap(), agree(&input));
    assert_eq!(std::fs::read(keep.join("seed-7-case-3.program")).unwrap(), b"");
}

#[test]
fn a_missing_program_is_told() {
    let output = differential("no such program", "5", Path::new("unused"));
    assert_eq!(output.status.code(), Some(2));
    assert!(String::from_utf8_lossy(&output.stderr).contains("does not exist"));
}

#[test]
fn agree_reference_reads_no_more_than_it_must() {
    let mut command = Command::new(env!("CARGO_BIN_EXE_agree_reference"));
    let mut child = command.stdin(Stdio::piped()).stdout(Stdio::piped()).spawn().unwrap();
    let _ = child.stdin.take().unwrap().write_all(&vec![b' '; 3 * MOST_INPUT]);
    assert_eq!(child.wait_with_output().unwrap().stdout, b"refused   3\n");
}

#[test]
fn generated_inputs_meet_every_answer() {
    let mut answers: BTreeMap<String, usize> = BTreeMap::new();
    let (mut tables, mut of_unequal) = (0, 0);
    for case in 0..4_000 {
        let input = agree_input(&mut Random::for_case(1, case));
        assert_eq!(input, agree_input(&mut Random::for_case(1, case)));
        let output = agree(&input);
        if output.starts_with(b"refused") {
            *answers.entry(String::from_utf8_lossy(output.trim_ascii_end()).into_owned()).or_insert(0) += 1;
        } else if output.len() > 16 {
            let limits = limits_of(&read_pair_line(&mut Reader::new(&input)).unwrap());
            tables += 1;
            of_unequal += usize::from(limits.iter().any(|&limit| limit != limits[0]));
        }
    }
    println!("{answers:?}, {tables} tables, {of_unequal} of unequal limits");
    assert_eq!(answers.len(), 10, "{answers:?}");
    assert!(answers.values().all(|&count| count >= 5), "{answers:?}");
    assert!(tables > 800 && of_unequal > 200, "{tables} tables, {of_unequal} of unequal limits");
}

/// The list of pairs of a build or a join.
fn list_of(request: &Request) -> Vec<u8> {
    match request {
        Request::Intersect { pairs, .. } => pairs.clone(),
        Request::Join { request, .. } => request.pairs.clone(),
        _ => panic!("a request of another call"),
    }
}

/// The outcome of a build or a join with other limits of its pairs.
fn with_limits(request: &Request, limits: &[u64]) -> TableOutcome {
    let mut changed = request.clone();
    let list = match &mut changed {
        Request::Intersect { pairs, .. } => pairs,
        Request::Join { request, .. } => &mut request.pairs,
        _ => panic!("a request of another call"),
    };
    list.chunks_exact_mut(3).zip(limits).for_each(|(record, &limit)| record[2] = limit as u8);
    match outcome(&changed) {
        Outcome::Table(outcome) => outcome,
        _ => panic!("an outcome of another call"),
    }
}

/// The number of a refusal, 0 where a table is given.
fn number_of(outcome: &TableOutcome) -> u64 {
    outcome.answer.err().map_or(0, Refusal::number)
}

/// Which pairs decide that the delay is refused: one alone if, with its limit raised, it is not.
fn deciding(request: &Request, limits: &[u64]) -> &'static str {
    let decides = |place: usize| {
        let mut raised = limits.to_vec();
        raised[place] = 64;
        number_of(&with_limits(request, &raised)) != 10
    };
    match (0..limits.len()).find(|&place| decides(place)) {
        _ if limits.len() == 1 => "10 by the only pair",
        None => "10 by several pairs",
        Some(0) => "10 by the first pair alone",
        Some(place) if place + 1 == limits.len() => "10 by the last pair alone",
        Some(_) => "10 by a pair between alone",
    }
}

/// What is to be met of good limits: words for what these show.
fn shown_by_limits(request: &Request, limits: &[u64], given: &TableOutcome) -> Vec<&'static str> {
    let (first, last) = (limits[0], limits[limits.len() - 1]);
    let (least, greatest) = (*limits.iter().min().unwrap(), *limits.iter().max().unwrap());
    let unlike = |limit: u64| least != greatest && with_limits(request, &vec![limit; limits.len()]) != *given;
    let backwards: Vec<u64> = limits.iter().rev().copied().collect();
    let all_differ = limits.iter().collect::<BTreeSet<&u64>>().len() == limits.len();
    let met = [
        (limits.len() > 1 && least == greatest, "equal limits"),
        (least != greatest, "unequal limits"),
        (limits.len() == 4 && all_differ, "four pairs with four limits"),
        (least == 0, "a limit of 0"),
        (first == 64, "64 in the first place"),
        (limits[1..].contains(&64), "64 in a later place"),
        (unlike(first), "unlike the first limit for all"),
        (unlike(last), "unlike the last limit for all"),
        (unlike(least), "unlike the least limit for all"),
        (unlike(greatest), "unlike the greatest limit for all"),
        (backwards != limits && with_limits(request, &backwards) != *given, "unlike the limits backwards"),
    ];
    met.into_iter().filter(|(shown, _)| *shown).map(|(_, word)| word).collect()
}

/// What the list of pairs of a build or a join shows.
fn shown_by_list(request: &Request) -> Vec<String> {
    let list = list_of(request);
    let limits = limits_of(&records_of_bytes(&list));
    let given = with_limits(request, &limits);
    let number = number_of(&given);
    let mut met = vec![format!("answer {number}"), format!("{} bytes behind the last pair", list.len() % 3)];
    let Some(place) = limits.iter().position(|&limit| limit > 64) else {
        met.push(if limits.len() > 4 { "more than four pairs".to_string() } else { format!("{} pairs", limits.len()) });
        if !limits.is_empty() && ![1, 2, 3, 4, 5, 6, 12].contains(&number) {
            met.extend(shown_by_limits(request, &limits, &given).into_iter().map(str::to_string));
            met.extend((number == 10).then(|| deciding(request, &limits).to_string()));
        }
        return met;
    };
    // what is answered where only the limits are other ones
    let other = number_of(&with_limits(request, &vec![0; limits.len()]));
    met.push(match (number, other) {
        (1..=4, _) => "a table before 7".to_string(),
        (7, 8 | 9 | 11) => "7 before 8, 9 or 11".to_string(),
        (7, _) => format!("7 before {other}"),
        _ => format!("{number} before 7"),
    });
    if number == 7 {
        met.push(format!("7 first in place {}", place + 1));
        met.push((if limits[place] == 65 { "7 by 65" } else { "7 by more than 65" }).to_string());
    }
    met
}

/// How often so many requests of a call show what is to be met of its lists of pairs.
fn met_by_lists(call: &str, cases: u64) -> BTreeMap<String, usize> {
    let mut met: BTreeMap<String, usize> = BTreeMap::new();
    for case in 0..cases {
        let request = request_of(call, &mut Random::for_case(1, case)).unwrap();
        shown_by_list(&request).into_iter().for_each(|what| *met.entry(what).or_insert(0) += 1);
    }
    println!("{call}: {met:?}");
    met
}

#[test]
fn generated_builds_meet_every_kind_of_limits() {
    let met = met_by_lists("build", 6_000);
    assert_eq!(met.len(), 50, "{met:#?}");
    assert!(met.values().all(|&count| count >= 5), "{met:#?}");
    assert!(met["answer 0"] > 2_000 && met["answer 7"] > 300 && met["answer 10"] > 800, "{met:#?}");
}

#[test]
fn generated_joins_meet_every_kind_of_limits() {
    let met = met_by_lists("join", 8_000);
    assert_eq!(met.len(), 53, "{met:#?}");
    assert!(met.values().all(|&count| count >= 5), "{met:#?}");
    assert!(met["answer 0"] > 1_500 && met["answer 7"] > 300 && met["answer 10"] > 500, "{met:#?}");
}

/// Whether a successful path touches a cycle of positive delay: one of negative delay at every initial state makes the pair mixed.
fn has_rising_cycle(automaton: &Automaton, pair: Pair) -> bool {
    let mut labels = vec![Vec::new(); automaton.tapes];
    labels[pair.1 - 1].push(b'A');
    let mut looped = automaton.clone();
    let initial = (0..automaton.states.len()).filter(|&state| automaton.states[state].initial.is_some());
    looped.arcs.extend(initial.map(|state| Arc { source: state, target: state, weight: 0, labels: labels.clone() }));
    is_mixed(&looped, pair)
}

/// Whether a pair would be mixed if every state were initial and final.
fn is_mixed_anywhere(automaton: &Automaton, pair: Pair) -> bool {
    let mut open = automaton.clone();
    for state in &mut open.states {
        (state.initial, state.final_weight) = (Some(0), Some(0));
    }
    is_mixed(&open, pair)
}

/// What is to be met of a forecast that is not mixed: words for what this one shows.
fn shown(automaton: &Automaton, pair: Pair, delay: u64, number: Option<u64>) -> Vec<&'static str> {
    let useful = useful_states(automaton);
    let mut trimmed = automaton.clone();
    trimmed.arcs.retain(|arc| useful[arc.source] && useful[arc.target]);
    let met = [
        (number.is_some(), "a number"),
        (number.is_none(), "over"),
        (number == Some(65_535), "the greatest number"),
        (delay > 64 && number.is_some(), "a delay above 64 with a number"),
        (delay > 64 && number.is_none(), "a delay above 64 and over"),
        (automaton.states.is_empty(), "no states"),
        (useful.contains(&false), "states on no path"),
        (delay > 0 && symbols_in_use(automaton, pair) > symbols_in_use(&trimmed, pair), "symbols on no path"),
        (is_mixed_anywhere(automaton, pair), "both signs but for a dead end"),
        (has_rising_cycle(automaton, pair) && has_rising_cycle(automaton, (pair.1, pair.0)), "both signs on two branches"),
    ];
    met.into_iter().filter(|(shown, _)| *shown).map(|(_, word)| word).collect()
}

#[test]
fn generated_forecasts_meet_every_answer() {
    let mut met: BTreeMap<String, usize> = BTreeMap::new();
    let mut meet = |what: &str| *met.entry(what.to_string()).or_insert(0) += 1;
    for case in 0..4_000 {
        let request = forecast_request(&mut Random::for_case(1, case));
        let (Outcome::Forecast(outcome), Request::Forecast { table, pairs, result, .. }) = (outcome(&request), &request) else {
            panic!("an outcome of another call");
        };
        if let Err(refusal) = outcome.answer {
            meet(&format!("refused {}", refusal.number()));
            continue;
        }
        let automaton = judge(table).unwrap();
        let records = records_of_bytes(pairs);
        meet(&format!("{} pairs", records.len()));
        meet(&format!("{} bytes behind the last pair", pairs.len() % 3));
        meet(if result.len() > 6 * records.len() { "a long result" } else { "a result that is just right" });
        limits_of(&records).iter().for_each(|&limit| meet(if limit > 64 { "a limit above 64" } else { "a limit up to 64" }));
        for pair in tapes_of(&records).into_iter().map(pair_of) {
            match forecast(&automaton, pair) {
                Forecast::Mixed => meet("mixed"),
                Forecast::Needs { delay, number } => shown(&automaton, pair, delay, number).into_iter().for_each(&mut meet),
            }
        }
    }
    assert_eq!(met.len(), 30, "{met:?}");
    assert!(met.values().all(|&count| count >= 5), "{met:?}");
    assert!(met["mixed"] > 300 && met["over"] > 300 && met["a number"] > 1_000, "{met:?}");
    println!("{met:?}");
}

/// The least path of a table with an arc made useless for a tuple of other symbols, or a state's initial weight taken.
fn without(automaton: &Automaton, tuple: &Tuple, arc: Option<usize>, start: Option<usize>) -> Option<Found> {
    let mut other = automaton.clone();
    if let Some(arc) = arc {
        other.arcs[arc].labels[0] = b"QQQQQQQQ".to_vec();
    }
    if let Some(start) = start {
        other.states[start].initial = None;
    }
    path(&other, tuple)
}

/// What is to be met of a path and what would stand in its place: words for what this one shows.
fn instead(automaton: &Automaton, found: &Found, other: &Found, arc: Option<usize>) -> Vec<&'static str> {
    let (same, fewer) = (other.weight == found.weight, other.arcs.len() < found.arcs.len());
    let even = same && other.arcs.len() == found.arcs.len();
    let later = even && other.start == found.start && arc.is_some();
    let mut both = found.arcs.iter().zip(&other.arcs);
    let met = [
        (!same && fewer, "less weight by more arcs"),
        (same && other.arcs.len() > found.arcs.len(), "the same weight by more arcs"),
        (same && other.arcs.len() > found.arcs.len() && other.start < found.start, "fewer arcs from a higher state"),
        (even && other.start > found.start, "the same from a higher state"),
        (even && other.start > found.start && other.arcs < found.arcs, "lower arcs from a higher state"),
        (later, "the same with a higher arc"),
        (later && both.clone().any(|(one, two)| two < one), "a lower arc behind the first difference"),
        (later && both.all(|(&one, &two)| automaton.arcs[one] == automaton.arcs[two]), "equal records"),
    ];
    met.into_iter().filter(|(shown, _)| *shown).map(|(_, word)| word).collect()
}

/// What is to be met of a path that is told: words for what this one shows.
fn shown_by_path(automaton: &Automaton, tuple: &Tuple, lent: &PathRequest, found: &Found) -> Vec<&'static str> {
    let places = found.arcs.len();
    let is_idle = |arc: &Arc| arc.weight == 0 && arc.labels.iter().all(Vec::is_empty);
    let targets = found.arcs.iter().map(|&arc| automaton.arcs[arc].target);
    let visited: Vec<usize> = [found.start].into_iter().chain(targets).collect();
    let is_idle_loop = |arc: &Arc| is_idle(arc) && arc.source == arc.target && visited.contains(&arc.source);
    let met = [
        (places == 0, "an empty path"),
        (places == 0 && lent.list.is_empty(), "an empty path and a list of 0"),
        (places > 0 && lent.list.len() == 2 * places, "a list that is just right"),
        (places > 0 && lent.list.len() == 2 * places + 1, "a list with a byte alone"),
        (lent.list.len() > 2 * places + 1, "a long list"),
        (lent.result.len() == 24, "a result that is just right"),
        (lent.result.len() == 25, "a result with a byte more"),
        (lent.work.len() as u128 == path_work(automaton, tuple), "work that is just right"),
        (found.weight == 0, "no weight"),
        (found.weight > u64::from(u32::MAX), "a weight of more than four bytes"),
        (found.start > 255, "a starting state of two bytes"),
        (found.arcs.iter().any(|&arc| arc > 255), "an arc number of two bytes"),
        (places > 255, "more than 255 arcs"),
        (places > 65_535, "more than 65,535 arcs"),
        (found.arcs.iter().any(|&arc| is_idle(&automaton.arcs[arc])), "an arc that spells and weighs nothing"),
        (automaton.arcs.iter().any(is_idle_loop), "a loop beside the path that spells and weighs nothing"),
    ];
    met.into_iter().filter(|(shown, _)| *shown).map(|(_, word)| word).collect()
}

/// What would be told in a path's place if one of its arcs or its start were not there: words for what this shows.
fn shown_by_others(automaton: &Automaton, tuple: &Tuple, found: &Found) -> Vec<&'static str> {
    let arcs = found.arcs.iter().filter(|_| found.arcs.len() < 100).map(|&arc| (Some(arc), None));
    let changes = arcs.chain([(None, Some(found.start))]);
    let shown = |(arc, start)| {
        let other = without(automaton, tuple, arc, start);
        other.map_or(Vec::new(), |other| instead(automaton, found, &other, arc))
    };
    changes.flat_map(shown).collect()
}

/// Everything in a request for a path that is refused, in the order of judging: what it is, and its number.
fn faults(table: &LentTable, lent: &PathRequest) -> Vec<(&'static str, u64)> {
    let mut strings: Vec<Vec<u8>> = lent.tuple.split(|&byte| byte == 10).map(<[u8]>::to_vec).collect();
    let cut = strings.pop().is_some_and(|last| !last.is_empty());
    let cells = strings.iter().fold(u128::from(table.states), |cells, string| cells * (string.len() as u128 + 1));
    let of_table = judge(table).err().map(|refusal| ("the table", refusal.number()));
    let of_others = [
        (cut, ("the text", 1)),
        (strings.len() as u64 != table.tapes, ("the strings", 5)),
        (strings.iter().any(|string| string.len() > 64), ("the sizes", 3)),
        (strings.iter().flatten().any(|&byte| !is_symbol(byte)), ("the bytes", 2)),
        ((lent.work.len() as u128) < 24 * cells, ("the work", 13)),
        (lent.result.len() < 24, ("the result", 13)),
    ];
    let others = of_others.into_iter().filter(|(wrong, _)| *wrong).map(|(_, fault)| fault);
    let mut faults: Vec<(&str, u64)> = of_table.into_iter().chain(others).collect();
    if faults.iter().all(|fault| fault.1 == 13) {
        let found = path(&judge(table).unwrap(), &strings);
        faults.extend(found.filter(|found| lent.list.len() / 2 < found.arcs.len()).map(|_| ("the list", 14)));
    }
    faults
}

#[test]
fn generated_paths_meet_every_answer() {
    let mut met: BTreeMap<String, usize> = BTreeMap::new();
    let mut meet = |what: &str| *met.entry(what.to_string()).or_insert(0) += 1;
    for case in 0..8_000 {
        let made = path_request(&mut Random::for_case(1, case));
        let (Outcome::Path(outcome), Request::Path { table, request }) = (outcome(&made), &made) else {
            panic!("an outcome of another call");
        };
        let faults = faults(table, request);
        faults.windows(2).for_each(|two| meet(&format!("{} before {}", two[0].0, two[1].0)));
        if let Some((fault, number)) = faults.first() {
            assert_eq!(outcome.word, *number, "case {case}");
            meet(&format!("refused {number} by {fault}"));
            continue;
        }
        let (automaton, tuple) = (judge(table).unwrap(), tuple_of_text(&request.tuple).unwrap());
        let found = path(&automaton, &tuple);
        assert_eq!(outcome.word, if found.is_some() { 0 } else { 255 }, "case {case}");
        let Some(found) = found else {
            meet("none");
            continue;
        };
        meet("told");
        shown_by_path(&automaton, &tuple, request, &found).into_iter().for_each(&mut meet);
        shown_by_others(&automaton, &tuple, &found).into_iter().for_each(&mut meet);
    }
    assert_eq!(met.len(), 60, "{met:?}");
    assert!(met.values().all(|&count| count >= 5), "{met:?}");
    assert!(met["told"] > 3_000 && met["none"] > 500 && met["refused 14 by the list"] > 500, "{met:?}");
    println!("{met:?}");
}
