//! The text of an explanation.

use super::words;
use super::{Delays, Explanation, Hint, Needs, PairDelay, Remedy, Summary, TextFault, Use};
use crate::agree::LENT;
use crate::automaton::{Room, MOST_STATES};
use crate::fault::Expected;
use crate::lines::LineKind;
use crate::pairs::MOST_LIMIT;
use crate::refusal::Refusal;
use crate::text::{refusal_line, Header};

/// Lines of an input before its states: the pair line and the header.
const HEAD_LINES: u64 = 2;

/// What is told of an input.
pub fn text(explanation: &Explanation) -> String {
    let lines = match explanation {
        Explanation::Text(fault) => text_fault(fault),
        Explanation::Full(needs) => full(needs),
        Explanation::Delay(delays) => delay(delays),
        Explanation::Table(summary) => table(summary),
    };
    lines.into_iter().map(|line| line + "\n").collect()
}

/// The first line of a refusal: what `agree` writes, and the word.
fn first_line(refusal: Refusal) -> String {
    format!("{}: {}", String::from_utf8_lossy(&refusal_line(refusal)).trim_end(), refusal.word())
}

/// A line of what is told under a name.
fn row(name: &str, text: &str) -> String {
    format!("{:<10}{text}", format!("{name}:"))
}

/// So many states and arcs.
fn states_and_arcs(states: u64, arcs: u64) -> String {
    format!("{}, {}", words::counted(states, "state"), words::counted(arcs, "arc"))
}

/// A room in words.
fn room(room: Room) -> String {
    states_and_arcs(room.states, room.arcs)
}

/// What `agree` and the library lend.
fn lent() -> String {
    row("lent", &format!("{} by agree; a program in C can lend up to {} (docs/C-API.md)", room(LENT), room(Room::AMPLE)))
}

/// How many lines an input with such a header has.
fn line_count(header: Header) -> String {
    let lines = words::counted(HEAD_LINES + header.states + header.arcs, "line");
    row("lines", &format!("the header counts {}, which makes {lines}", states_and_arcs(header.states, header.arcs)))
}

/// A fault of the text.
fn text_fault(text: &TextFault) -> Vec<String> {
    let place = text.fault.place;
    let found = match text.fault.expected {
        Expected::Bytes(_) => words::counted(text.size, "byte"),
        Expected::RestOfLine if text.found.is_empty() => "the end of the file".to_string(),
        Expected::RestOfLine => format!("the end of the file; the line begins with {}", words::quoted(&text.found)),
        _ => words::quoted(&text.found),
    };
    let mut lines = vec![first_line(text.fault.refusal)];
    lines.push(place.map_or_else(|| "the input as a whole".to_string(), words::place));
    lines.push(row("found", &found));
    lines.push(row("expected", &words::expected(text.fault.expected, place)));
    lines.extend(text.hint.map(|hint| row("hint", &words::hint(hint))));
    lines.extend(numbers(text));
    lines
}

/// The numbers beside a fault of the text.
fn numbers(text: &TextFault) -> Vec<String> {
    let header = text.header.map(line_count);
    match (text.fault.expected, text.fault.place) {
        (Expected::RestOfLine, Some(place)) => {
            let least = if matches!(place.kind, LineKind::Pairs { pairs: 0 }) { "at least " } else { "" };
            let needed = format!("must have {least}{} with its end", words::counted(place.last as u64, "byte"));
            let bytes = match place.first - 1 {
                0 => format!("the line is missing; it {needed}"),
                there => format!("the line {needed}, and has {there}"),
            };
            [Some(row("bytes", &bytes)), header].into_iter().flatten().collect()
        }
        (Expected::EndOfText, _) => header.into_iter().collect(),
        _ if matches!(text.hint, Some(Hint::ArcForState | Hint::StateForArc)) => header.into_iter().collect(),
        (Expected::Lent(_), _) => {
            let table = text.header.map(|header| row("table", &states_and_arcs(header.states, header.arcs)));
            table.into_iter().chain([lent()]).collect()
        }
        _ => Vec::new(),
    }
}

/// A build that needs more space than is lent.
fn full(needs: &Needs) -> Vec<String> {
    let arcs = needs.arcs.map_or_else(|| "arcs not counted".to_string(), |arcs| words::count(arcs, "arc") + " between them");
    let then = match needs.then {
        None => "with so much space a table is given".to_string(),
        Some(refusal) => format!("with {} lent refused with {} ({})", room(Room::AMPLE), refusal.number(), refusal.word()),
    };
    vec![
        first_line(needs.refusal),
        "the build: no line of the input is wrong".to_string(),
        row("needed", &format!("{} reached, {arcs}", words::count(needs.configs, "configuration"))),
        lent(),
        row("then", &then),
    ]
}

/// A pair whose limit is exceeded.
fn pair_delay(delay: &PairDelay) -> Vec<String> {
    let leftover = words::counted(delay.leftover, "symbol");
    vec![
        format!("pair {} ({}): {}", delay.number, words::tapes(delay.pair), words::place(delay.place)),
        row("limit", &words::thousands(delay.limit)),
        row("leftover", &format!("{leftover} after a step that can still be matched")),
        row("forecast", &words::forecast(delay.forecast)),
    ]
}

/// What helps against 10.
fn remedy(remedy: &Remedy) -> Vec<String> {
    match remedy {
        Remedy::None => vec![row("remedy", &format!("no limit up to {MOST_LIMIT} helps"))],
        Remedy::TooLarge => {
            let configs = words::counted(MOST_STATES, "configuration");
            let text = format!("no limit up to {MOST_LIMIT} helps: one that is not too low reaches more than {configs}");
            vec![row("remedy", &text)]
        }
        Remedy::Limits { limits, configs, arcs } => {
            let each = limits.iter().enumerate().map(|(place, limit)| format!("pair {}: {limit}", place + 1));
            let limits = format!("the least limits without 10 are {}", each.collect::<Vec<String>>().join(", "));
            let reached = words::counted(*configs, "configuration");
            let needed = format!("with them {reached} reached, {} between them", words::counted(*arcs, "arc"));
            let fits = *configs <= LENT.states && *arcs <= LENT.arcs;
            let lines = [row("remedy", &limits), row("needed", &needed)];
            lines.into_iter().chain((!fits).then(lent)).collect()
        }
    }
}

/// A build that is refused for delay.
fn delay(delays: &Delays) -> Vec<String> {
    let mut lines = vec![first_line(Refusal::Delay)];
    lines.extend(delays.pairs.iter().flat_map(pair_delay));
    lines.extend(remedy(&delays.remedy));
    lines
}

/// How much of a limit is used.
fn usage(of: &Use) -> String {
    let mark = match of.is_near() {
        true if of.used == of.limit => "   reached",
        true => "   nearly reached",
        false => "",
    };
    let (used, limit) = (words::thousands(of.used), words::thousands(of.limit));
    format!("  {:<28}{used:>6} of {limit:>6}{mark}", words::used(of.what))
}

/// A table given.
fn table(summary: &Summary) -> Vec<String> {
    let Header { tapes, states, arcs } = summary.read;
    let mut lines = vec![format!("table: {}, {}", words::counted(tapes, "tape"), states_and_arcs(states, arcs))];
    if summary.pairs.is_empty() {
        lines.push("no pairs".to_string());
    }
    let pairs = summary.pairs.iter().enumerate();
    lines.extend(pairs.map(|(place, &(pair, limit))| format!("pair {}: {}, limit {limit}", place + 1, words::tapes(pair))));
    let none = if summary.result.states == 0 { " (no account agrees)" } else { "" };
    lines.push(format!("result: {}{none}", states_and_arcs(summary.result.states, summary.result.arcs)));
    lines.push("used:".to_string());
    lines.extend(summary.uses.iter().map(usage));
    lines
}
