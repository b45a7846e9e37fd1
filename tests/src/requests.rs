//! Random requests of every call on lent bytes, with the outcome that the second implementation gives them.
//!
//! A harness that links another implementation turns a `Request` into its call and compares what it answers, and every lent
//! byte, with `outcome`.

use crate::automaton::{Arc, Automaton, Room, State, Tuple};
use crate::calls::{self, JoinRequest, PathRequest, ResultSpace};
use crate::calls::{ForecastOutcome, LookupOutcome, PathOutcome, TableOutcome, TextOutcome};
use crate::columns::project;
use crate::damage::damaged_table;
use crate::forecast::FORECAST_BYTES;
use crate::forecast_cases::forecast_case;
use crate::generate::{case, corridor_arcs, small_case, Case};
use crate::intersect::{intersect, reached_counts};
use crate::join::join;
use crate::join_cases::{join_case, two_tables, JoinCase};
use crate::labels::respelled;
use crate::lookup::judge_tuple;
use crate::memory::{encode, LentTable, ARC_BYTES, STATE_BYTES};
use crate::pair_lists::{bytes_of, faulty, unread_limits};
use crate::pairs::{limited, records_of, LimitedPair};
use crate::path::{path, PATH_BYTES, PLACE_BYTES};
use crate::path_cases::path_case;
use crate::product::product;
use crate::random::Random;
use crate::text::write;

/// A call with all it is lent.
#[derive(Clone, Debug)]
pub enum Request {
    Read { text: Vec<u8>, result: ResultSpace },
    Write { table: LentTable, output: Vec<u8> },
    Intersect { table: LentTable, pairs: Vec<u8>, result: ResultSpace, work: Vec<u8> },
    Product { first: LentTable, second: LentTable, result: ResultSpace, work: Vec<u8> },
    Join { first: LentTable, second: LentTable, request: JoinRequest },
    Union { first: LentTable, second: LentTable, result: ResultSpace },
    Project { table: LentTable, tapes: Vec<u64>, result: ResultSpace },
    DropTapes { table: LentTable, marked: u8, result: ResultSpace },
    Lookup { table: LentTable, tuple: Vec<u8>, work: Vec<u8> },
    Forecast { table: LentTable, pairs: Vec<u8>, result: Vec<u8>, work: Vec<u8> },
    Path { table: LentTable, request: PathRequest },
}

/// What a call answers and leaves behind.
#[derive(Clone, Debug, PartialEq, Eq)]
pub enum Outcome {
    Table(TableOutcome),
    Text(TextOutcome),
    Lookup(LookupOutcome),
    Forecast(ForecastOutcome),
    Path(PathOutcome),
}

/// The outcome of a request.
pub fn outcome(request: &Request) -> Outcome {
    match request {
        Request::Read { text, result } => Outcome::Table(calls::read(text, result)),
        Request::Write { table, output } => Outcome::Text(calls::write(table, output)),
        Request::Intersect { table, pairs, result, work } => Outcome::Table(calls::intersect(table, pairs, result, work)),
        Request::Product { first, second, result, work } => Outcome::Table(calls::product(first, second, result, work)),
        Request::Join { first, second, request } => Outcome::Table(calls::join(first, second, request)),
        Request::Union { first, second, result } => Outcome::Table(calls::union(first, second, result)),
        Request::Project { table, tapes, result } => Outcome::Table(calls::project(table, tapes, result)),
        Request::DropTapes { table, marked, result } => Outcome::Table(calls::drop_tapes(table, *marked, result)),
        Request::Lookup { table, tuple, work } => Outcome::Lookup(calls::lookup(table, tuple, work)),
        Request::Forecast { table, pairs, result, work } => Outcome::Forecast(calls::forecast(table, pairs, result, work)),
        Request::Path { table, request } => Outcome::Path(calls::path(table, request)),
    }
}

/// So many bytes, none of them likely to be zero.
fn filled(random: &mut Random, length: usize) -> Vec<u8> {
    (0..length).map(|_| random.bits() as u8).collect()
}

/// A count at or near another: mostly enough, often exactly, sometimes one too few.
fn near(random: &mut Random, count: usize) -> usize {
    match random.below(10) {
        0 => count.saturating_sub(1),
        1 => random.below(count + 1),
        2..=5 => count,
        _ => count + random.below(6),
    }
}

/// Space near so many states and arcs, sometimes with a part of a record more.
fn space_near(random: &mut Random, states: usize, arcs: usize) -> ResultSpace {
    let slack = |random: &mut Random, record: usize| if random.chance(30) { random.below(record) } else { 0 };
    let states = near(random, states) * STATE_BYTES + slack(random, STATE_BYTES);
    let arcs = near(random, arcs) * ARC_BYTES + slack(random, ARC_BYTES);
    ResultSpace { states: filled(random, states), arcs: filled(random, arcs) }
}

/// Work space of the need: mostly enough, sometimes a byte too short; where the need is vast, little.
fn work_near(random: &mut Random, need: u128) -> Vec<u8> {
    let need = need.min(2_000_000) as usize;
    let length = if random.chance(8) { need.saturating_sub(1) } else { need + random.below(3) * random.below(50) };
    filled(random, length)
}

/// A table in memory: mostly good, with what follows its records now and then, sometimes damaged.
fn lent(random: &mut Random, automaton: &Automaton) -> LentTable {
    if random.chance(6) {
        return damaged_table(random, automaton);
    }
    let mut table = encode(automaton);
    if random.chance(20) {
        let more = random.below(100);
        table.state_records.extend(filled(random, more));
        table.arc_records.extend(filled(random, more));
    }
    table
}

/// The states and arcs of a table, or numbers that are enough for many.
fn size_of<E>(result: Result<Automaton, E>) -> (usize, usize) {
    result.map_or((40, 80), |automaton| (automaton.states.len(), automaton.arcs.len()))
}

/// A request to read: a text of a table, or another.
fn read_request(random: &mut Random) -> Request {
    let Case { automaton, .. } = small_case(random);
    let mut text = write(&automaton);
    for _ in 0..random.below(3) {
        let at = random.below(text.len());
        match random.below(3) {
            0 => text[at] = random.pick(b" 09AZaz-\n\r\x00\xff"),
            1 => text.truncate(at),
            _ => text.insert(at, random.pick(b" 09A\n")),
        }
        if text.is_empty() {
            break;
        }
    }
    Request::Read { text, result: space_near(random, automaton.states.len(), automaton.arcs.len()) }
}

/// A request to write.
fn write_request(random: &mut Random) -> Request {
    let Case { automaton, .. } = small_case(random);
    let length = near(random, write(&automaton).len());
    Request::Write { table: lent(random, &automaton), output: filled(random, length) }
}

/// States and arcs near what keeping needs: those reached, refused for delay or not, or a few more than those kept.
fn size_to_keep(random: &mut Random, automaton: &Automaton, pairs: &[LimitedPair]) -> (usize, usize) {
    if random.chance(50) {
        return reached_counts(automaton, pairs).unwrap_or((1_024, 8_192));
    }
    let (states, arcs) = size_of(intersect(automaton, pairs, Room::AMPLE));
    let more = random.below(3);
    (states + more, arcs + more)
}

/// A request to keep; the space is near what is reached.
fn intersect_request(random: &mut Random) -> Request {
    let Case { automaton, mut pairs } = if random.chance(20) { case(random) } else { small_case(random) };
    let (states, arcs) = size_to_keep(random, &automaton, &limited(&pairs));
    let result = space_near(random, states, arcs);
    let work = work_near(random, calls::intersect_work(result.room(), automaton.states.len() as u64));
    if random.chance(15) {
        pairs = faulty(random, &pairs, automaton.tapes, automaton.tapes);
    }
    Request::Intersect { table: lent(random, &automaton), pairs: bytes_of(random, &pairs), result, work }
}

/// Whether two tables are not too wide for a product.
fn fit(first: &Automaton, second: &Automaton) -> bool {
    first.tapes + second.tapes <= 8
}

/// The size of a product, or numbers that are enough for many.
fn product_size(first: &Automaton, second: &Automaton) -> (usize, usize) {
    if fit(first, second) {
        size_of(product(first, second, Room::AMPLE))
    } else {
        (10, 10)
    }
}

/// A request for a product.
fn product_request(random: &mut Random) -> Request {
    let (first, second) = two_tables(random);
    let (states, arcs) = product_size(&first, &second);
    let result = space_near(random, states, arcs);
    let work = work_near(random, calls::product_work(result.room()));
    Request::Product { first: lent(random, &first), second: lent(random, &second), result, work }
}

/// A request for a join; the result's space is near what is needed.
fn join_request(random: &mut Random) -> Request {
    let JoinCase { first, second, mut pairs } = join_case(random);
    let (states, arcs) = product_size(&first, &second);
    let product = space_near(random, states, arcs);
    let (states, arcs) = match fit(&first, &second) {
        true => size_of(join(&first, &second, &limited(&pairs), Room::AMPLE, Room::AMPLE)),
        false => (3, 3),
    };
    let more = random.pick(&[0, 5, 100]);
    let result = space_near(random, states + more, arcs + more);
    let work = work_near(random, calls::join_work(product.room(), result.room()));
    if random.chance(15) {
        pairs = faulty(random, &pairs, first.tapes, second.tapes);
    }
    let request = JoinRequest { pairs: bytes_of(random, &pairs), product, result, work };
    Request::Join { first: lent(random, &first), second: lent(random, &second), request }
}

/// A request for a union, mostly of tables with equal tape counts.
fn union_request(random: &mut Random) -> Request {
    let first = small_case(random).automaton;
    let mut second = small_case(random).automaton;
    if random.chance(90) {
        let chosen: Vec<u64> = (0..first.tapes).map(|_| random.range(1, second.tapes) as u64).collect();
        second = project(&second, &chosen, Room::AMPLE).unwrap_or(second);
    }
    let result = space_near(random, first.states.len() + second.states.len(), first.arcs.len() + second.arcs.len());
    Request::Union { first: lent(random, &first), second: lent(random, &second), result }
}

/// A request to choose tapes.
fn project_request(random: &mut Random) -> Request {
    let automaton = small_case(random).automaton;
    let count = random.pick(&[0, 1, 1, 2, 3, 4, 8, 8, 9, 12]);
    let wrong = random.chance(15);
    let tape = |random: &mut Random| if wrong { random.below(automaton.tapes + 2) } else { random.range(1, automaton.tapes) };
    let tapes = (0..count).map(|_| tape(random) as u64).collect();
    let result = space_near(random, automaton.states.len(), automaton.arcs.len());
    Request::Project { table: lent(random, &automaton), tapes, result }
}

/// A request to drop tapes.
fn drop_request(random: &mut Random) -> Request {
    let automaton = small_case(random).automaton;
    let marked = if random.chance(15) { random.below(256) } else { random.below(1 << automaton.tapes) };
    let result = space_near(random, automaton.states.len(), automaton.arcs.len());
    Request::DropTapes { table: lent(random, &automaton), marked: marked as u8, result }
}

/// What a random path spells: often a tuple with a weight.
pub fn spelled(random: &mut Random, automaton: &Automaton) -> Vec<Vec<u8>> {
    let arcs_of = automaton.arcs_of_states();
    let mut strings = vec![Vec::new(); automaton.tapes];
    let starts: Vec<usize> = (0..automaton.states.len()).filter(|&state| automaton.states[state].initial.is_some()).collect();
    if starts.is_empty() {
        return strings;
    }
    let mut state = random.pick(&starts);
    while !arcs_of[state].is_empty() && (automaton.states[state].final_weight.is_none() || random.chance(50)) {
        let arc = &automaton.arcs[random.pick(&arcs_of[state])];
        strings.iter_mut().zip(&arc.labels).for_each(|(string, label)| string.extend(label));
        state = arc.target;
        if random.chance(10) || strings.iter().any(|string| string.len() > 64) {
            break;
        }
    }
    strings
}

/// A request to look a tuple up.
fn lookup_request(random: &mut Random) -> Request {
    let automaton = small_case(random).automaton;
    let mut strings = spelled(random, &automaton);
    if random.chance(15) {
        strings = strings.iter().map(|string| respelled(random, string)).collect();
    }
    if random.chance(15) {
        let at = random.below(strings.len());
        let length = random.pick(&[0, 1, 2, 63, 64, 65, 66]);
        strings[at] = vec![random.pick(b"AB0a\x00 "); length];
    }
    if random.chance(5) {
        strings.push(Vec::new());
    }
    if random.chance(3) {
        strings.pop();
    }
    let mut tuple = text_of_tuple(&strings);
    if random.chance(4) {
        tuple.push(random.pick(b"A0a"));
    }
    let work = work_near(random, calls::lookup_work(&automaton, &strings));
    Request::Lookup { table: lent(random, &automaton), tuple, work }
}

/// The text of a tuple, each string ended by byte 10.
fn text_of_tuple(strings: &[Vec<u8>]) -> Vec<u8> {
    strings.iter().flat_map(|string| [&string[..], b"\n"].concat()).collect()
}

/// Faults of a tuple, each in about `percent` of a hundred cases: a string too long, a byte that is no symbol, a string
/// too many or too few.
fn faulty_tuple(random: &mut Random, tuple: &Tuple, percent: usize) -> Tuple {
    let mut strings = tuple.clone();
    let (one, two) = (random.below(strings.len()), random.below(strings.len()));
    if random.chance(percent) {
        strings[one] = vec![b'A'; random.pick(&[65, 65, 66, 300])];
    }
    if random.chance(percent) {
        strings[two].push(random.pick(b"a@[/: \x00\xff\r"));
    }
    if random.chance(percent) {
        match random.chance(50) {
            true => strings.push(Vec::new()),
            false => strings.truncate(strings.len() - 1),
        }
    }
    strings
}

/// How many arcs the path of a tuple has; where there is none, a few.
fn places(random: &mut Random, automaton: &Automaton, strings: &Tuple) -> usize {
    let found = judge_tuple(automaton, strings).ok().and_then(|()| path(automaton, strings));
    found.map_or_else(|| random.below(4), |path| path.arcs.len())
}

/// The length of a list for so many places: often just enough or longer, with a byte alone or without, else a byte or a
/// place too short, or shorter.
fn list_length(random: &mut Random, places: usize) -> usize {
    let enough = PLACE_BYTES * places;
    match random.below(16) {
        0 => 0,
        1 => enough.saturating_sub(1),
        2 => enough.saturating_sub(PLACE_BYTES),
        3 => random.below(enough + 1),
        4..=7 => enough,
        8 => enough + 1,
        _ => enough + random.below(30),
    }
}

/// A request for a path: faults are mostly few, sometimes several, so that the order of judging shows.
pub fn path_request(random: &mut Random) -> Request {
    let (automaton, mut tuple) = path_case(random);
    let percent = if random.chance(15) { 30 } else { 1 };
    if random.chance(8) {
        let at = random.below(tuple.len());
        tuple[at].push(random.pick(b"AB0"));
    }
    let strings = faulty_tuple(random, &tuple, percent);
    let places = places(random, &automaton, &strings);
    let need = calls::path_work(&automaton, &strings);
    let work = if random.chance(percent) { filled(random, 5) } else { work_near(random, need) };
    let length = match random.chance(percent) {
        true => random.pick(&[0, 1, 8, 16, 23, 23]),
        false => PATH_BYTES + random.pick(&[0, 0, 1, 8, 40]),
    };
    let result = filled(random, length);
    let length = list_length(random, places);
    let list = filled(random, length);
    let mut tuple = text_of_tuple(&strings);
    if random.chance(percent) {
        tuple.push(random.pick(b"A0a"));
    }
    let damaged = random.chance(percent);
    let table = if damaged { damaged_table(random, &automaton) } else { lent(random, &automaton) };
    Request::Path { table, request: PathRequest { tuple, result, list, work } }
}

/// A request for a forecast, with limits that it does not read.
pub fn forecast_request(random: &mut Random) -> Request {
    let (automaton, tapes) = forecast_case(random);
    let mut pairs = records_of(&tapes, &unread_limits(random, tapes.len()));
    match random.below(100) {
        0..=2 => pairs.clear(),
        3..=14 => pairs = faulty(random, &pairs, automaton.tapes, automaton.tapes),
        _ => {}
    }
    let length = near(random, FORECAST_BYTES * pairs.len());
    let work = work_near(random, calls::forecast_work(automaton.states.len() as u64));
    let pairs = bytes_of(random, &pairs);
    Request::Forecast { table: lent(random, &automaton), pairs, result: filled(random, length), work }
}

/// One tape, all states initial, none or the first of them final, and so many loops and steps to the next state.
fn wheel(states: usize, arcs: usize, ends: bool) -> Automaton {
    let arc = |number: usize| Arc {
        source: number % states,
        target: (number + number / states) % states,
        weight: 1,
        labels: vec![vec![b'A'; number % 3]],
    };
    let mut records = vec![State { initial: Some(0), final_weight: None }; states];
    records[0].final_weight = ends.then_some(0);
    Automaton { tapes: 1, states: records, arcs: (0..arcs).map(arc).collect() }
}

/// More space than any table may use.
fn vast_space(random: &mut Random) -> ResultSpace {
    ResultSpace { states: filled(random, 1_030 * STATE_BYTES), arcs: filled(random, 8_200 * ARC_BYTES) }
}

/// A request whose result is at or just past 1,024 states or 8,192 arcs, with more space than that.
fn large_request(random: &mut Random) -> Request {
    let result = vast_space(random);
    match random.below(3) {
        0 => {
            let states = random.range(1, 1_023);
            let arcs = random.range(1, 8_191);
            let first = encode(&wheel(states, arcs, true));
            let second = encode(&wheel((random.range(1_023, 1_025) - states).max(1), random.range(8_191, 8_193) - arcs, false));
            Request::Union { first, second, result }
        }
        1 => {
            let sizes = [
                ((32, 32), (32, 32)),
                ((25, 25), (41, 41)),
                ((1, 4_096), (1, 2)),
                ((1, 2_731), (1, 3)),
                ((31, 31), (32, 32)),
                ((32, 128), (2, 64)),
            ];
            let (one, two) = random.pick(&sizes);
            let first = encode(&wheel(one.0, one.1, random.chance(30)));
            let second = encode(&wheel(two.0, two.1, random.chance(30)));
            let work = work_near(random, calls::product_work(result.room()));
            Request::Product { first, second, result, work }
        }
        _ => {
            let (words, corridor) = random.pick(&[(7, 146), (3, 341), (2, 510), (2, 511), (5, 205)]);
            let mut states = vec![State::default(); corridor + 2];
            states[0].initial = Some(0);
            states[corridor + 1].final_weight = Some(0);
            let arcs = corridor_arcs(words, corridor, random.pick(&[1, 2, 7, 8]), 1);
            let table = encode(&Automaton { tapes: 2, states, arcs });
            let work = work_near(random, calls::intersect_work(result.room(), table.states));
            Request::Intersect { table, pairs: vec![1, 2, random.pick(&[1, 2, 64])], result, work }
        }
    }
}

/// A random request.
pub fn request(random: &mut Random) -> Request {
    if random.chance(1) {
        return large_request(random);
    }
    match random.below(25) {
        0 => read_request(random),
        1 => write_request(random),
        2..=6 => intersect_request(random),
        7..=9 => product_request(random),
        10..=13 => join_request(random),
        14 => union_request(random),
        15 => project_request(random),
        16 => drop_request(random),
        17..=19 => lookup_request(random),
        20..=21 => forecast_request(random),
        _ => path_request(random),
    }
}

/// A request of the call with a name, if there is one.
pub fn request_of(call: &str, random: &mut Random) -> Option<Request> {
    let made = match call {
        "read" => read_request,
        "write" => write_request,
        "build" => intersect_request,
        "product" => product_request,
        "join" => join_request,
        "union" => union_request,
        "project" => project_request,
        "drop" => drop_request,
        "lookup" => lookup_request,
        "forecast" => forecast_request,
        "path" => path_request,
        _ => return None,
    };
    Some(made(random))
}
