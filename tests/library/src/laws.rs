//! Demand 3 on the calls of the library, by weights looked up: a check of the definitions from outside.
//!
//! For random tables and pairs, each pair with a limit of its own: the join exchanged, joined part by part on either
//! side, with some pairs first, each call with the pairs' limits or other ones; and joins and builds given again with
//! more space and any one limit or all of them raised. Where a call is refused the law says nothing, and the case
//! counts as passed over. The last two compare tables byte for byte: given again by request 2.2; some pairs first
//! because the same configurations are kept and reached in the same order, which is tested here and not proved.
//!
//! Weights are compared after reading every tape (request 2.5): those of marks, in tables with every label read. Part by
//! part and some pairs first they are compared as written, too, since the first table's writing is kept there. How often
//! a join and the join exchanged give a tuple other weights as it is written is counted.
//!
//! With equal limits (request 2.4) joins and builds answer as document 01 words them with a single D, refused or not.
//!
//! For random tables and tuples, of a path (request 2.3): its weight is the one looked up, and there is none where that
//! is none; its arcs are a successful path that spells the tuple at that weight; a longer list gives the same path.

use crate::calls::outcome;
use tomchoen_tests::accounts::account_of;
use tomchoen_tests::automaton::{Automaton, Room};
use tomchoen_tests::calls::{intersect_work, join_work, Counts, JoinRequest, PathRequest, ResultSpace, NO_PATH};
use tomchoen_tests::columns::project;
use tomchoen_tests::generate::small_case;
use tomchoen_tests::join_cases::{join_case, two_tables, JoinCase};
use tomchoen_tests::labels::respelled;
use tomchoen_tests::lookup::cells;
use tomchoen_tests::memory::{encode, judge, LentTable, ARC_BYTES, STATE_BYTES};
use tomchoen_tests::pairs::{pair_of, tapes_of, Pair, PairRecord, MOST_LIMIT};
use tomchoen_tests::path::{Path, PATH_BYTES};
use tomchoen_tests::path_cases::path_case;
use tomchoen_tests::random::Random;
use tomchoen_tests::reading::{marks_of, read_labels};
use tomchoen_tests::refusal::Refusal;
use tomchoen_tests::requests::{spelled, Outcome, Request};
use tomchoen_tests::word_for_word::{join_with_one_limit, keep_with_one_limit};

/// A tape of the first table and one of the second, or two tapes of one table, and their limit.
type Pairs = Vec<PairRecord>;

/// Strings, one a tape.
type Tuple = Vec<Vec<u8>>;

/// What is lent for a product and for its join, and for a build.
const JOIN_ROOM: Room = Room { states: 200, arcs: 1_200 };
const BUILD_ROOM: Room = Room { states: 300, arcs: 1_500 };

/// Space for so many states and arcs, and so many of each more.
fn space(room: Room, more: usize) -> ResultSpace {
    let (states, arcs) = (room.states as usize + more, room.arcs as usize + more);
    ResultSpace { states: vec![7; states * STATE_BYTES], arcs: vec![7; arcs * ARC_BYTES] }
}

/// The bytes of a list of pairs.
fn bytes_of(pairs: &Pairs) -> Vec<u8> {
    pairs.iter().flat_map(|&(first, second, limit)| [first as u8, second as u8, limit as u8]).collect()
}

/// The table that a call gave, or its refusal.
fn answered(request: &Request) -> Result<LentTable, Refusal> {
    let Outcome::Table(made) = outcome(request) else { panic!("the call gives no table") };
    let Counts { tapes, states, arcs } = made.answer?;
    Ok(LentTable { tapes, states, arcs, state_records: made.result.states, arc_records: made.result.arcs })
}

/// A join with limits and space of its own.
fn join(first: &LentTable, second: &LentTable, pairs: &Pairs, more: usize) -> Result<LentTable, Refusal> {
    let (product, result) = (space(JOIN_ROOM, more), space(JOIN_ROOM, more));
    let work = vec![9; join_work(product.room(), result.room()) as usize];
    let request = JoinRequest { pairs: bytes_of(pairs), product, result, work };
    answered(&Request::Join { first: first.clone(), second: second.clone(), request })
}

/// A build with limits and space of its own.
fn keep(table: &LentTable, pairs: &Pairs, more: usize) -> Result<LentTable, Refusal> {
    let result = space(BUILD_ROOM, more);
    let work = vec![5; intersect_work(result.room(), table.states) as usize];
    answered(&Request::Intersect { table: table.clone(), pairs: bytes_of(pairs), result, work })
}

/// Union and dropping.
fn union(first: &LentTable, second: &LentTable) -> Result<LentTable, Refusal> {
    let result = space(Room { states: 400, arcs: 2_400 }, 0);
    answered(&Request::Union { first: first.clone(), second: second.clone(), result })
}

fn drop_tapes(table: &LentTable, marked: u8) -> Result<LentTable, Refusal> {
    answered(&Request::DropTapes { table: table.clone(), marked, result: space(BUILD_ROOM, 0) })
}

/// The pairs turned round.
fn turned(pairs: &Pairs) -> Pairs {
    pairs.iter().map(|&(first, second, limit)| (second, first, limit)).collect()
}

/// The pairs with the limit in one place, or all limits, raised at random, none above 64.
fn raised(random: &mut Random, pairs: &Pairs, place: Option<usize>) -> Pairs {
    let mut higher = |limit: u64| random.range(limit as usize, MOST_LIMIT as usize) as u64;
    let chosen = |other: usize| place.is_none_or(|place| place == other);
    let limit = |(other, pair): (usize, &PairRecord)| (pair.0, pair.1, if chosen(other) { higher(pair.2) } else { pair.2 });
    pairs.iter().enumerate().map(limit).collect()
}

/// The pairs with limits of another call: the same, some raised, or any.
fn with_others(random: &mut Random, pairs: &Pairs) -> Pairs {
    match random.below(4) {
        0 => pairs.clone(),
        1 => pairs.iter().map(|pair| (pair.0, pair.1, random.pick(&[0, 1, 2, 5, 64]))).collect(),
        _ => raised(random, pairs, None),
    }
}

/// The text of a tuple.
fn text_of(tuple: &Tuple) -> Vec<u8> {
    tuple.iter().flat_map(|string| [&string[..], b"\n"].concat()).collect()
}

/// The weight of a tuple, none counting above every weight; strings must be short.
fn weight(table: &LentTable, tuple: &Tuple) -> Option<u64> {
    let text = text_of(tuple);
    let cells = tuple.iter().fold(table.states as usize, |cells, string| cells * (string.len() + 1));
    match outcome(&Request::Lookup { table: table.clone(), tuple: text, work: vec![3; 8 * cells] }) {
        Outcome::Lookup(found) => found.answer.expect("a lookup of a short tuple is not refused"),
        _ => None,
    }
}

/// The least weight of the tuples that fall together with a tuple: that of its marks in the table with every label read.
fn weight_read(table: &LentTable, tuple: &Tuple) -> Option<u64> {
    let automaton = judge(table).expect("a table that a call gave");
    weight(&encode(&read_labels(&automaton)), &marks_of(tuple))
}

/// The lesser of two weights, none counting above every weight.
fn lesser(one: Option<u64>, two: Option<u64>) -> Option<u64> {
    [one, two].into_iter().flatten().min()
}

/// Tuples to look up: what some paths spell, some of them with a symbol more or written otherwise; those whose cells are
/// few.
fn tuples(random: &mut Random, table: &LentTable) -> Vec<Tuple> {
    let automaton: Automaton = judge(table).expect("a table that a call gave");
    let few = |tuple: &Tuple| {
        tuple.iter().all(|string| string.len() <= 64)
            && tuple.iter().fold(automaton.states.len() as u128, |cells, string| cells * (string.len() as u128 + 1)) < 50_000
    };
    (0..6)
        .map(|_| {
            let mut tuple = spelled(random, &automaton);
            if random.chance(20) {
                let at = random.below(tuple.len());
                tuple[at].push(random.pick(b"AB"));
            }
            if random.chance(20) {
                tuple = tuple.iter().map(|string| respelled(random, string)).collect();
            }
            tuple
        })
        .filter(few)
        .collect()
}

/// The strings of the second table in a tuple of the join, each dropped tape being the tape that was kept for it.
fn second_strings(tuple: &Tuple, n: usize, m: usize, pairs: &Pairs) -> Tuple {
    let mut rest = tuple[n..].iter();
    (1..=m as u64)
        .map(|tape| match pairs.iter().find(|pair| pair.1 == tape) {
            Some(&(first, _, _)) => tuple[first as usize - 1].clone(),
            None => rest.next().expect("as many strings as tapes").clone(),
        })
        .collect()
}

/// The counts of a table and the bytes of its records, without the space behind them.
fn used(table: &LentTable) -> ([u64; 3], &[u8], &[u8]) {
    let (states, arcs) = (table.states as usize * STATE_BYTES, table.arcs as usize * ARC_BYTES);
    ([table.tapes, table.states, table.arcs], &table.state_records[..states], &table.arc_records[..arcs])
}

/// What was found.
#[derive(Default)]
pub struct Found {
    pub compared: u64,
    pub tables: u64,
    pub paths: u64,
    pub refusals: u64,
    pub passed_over: u64,
    pub other_as_written: u64,
    pub differences: Vec<String>,
}

impl Found {
    /// Notes a comparison of two weights.
    fn same(&mut self, law: &str, case: u64, one: Option<u64>, two: Option<u64>) {
        self.compared += 1;
        if one != two {
            self.differences.push(format!("case {case}: {law}: {one:?} and {two:?}"));
        }
    }

    /// Notes a comparison of two tables, counts and used records byte for byte.
    fn same_table(&mut self, law: &str, case: u64, one: &LentTable, two: Option<&LentTable>) {
        self.tables += 1;
        if two.is_none_or(|two| used(one) != used(two)) {
            self.differences.push(format!("case {case}: {law}: another table or a refusal"));
        }
    }

    /// Notes a comparison of two paths.
    fn same_path(&mut self, law: &str, case: u64, one: Option<&Path>, two: Option<&Path>) {
        self.paths += 1;
        if one != two {
            self.differences.push(format!("case {case}: {law}: {one:?} and {two:?}"));
        }
    }

    /// Notes a comparison of two answers: the refusals, or the tables as above.
    fn same_answer(&mut self, law: &str, case: u64, one: &Result<LentTable, Refusal>, two: &Result<LentTable, Refusal>) {
        self.tables += u64::from(one.is_ok());
        self.refusals += u64::from(one.is_err());
        if one.as_ref().map(used) != two.as_ref().map(used) {
            let told = |answer: &Result<LentTable, Refusal>| answer.as_ref().map_or_else(|refusal| refusal.number(), |_| 0);
            self.differences.push(format!("case {case}: {law}: answers {} and {}, or other tables", told(one), told(two)));
        }
    }

    /// The parts of a law, or one case passed over.
    fn all<const N: usize>(&mut self, parts: [Result<LentTable, Refusal>; N]) -> Option<[LentTable; N]> {
        let whole: Result<Vec<LentTable>, Refusal> = parts.into_iter().collect();
        match whole.ok().and_then(|tables| tables.try_into().ok()) {
            Some(tables) => Some(tables),
            None => {
                self.passed_over += 1;
                None
            }
        }
    }
}

/// Two tables to be joined, and on which pairs.
struct Subject<'a> {
    case: u64,
    a: &'a LentTable,
    b: &'a LentTable,
    pairs: &'a Pairs,
}

/// The second table first, each pair turned round.
fn exchanged(found: &mut Found, random: &mut Random, subject: &Subject) {
    let &Subject { case, a, b, pairs } = subject;
    let others = with_others(random, &turned(pairs));
    let Some([j, k]) = found.all([join(a, b, pairs, 0), join(b, a, &others, 3)]) else { return };
    let (n, m) = (a.tapes as usize, b.tapes as usize);
    for tuple in tuples(random, &j) {
        let second = second_strings(&tuple, n, m, pairs);
        let rest = (0..n).filter(|&tape| !pairs.iter().any(|pair| pair.0 as usize == tape + 1)).map(|tape| tuple[tape].clone());
        let other: Tuple = second.into_iter().chain(rest).collect();
        found.same("exchanged", case, weight_read(&j, &tuple), weight_read(&k, &other));
        found.other_as_written += u64::from(weight(&j, &tuple) != weight(&k, &other));
    }
}

/// Either table a union: the lesser of the weights of the two joins, and a union of those.
fn part_by_part(found: &mut Found, random: &mut Random, subject: &Subject, c: &LentTable, left: bool) {
    let &Subject { case, a, b, pairs } = subject;
    let pairs = if left { pairs.clone() } else { turned(pairs) };
    let side = |part: &LentTable, pairs: &Pairs| if left { join(part, b, pairs, 0) } else { join(b, part, pairs, 0) };
    let (of_one, of_two) = (with_others(random, &pairs), with_others(random, &pairs));
    let Some([u, one, two]) = found.all([union(a, c), side(a, &of_one), side(c, &of_two)]) else { return };
    let Some([j, both]) = found.all([side(&u, &pairs), union(&one, &two)]) else { return };
    for tuple in tuples(random, &j).into_iter().chain(tuples(random, &one)).chain(tuples(random, &two)) {
        for weight in [weight_read, weight] {
            let parts = lesser(weight(&one, &tuple), weight(&two, &tuple));
            found.same("part by part", case, weight(&j, &tuple), parts);
            found.same("a union of the joins", case, weight(&both, &tuple), parts);
        }
    }
}

/// Some pairs joined first, the others kept afterwards and their second tapes dropped; `early` and `late` hold the
/// limits that the pairs have there.
fn some_first(found: &mut Found, random: &mut Random, subject: &Subject, early: &Pairs, late: &Pairs) {
    let &Subject { case, a, b, pairs } = subject;
    let (first, later): (Vec<usize>, Vec<usize>) = (0..pairs.len()).partition(|_| random.chance(50));
    let joined: Pairs = first.iter().map(|&place| early[place]).collect();
    let place = |tape: u64| a.tapes + tape - joined.iter().filter(|pair| pair.1 < tape).count() as u64;
    let kept: Pairs = later.iter().map(|&other| (late[other].0, place(late[other].1), late[other].2)).collect();
    let marked = kept.iter().fold(0u8, |mask, pair| mask | 1 << (pair.1 - 1));
    let Some([j, early]) = found.all([join(a, b, pairs, 0), join(a, b, &joined, 0)]) else { return };
    let Some([agreed]) = found.all([keep(&early, &kept, 0)]) else { return };
    let Some([steps]) = found.all([drop_tapes(&agreed, marked)]) else { return };
    for tuple in tuples(random, &j).into_iter().chain(tuples(random, &steps)) {
        for weight in [weight_read, weight] {
            found.same("some pairs first", case, weight(&j, &tuple), weight(&steps, &tuple));
        }
    }
    // the same configurations are kept, and they are reached in the same order
    found.same_table("some pairs first", case, &j, Some(&steps));
}

/// A call that gave a table, made again with more space and any one limit raised, then all of them.
fn again(
    found: &mut Found,
    random: &mut Random,
    case: u64,
    pairs: &Pairs,
    call: impl Fn(&Pairs, usize) -> Result<LentTable, Refusal>,
) {
    let Some([given]) = found.all([call(pairs, 0)]) else { return };
    for place in (0..pairs.len()).map(Some).chain([None]) {
        let other = call(&raised(random, pairs, place), random.below(30));
        found.same_table("given again", case, &given, other.as_ref().ok());
    }
}

/// A join with equal limits, against the single D of document 01.
fn one_limit(found: &mut Found, random: &mut Random, subject: &Subject) {
    let limit = random.pick(&[0, 1, 2, 3, 5, 20, 64]);
    let equal: Pairs = subject.pairs.iter().map(|pair| (pair.0, pair.1, limit)).collect();
    let tapes: Vec<Pair> = tapes_of(subject.pairs).into_iter().map(pair_of).collect();
    let [first, second] = [subject.a, subject.b].map(|table| judge(table).expect("a good table"));
    let expected = join_with_one_limit(&first, &second, &tapes, limit, JOIN_ROOM, JOIN_ROOM);
    let expected = expected.map(|automaton| encode(&automaton));
    found.same_answer("a join with equal limits", subject.case, &join(subject.a, subject.b, &equal, 0), &expected);
}

/// A build given again, and with equal limits, against the single D of document 01.
fn builds(found: &mut Found, random: &mut Random, case: u64) {
    let kept = small_case(random);
    let table = encode(&kept.automaton);
    again(found, random, case, &kept.pairs, |pairs, more| keep(&table, pairs, more));
    let limit = random.pick(&[0, 1, 2, 3, 5, 20, 64]);
    let equal: Pairs = kept.pairs.iter().map(|pair| (pair.0, pair.1, limit)).collect();
    let tapes: Vec<Pair> = tapes_of(&kept.pairs).into_iter().map(pair_of).collect();
    let expected = keep_with_one_limit(&kept.automaton, &tapes, limit, BUILD_ROOM).map(|automaton| encode(&automaton));
    found.same_answer("a build with equal limits", case, &keep(&table, &equal, 0), &expected);
}

/// All laws on one case.
pub fn check(seed: u64, case: u64, found: &mut Found) {
    let random = &mut Random::for_case(seed, case);
    builds(found, random, case);
    let JoinCase { first, second, pairs } = join_case(random);
    if first.tapes + second.tapes > 8 {
        found.passed_over += 1;
        return;
    }
    let (_, other) = two_tables(random);
    let tapes: Vec<u64> = (0..first.tapes).map(|_| random.range(1, other.tapes) as u64).collect();
    let (a, b) = (encode(&first), encode(&second));
    let c = project(&other, &tapes, Room::AMPLE).map(|part| encode(&part)).expect("chosen tapes are there");
    let subject = Subject { case, a: &a, b: &b, pairs: &pairs };
    exchanged(found, random, &subject);
    part_by_part(found, random, &subject, &c, true);
    part_by_part(found, random, &subject, &c, false);
    some_first(found, random, &subject, &pairs, &pairs);
    let (early, late) = (with_others(random, &pairs), with_others(random, &pairs));
    some_first(found, random, &subject, &early, &late);
    again(found, random, case, &pairs, |pairs, more| join(&a, &b, pairs, more));
    one_limit(found, random, &subject);
}

/// The path of a tuple with a list of so many bytes, or the word of the call if it is neither told nor none.
fn path(table: &LentTable, tuple: &Tuple, list: usize) -> Result<Option<Path>, u64> {
    let cells = tuple.iter().fold(table.states as usize, |cells, string| cells * (string.len() + 1));
    let (result, list, work) = (vec![6; PATH_BYTES], vec![6; list], vec![6; 24 * cells]);
    let request = PathRequest { tuple: text_of(tuple), result, list, work };
    let Outcome::Path(told) = outcome(&Request::Path { table: table.clone(), request }) else { return Ok(None) };
    let number = |bytes: &[u8]| bytes.iter().rev().fold(0, |number, &byte| number << 8 | u64::from(byte));
    match told.word {
        0 => {
            let (start, count) = (number(&told.result[16..20]) as usize, number(&told.result[20..24]) as usize);
            let places = told.list.chunks_exact(2).map(|place| number(place) as usize);
            Ok(Some(Path { weight: number(&told.result[..8]), start, arcs: places.take(count).collect() }))
        }
        NO_PATH => Ok(None),
        word => Err(word),
    }
}

/// The laws of a path on one case. A path that comes to no cell twice fits a list of a place for each cell.
pub fn check_path(seed: u64, case: u64, found: &mut Found) {
    let random = &mut Random::for_case(seed, case);
    let (automaton, tuple) = path_case(random);
    if tuple.iter().any(|string| string.len() > 64) {
        found.passed_over += 1;
        return;
    }
    let (table, ample) = (encode(&automaton), 2 * cells(&automaton, &tuple) as usize);
    let told = match path(&table, &tuple, ample) {
        Ok(told) => told,
        Err(word) => return found.differences.push(format!("case {case}: a path with an ample list: word {word}")),
    };
    found.same("a path's weight", case, told.as_ref().map(|path| path.weight), weight(&table, &tuple));
    let Some(told) = told else { return };
    let spelled = account_of(&automaton, told.start, &told.arcs).filter(|account| account.0 == tuple);
    found.same("the weight of a path's arcs", case, Some(told.weight), spelled.map(|account| account.1));
    let enough = 2 * told.arcs.len();
    for list in [enough, enough + 1, ample + 1 + random.below(99)] {
        let other = path(&table, &tuple, list).unwrap_or(None);
        found.same_path("a path with a longer list", case, Some(&told), other.as_ref());
    }
}
