//! Compares the program `agree` with the second implementation on generated inputs, standard output byte for byte; and the
//! refusal that `explain` tells, or that it tells none, with the program's.
//!
//!     differential --program PATH --cases N --seed S --keep DIR [--threads T]
//!
//! It prints the seed first, then each difference, then how often each answer was met, how often `explain` differs, and last
//! `N cases, M differences`, the number of cases with a difference of either kind. Of these DIR keeps the input and both
//! outputs. A program killed by a signal, or by this one after ten seconds, differs.
//! Exit status: 0 without a difference, 1 with one, 2 where the comparison could not be made.

use std::collections::BTreeMap;
use std::fs;
use std::io::{self, ErrorKind, Read, Write};
use std::path::{Path, PathBuf};
use std::process::{Child, Command, ExitCode, Stdio};
use std::sync::atomic::{AtomicBool, AtomicU64, Ordering};
use std::sync::{Mutex, PoisonError};
use std::thread;
use std::time::{Duration, Instant};
use tomchoen_tests::agree::agree;
use tomchoen_tests::explain::judge;
use tomchoen_tests::generate::agree_input;
use tomchoen_tests::random::Random;
use tomchoen_tests::text::refusal_line;

const TIME_LIMIT: Duration = Duration::from_secs(10);
const USAGE: &str = "usage: differential --program PATH --cases N --seed S --keep DIR [--threads T]";

/// What the command line asks for.
struct Options {
    program: PathBuf,
    cases: u64,
    seed: u64,
    keep: PathBuf,
    threads: usize,
}

/// The options of a command line, or what is wrong with it.
fn options(mut words: impl Iterator<Item = String>) -> Result<Options, String> {
    let mut given: BTreeMap<String, String> = BTreeMap::new();
    while let Some(name) = words.next() {
        let value = words.next().ok_or(format!("{name} lacks a value"))?;
        given.insert(name, value);
    }
    let mut take = |name: &str| given.remove(name);
    let number = |name: &str, text: Option<String>| {
        let text = text.ok_or(format!("{name} is missing"))?;
        text.parse::<u64>().map_err(|_| format!("{name}: {text} is no number"))
    };
    let options = Options {
        program: take("--program").ok_or("--program is missing")?.into(),
        cases: number("--cases", take("--cases"))?,
        seed: number("--seed", take("--seed"))?,
        keep: take("--keep").ok_or("--keep is missing")?.into(),
        threads: number("--threads", Some(take("--threads").unwrap_or("4".into())))?.clamp(1, 64) as usize,
    };
    match given.keys().next() {
        Some(name) => Err(format!("{name} is not known")),
        None => Ok(options),
    }
}

/// A program under way and when it was started; the watch may end it.
type Slot = Mutex<Option<(Instant, Child)>>;

/// What a slot holds, also after a thread failed.
fn held(slot: &Slot) -> std::sync::MutexGuard<'_, Option<(Instant, Child)>> {
    slot.lock().unwrap_or_else(PoisonError::into_inner)
}

/// What the program wrote, and whether it ended by itself rather than by a signal.
fn run(program: &Path, input: &[u8], slot: &Slot) -> io::Result<(Vec<u8>, bool)> {
    let mut command = Command::new(program);
    let mut child = command.stdin(Stdio::piped()).stdout(Stdio::piped()).stderr(Stdio::null()).spawn()?;
    let (stdin, stdout) = (child.stdin.take(), child.stdout.take());
    *held(slot) = Some((Instant::now(), child));
    if let Some(mut stdin) = stdin {
        match stdin.write_all(input) {
            Err(error) if error.kind() != ErrorKind::BrokenPipe => return Err(error),
            _ => drop(stdin),
        }
    }
    let mut output = Vec::new();
    if let Some(mut stdout) = stdout {
        stdout.read_to_end(&mut output)?;
    }
    loop {
        let ended = match held(slot).as_mut() {
            Some((_, child)) => child.try_wait()?,
            None => return Err(io::Error::other("the program is gone")),
        };
        if let Some(status) = ended {
            *held(slot) = None;
            return Ok((output, status.code().is_some()));
        }
        thread::sleep(Duration::from_micros(50));
    }
}

/// Ends programs that run too long, until all work is done.
fn watch(slots: &[Slot], done: &AtomicBool) {
    while !done.load(Ordering::Relaxed) {
        for slot in slots {
            if let Some((start, child)) = slot.try_lock().ok().as_deref_mut().and_then(Option::as_mut) {
                if start.elapsed() > TIME_LIMIT {
                    let _ = child.kill();
                }
            }
        }
        thread::sleep(Duration::from_millis(50));
    }
}

/// What was found so far.
#[derive(Default)]
struct Findings {
    answers: BTreeMap<String, u64>,
    differences: u64,
    of_explain: u64,
    failure: Option<String>,
}

/// What an answer is that is no refusal.
const TABLE: &str = "a table";
const EMPTY_TABLE: &str = "an empty table";

/// The first line of an answer if it is a refusal, else what it is.
fn kind(answer: &[u8]) -> String {
    let text = String::from_utf8_lossy(answer);
    match text.lines().next() {
        None => "nothing".to_string(),
        Some(line) if line.starts_with("refused") => line.to_string(),
        _ if text.lines().count() == 1 => EMPTY_TABLE.to_string(),
        _ => TABLE.to_string(),
    }
}

/// What `explain` tells of an input: the line of a refusal, or a table.
fn explained(input: &[u8]) -> String {
    judge(input).refusal().map_or(TABLE.to_string(), |refusal| kind(&refusal_line(refusal)))
}

/// A case: the input, what the second implementation and the program answer, what `explain` tells, and whether the program
/// ended by itself.
struct Case {
    number: u64,
    input: Vec<u8>,
    ours: Vec<u8>,
    theirs: Vec<u8>,
    explained: String,
    by_itself: bool,
}

impl Case {
    /// Whether the outputs differ.
    fn differs(&self) -> bool {
        self.ours != self.theirs || !self.by_itself
    }

    /// Whether `explain` tells another answer than the program gave.
    fn explain_differs(&self) -> bool {
        let theirs = kind(&self.theirs);
        theirs != self.explained && !(self.explained == TABLE && theirs == EMPTY_TABLE)
    }
}

/// Keeps the input and both outputs of a difference, and says where.
fn keep(options: &Options, case: &Case) -> io::Result<()> {
    let file = |ending: &str| options.keep.join(format!("seed-{}-case-{}.{ending}", options.seed, case.number));
    fs::create_dir_all(&options.keep)?;
    fs::write(file("input"), &case.input)?;
    fs::write(file("expected"), &case.ours)?;
    fs::write(file("program"), &case.theirs)?;
    let (number, theirs, input) = (case.number, kind(&case.theirs), file("input").display().to_string());
    let end = if case.by_itself { "" } else { " and was killed by a signal" };
    if case.differs() {
        println!("difference: case {number}: expected {}, program gave {theirs}{end}; {input}", kind(&case.ours));
    }
    if case.explain_differs() {
        println!("difference of explain: case {number}: it tells {}, program gave {theirs}{end}; {input}", case.explained);
    }
    Ok(())
}

/// Makes and compares one case.
fn compare(options: &Options, number: u64, slot: &Slot, findings: &Mutex<Findings>) -> io::Result<()> {
    let input = agree_input(&mut Random::for_case(options.seed, number));
    let (ours, explained) = (agree(&input), explained(&input));
    let (theirs, by_itself) = run(&options.program, &input, slot)?;
    let case = Case { number, input, ours, theirs, explained, by_itself };
    let mut findings = findings.lock().unwrap_or_else(PoisonError::into_inner);
    *findings.answers.entry(kind(&case.ours)).or_insert(0) += 1;
    findings.of_explain += u64::from(case.explain_differs());
    if case.differs() || case.explain_differs() {
        findings.differences += 1;
        keep(options, &case)?;
    }
    Ok(())
}

/// Compares all cases, some at a time.
fn compare_all(options: &Options) -> Findings {
    let next = AtomicU64::new(0);
    let findings = Mutex::new(Findings::default());
    let slots: Vec<Slot> = (0..options.threads).map(|_| Mutex::new(None)).collect();
    let done = AtomicBool::new(false);
    let work = |slot: &Slot| loop {
        let case = next.fetch_add(1, Ordering::Relaxed);
        if case >= options.cases {
            return;
        }
        if let Err(error) = compare(options, case, slot, &findings) {
            let mut findings = findings.lock().unwrap_or_else(PoisonError::into_inner);
            findings.failure.get_or_insert(format!("case {case}: {error}"));
            return;
        }
    };
    thread::scope(|scope| {
        scope.spawn(|| watch(&slots, &done));
        let workers: Vec<_> = slots.iter().map(|slot| scope.spawn(|| work(slot))).collect();
        for worker in workers {
            if worker.join().is_err() {
                let mut findings = findings.lock().unwrap_or_else(PoisonError::into_inner);
                findings.failure.get_or_insert("the second implementation failed".to_string());
            }
        }
        done.store(true, Ordering::Relaxed);
    });
    findings.into_inner().unwrap_or_else(PoisonError::into_inner)
}

/// Says why no comparison could be made.
fn give_up(reason: &str) -> ExitCode {
    eprintln!("differential: {reason}");
    ExitCode::from(2)
}

fn main() -> ExitCode {
    let mut options = match options(std::env::args().skip(1)) {
        Ok(options) => options,
        Err(reason) => return give_up(&format!("{reason}\n{USAGE}")),
    };
    println!("seed {}", options.seed);
    match fs::canonicalize(&options.program) {
        Ok(path) if path.is_file() => options.program = path,
        _ => return give_up(&format!("the program {} does not exist", options.program.display())),
    }
    let start = Instant::now();
    let findings = compare_all(&options);
    if let Some(failure) = findings.failure {
        return give_up(&failure);
    }
    for (answer, count) in &findings.answers {
        println!("{count:>9} {answer}");
    }
    let seconds = start.elapsed().as_secs_f64();
    println!("{:.1} seconds, {:.0} cases a second", seconds, options.cases as f64 / seconds.max(0.001));
    println!("explain: {} differences", findings.of_explain);
    println!("{} cases, {} differences", options.cases, findings.differences);
    ExitCode::from(u8::from(findings.differences > 0))
}
