//! Times the program `agree` and the second implementation's `agree_reference` on the same inputs, each as a whole process:
//! `bench_agree PROGRAM REFERENCE`. The time of a process that refuses an empty input is taken off, so that what is left is the work on the input.

use std::io::Write;
use std::process::{Command, Stdio};
use std::time::{Duration, Instant};

/// How often each input is run; the least time counts.
const RUNS: usize = 40;

/// The text of a chain of so many states with eight arcs from each to the next, A on both tapes, and the pair 1 = 2 with the limit 0.
fn chain(states: usize) -> Vec<u8> {
    let arcs = 8 * (states - 1);
    let mut text = format!("  1  1  2  0\n{:>3}{:>6}{:>6}\n", 2, states, arcs);
    for state in 0..states {
        let weight = |there: bool| if there { "0" } else { "-" };
        text += &format!("{:>10}{:>10}\n", weight(state == 0), weight(state + 1 == states));
    }
    for arc in 0..arcs {
        text += &format!("{:>6}{:>6}{:>10}{:>9}{:>9}\n", arc / 8, arc / 8 + 1, arc % 8, "A", "A");
    }
    text.into_bytes()
}

/// One run of a program: its output and how long it took.
fn run(program: &str, input: &[u8]) -> std::io::Result<(Vec<u8>, Duration)> {
    let start = Instant::now();
    let mut child = Command::new(program).stdin(Stdio::piped()).stdout(Stdio::piped()).spawn()?;
    if let Some(mut stdin) = child.stdin.take() {
        stdin.write_all(input)?;
    }
    let output = child.wait_with_output()?;
    Ok((output.stdout, start.elapsed()))
}

/// The least time of several runs, and the output.
fn least(program: &str, input: &[u8]) -> std::io::Result<(Vec<u8>, Duration)> {
    let mut best = run(program, input)?;
    for _ in 1..RUNS {
        let next = run(program, input)?;
        if next.1 < best.1 {
            best = next;
        }
    }
    Ok(best)
}

fn main() -> std::io::Result<()> {
    let programs: Vec<String> = std::env::args().skip(1).collect();
    let [program, reference] = programs.as_slice() else {
        eprintln!("usage: bench_agree PROGRAM REFERENCE");
        std::process::exit(2);
    };
    let idle = least(program, b"")?.1;
    let idle_reference = least(reference, b"")?.1;
    println!("states    arcs   agree (us)   second implementation (us)   ratio   growth of agree");
    let mut before = 0.0;
    for states in [8, 16, 32, 64] {
        let input = chain(states);
        let (output, time) = least(program, &input)?;
        let (expected, time_reference) = least(reference, &input)?;
        assert_eq!(output, expected, "the two differ on a chain of {states} states");
        let work = time.saturating_sub(idle).as_secs_f64() * 1e6;
        let work_reference = time_reference.saturating_sub(idle_reference).as_secs_f64() * 1e6;
        let growth = if before > 0.0 { format!("{:.1}", work / before) } else { "-".to_string() };
        println!(
            "{states:>6} {:>7} {work:>12.0} {work_reference:>28.0} {:>7.2} {growth:>17}",
            8 * (states - 1),
            work / work_reference
        );
        before = work;
    }
    Ok(())
}
