//! Tells what is wrong with an input of `agree`, and where: `explain [FILE]`, standard input where no file is given.
//!
//! Exit status: 0 where `agree` gives a table, 1 where it refuses, 2 for a wrong command line or a file that cannot be read.

use std::ffi::OsString;
use std::fs::File;
use std::io::{self, Read, Write};
use std::process::ExitCode;
use tomchoen_tests::explain::{explain, print, read};

const USAGE: &str = "\
usage: explain [FILE]

Tells what agree answers to FILE, or to standard input where no file is given:
where it refuses, what is wrong and in which line and columns; where it gives
a table, how near that came to each limit. docs/TEXT.md has the columns,
docs/REFUSALS.md the refusals.

Exit status: 0 a table, 1 a refusal, 2 a wrong command line or a file that
cannot be read.
";

/// Explains an input to standard output; the exit status.
fn tell(source: impl Read) -> io::Result<u8> {
    let (input, size) = read(source)?;
    let explanation = explain(&input, size);
    io::stdout().write_all(print::text(&explanation).as_bytes())?;
    Ok(u8::from(explanation.refusal().is_some()))
}

/// Does what the command line asks for; the exit status, or what is wrong.
fn run(words: &[OsString]) -> Result<u8, String> {
    match words {
        [] => tell(io::stdin().lock()).map_err(|error| format!("standard input: {error}")),
        [word] if word == "--help" => {
            print!("{USAGE}");
            Ok(0)
        }
        [word] if word.to_string_lossy().starts_with('-') => Err(format!("{} is not known\n{USAGE}", word.to_string_lossy())),
        [path] => File::open(path).and_then(tell).map_err(|error| format!("{}: {error}", path.to_string_lossy())),
        _ => Err(format!("more than one file\n{USAGE}")),
    }
}

fn main() -> ExitCode {
    let words: Vec<OsString> = std::env::args_os().skip(1).collect();
    match run(&words) {
        Ok(status) => ExitCode::from(status),
        Err(reason) => {
            eprintln!("explain: {}", reason.trim_end());
            ExitCode::from(2)
        }
    }
}
