//! `agree` as the second implementation answers it: reads standard input, writes standard output.

use std::io::{Read, Write};
use tomchoen_tests::agree::{agree, MOST_INPUT};

fn main() -> std::io::Result<()> {
    let mut input = Vec::new();
    std::io::stdin().take(MOST_INPUT as u64 + 1).read_to_end(&mut input)?;
    std::io::stdout().write_all(&agree(&input))
}
