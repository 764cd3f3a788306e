//! Script on standard input, on standard output the log that a perfect part shows
//! for it.

use std::io::{self, Read, Write};

use second::{log, stdio, translate};

fn main() -> io::Result<()> {
    let (mut script, mut columns) = (Vec::new(), Vec::new());
    stdio::input()?.read_to_end(&mut script)?;
    translate::translate(&script[..], &mut columns)?;
    io::stdout().write_all(&log::log_of(&script, &columns))
}
