//! Log on standard input. Writes `accepted` and the number of steps, or the number
//! that stops it and the line, for 40 the field too, parted by tabs. The exit
//! status is 0 where it is accepted.

use std::io::{self, Read};

use second::{log, stdio};

fn main() -> io::Result<()> {
    let mut bytes = Vec::new();
    stdio::input()?.read_to_end(&mut bytes)?;
    match log::check(&bytes) {
        (0, steps, _) => {
            println!("accepted, {steps} steps");
            return Ok(());
        }
        (40, line, field) => println!("40\t{line}\t{field}"),
        (number, line, _) => println!("{number}\t{line}"),
    }
    std::process::exit(1);
}
