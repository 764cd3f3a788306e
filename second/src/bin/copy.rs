//! Copies standard input to standard output in pieces of 64 KiB: the floor
//! under the time of any program that reads a script and writes its answers.
//! `main` is C's for the reason given in `translator`.
#![no_main]

use std::io::{self, Read, Write};

use second::stdio;

fn copy() -> io::Result<()> {
    let mut input = stdio::input()?;
    let mut output = stdio::output()?;
    let mut piece = vec![0; 64 * 1024];
    loop {
        match input.read(&mut piece)? {
            0 => return Ok(()),
            count => output.write_all(&piece[..count])?,
        }
    }
}

#[no_mangle]
pub extern "C" fn main(_: i32, _: *const *const u8) -> i32 {
    stdio::status(copy())
}
