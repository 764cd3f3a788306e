//! Script on standard input, expected answers on standard output.
//!
//! `main` is C's: the start-up of Rust's own reads /proc/self/maps, at which
//! user-mode emulators of some versions end with a fault of theirs.
#![no_main]

use second::{stdio, translate};

#[no_mangle]
pub extern "C" fn main(_: i32, _: *const *const u8) -> i32 {
    let run = || translate::translate(stdio::input()?, stdio::output()?);
    stdio::status(run())
}
