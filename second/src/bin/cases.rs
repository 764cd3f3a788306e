//! Cases on standard input, answers on standard output; see `second::cases`.
//! `main` is C's for the reason given in `translator`.
#![no_main]

use second::{cases, stdio};

#[no_mangle]
pub extern "C" fn main(_: i32, _: *const *const u8) -> i32 {
    let run = || cases::answer_all(stdio::input()?, stdio::output()?);
    stdio::status(run())
}
