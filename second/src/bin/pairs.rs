//! Writes what the comparison answers to document 01's seven pairs, and to pairs
//! on both sides of each border: the two tickets and what the first is, seen
//! from the second. Our program `pairs` is held to it.

use second::table::compare;

fn main() {
    let listed = [
        (65535, 0),
        (0, 65535),
        (0, 32767),
        (32767, 0),
        (0, 32768),
        (32768, 0),
        (7, 7),
        (0, 32769),
        (32769, 0),
    ];
    let borders = [0, 1, 32767, 32768, 32769, 65535].map(|d| (65000u16.wrapping_add(d), 65000));
    for (a, b) in listed.into_iter().chain(borders) {
        println!("{a}\t{b}\t{}", compare(a, b).word());
    }
}
