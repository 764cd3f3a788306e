//! Writes one seeded script: `script STEPS SEED [CORES FIRST SECOND] [--stretch | --few]
//! [--dequeueing]`. With `--stretch`, single tickets are held for half the counter's
//! circle; with `--few`, few cores wait at a time; with `--dequeueing`, the script is of
//! profile D, and SECOND has to be 0.

use std::io::{self, Write};

use second::make::Maker;
use second::rng::Rng;
use second::table::Profile;

fn usage() -> ! {
    eprintln!("usage: script STEPS SEED [CORES FIRST SECOND] [--stretch | --few] [--dequeueing]");
    std::process::exit(2);
}

fn main() -> io::Result<()> {
    let words: Vec<String> = std::env::args().skip(1).collect();
    let number = |at: usize| words.get(at).and_then(|word| word.parse::<u64>().ok());
    let (Some(steps), Some(seed)) = (number(0), number(1)) else {
        usage();
    };
    let given = |option: &str| words.iter().any(|word| word == option);
    let profile = if given("--dequeueing") {
        Profile::D
    } else {
        Profile::T
    };
    // Several units of both classes, so that all paths are taken.
    let counts = match [number(2), number(3), number(4)] {
        [Some(cores), Some(first), Some(second)] => [cores, first, second].map(|n| n as u16),
        _ if profile == Profile::D => [8, 3, 0],
        _ => [8, 3, 3],
    };
    if !profile.counts_in_range(counts[0], counts[1], counts[2]) {
        usage();
    }
    let mut maker = Maker::new_in(profile, Rng::new(seed, 0), counts, 65_000).steady();
    if given("--stretch") {
        maker = maker.stretching();
    } else if given("--few") {
        maker = maker.few();
    }
    let mut output = io::stdout().lock();
    let mut piece = Vec::with_capacity(1 << 16);
    maker.put_header(&mut piece);
    for _ in 0..steps {
        maker.put_step(&mut piece);
        if piece.len() > (1 << 16) - 32 {
            output.write_all(&piece)?;
            piece.clear();
        }
    }
    output.write_all(&piece)
}
