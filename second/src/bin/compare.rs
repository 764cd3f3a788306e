//! Command line of the comparison; see `second::compare`.

use second::compare::{compare, Options};
use second::make::Profiles;

const USAGE: &str = "usage: compare [STEPS [SEED]] [OPTION NUMBER]...
  STEPS             steps' worth of good scripts (3000000)
  SEED              (1)
  --profiles N      1: profile T alone; 2: half of all is of D (2)
  --damaged N       damaged scripts in batches (50000)
  --singles N       damaged scripts with a process of their own (400)
  --others N        soundness, word and image cases (60000)
  --methods N       steps by the table's methods (40000)
  --writers N       lines by the writers' functions (60000)
  --logs N          lines of logs, 6 small logs to 100 lines (1000000)
  --jobs N          processes at a time (the machine's, at most 4)
  --shrink-seconds N  time for shrinking a script that shows a difference (120)
  --limit N         seconds one process may take (600)
exit status: 0 no difference; 1 a difference, or an answer never met; 2 bad usage";

fn usage() -> ! {
    eprintln!("{USAGE}");
    std::process::exit(2);
}

fn main() {
    let cores = std::thread::available_parallelism().map_or(1, |n| n.get());
    let mut options = Options {
        starter: std::env::var("RUN_OURS").unwrap_or_else(|_| "second/run-ours".to_string()),
        steps: 3_000_000,
        seed: 1,
        profiles: Profiles::Both,
        damaged: 50_000,
        singles: 400,
        others: 60_000,
        methods: 40_000,
        writers: 60_000,
        logs: 1_000_000,
        jobs: cores.min(4),
        shrink_seconds: 120,
        limit: 600,
    };
    let mut words = std::env::args().skip(1);
    let mut place = 0;
    while let Some(word) = words.next() {
        let mut value = || {
            words
                .next()
                .and_then(|v| v.parse::<u64>().ok())
                .unwrap_or_else(|| usage())
        };
        match word.as_str() {
            "--help" => {
                println!("{USAGE}");
                return;
            }
            "--profiles" => {
                options.profiles = match value() {
                    1 => Profiles::T,
                    2 => Profiles::Both,
                    _ => usage(),
                }
            }
            "--damaged" => options.damaged = value(),
            "--singles" => options.singles = value(),
            "--others" => options.others = value(),
            "--methods" => options.methods = value(),
            "--writers" => options.writers = value(),
            "--logs" => options.logs = value(),
            "--jobs" => options.jobs = value().clamp(1, 64) as usize,
            "--shrink-seconds" => options.shrink_seconds = value(),
            "--limit" => options.limit = value(),
            _ => {
                let number = word.parse().unwrap_or_else(|_| usage());
                match place {
                    0 => options.steps = number,
                    1 => options.seed = number,
                    _ => usage(),
                }
                place += 1;
            }
        }
    }
    std::process::exit(compare(&options));
}
