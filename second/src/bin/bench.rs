//! Measures programs that were compiled for x86-64, each started by the same
//! starter, and prints one table. `bench/run` builds what this needs.
//!
//! Usage: bench STARTER OURS CHECKER SECOND COPY FOLDER REPETITIONS
//! FOLDER has the scripts 0, 100000 and 1000000, named by their steps, the log of
//! the last, and those of `OTHERS`, of 1,000,000 steps each.

use std::fs::{self, File};
use std::io;
use std::os::unix::process::ExitStatusExt;
use std::path::Path;
use std::process::{Command, ExitStatus, Stdio};
use std::time::Instant;

/// `struct rusage` of 64-bit Linux.
#[repr(C)]
#[derive(Default)]
struct Usage {
    user: [i64; 2],
    system: [i64; 2],
    /// In KiB.
    peak: i64,
    rest: [i64; 13],
}

extern "C" {
    fn wait4(pid: i32, status: *mut i32, options: i32, usage: *mut Usage) -> i32;
}

struct Measured {
    wall: f64,
    /// User and system time.
    cpu: f64,
    peak: f64,
}

/// Runs one program with files for input and output. A child's peak memory
/// counts from what this process has, so this process keeps small.
fn measure(starter: &str, program: &str, input: &Path, output: &Path) -> io::Result<Measured> {
    let mut command = Command::new(starter);
    command
        .arg(program)
        .stdin(File::open(input)?)
        .stdout(File::create(output)?);
    command.stderr(Stdio::inherit());
    let began = Instant::now();
    let child = command.spawn()?;
    let mut status = 0;
    let mut usage = Usage::default();
    // SAFETY: both pointers are to live locals of the C types; the child is
    // waited for here alone.
    let waited = unsafe { wait4(child.id() as i32, &mut status, 0, &mut usage) };
    let wall = began.elapsed().as_secs_f64();
    if waited < 0 {
        return Err(io::Error::last_os_error());
    }
    let status = ExitStatus::from_raw(status);
    if !status.success() {
        return Err(io::Error::new(
            io::ErrorKind::Other,
            format!("{program} ended with {status}"),
        ));
    }
    let seconds = |time: [i64; 2]| time[0] as f64 + time[1] as f64 / 1e6;
    let cpu = seconds(usage.user) + seconds(usage.system);
    Ok(Measured {
        wall,
        cpu,
        peak: usage.peak as f64 / 1024.0,
    })
}

fn median(mut numbers: Vec<f64>) -> f64 {
    numbers.sort_by(f64::total_cmp);
    let half = numbers.len() / 2;
    if numbers.len() % 2 == 1 {
        numbers[half]
    } else {
        (numbers[half - 1] + numbers[half]) / 2.0
    }
}

/// Medians of several runs, and the spread of the wall time.
struct Row {
    wall: f64,
    least: f64,
    most: f64,
    cpu: f64,
    peak: f64,
}

fn row(runs: &[Measured]) -> Row {
    let of = |field: fn(&Measured) -> f64| runs.iter().map(field).collect::<Vec<f64>>();
    Row {
        wall: median(of(|run| run.wall)),
        least: of(|run| run.wall).into_iter().fold(f64::INFINITY, f64::min),
        most: of(|run| run.wall).into_iter().fold(0.0, f64::max),
        cpu: median(of(|run| run.cpu)),
        peak: median(of(|run| run.peak)),
    }
}

/// Compares files piece by piece, to keep this process small.
fn same(a: &Path, b: &Path) -> io::Result<bool> {
    let status = Command::new("cmp").arg("-s").arg(a).arg(b).status()?;
    Ok(status.success())
}

/// Further scripts, by their names in the folder, with what is said of them: for 32
/// cores, by how many of them wait at a time; and of profile D.
const OTHERS: [(&str, &str); 4] = [
    ("few", "32 cores, few waiting"),
    ("many", "32 cores, many waiting"),
    ("d", "D, 8 cores"),
    ("d_many", "D, 32 cores"),
];

fn bench(words: &[String]) -> io::Result<i32> {
    let [starter, ours, checker, second, copy, folder, repetitions] = words else {
        eprintln!("usage: bench STARTER OURS CHECKER SECOND COPY FOLDER REPETITIONS");
        return Ok(2);
    };
    let repetitions: usize = repetitions.parse().unwrap_or(5).max(1);
    let folder = Path::new(folder);
    let scripts = [0u32, 100_000, 1_000_000];
    let script = |steps: u32| folder.join(steps.to_string());
    let programs = [("ours", ours), ("second", second), ("copy", copy)];

    // The answers stand ready for the copy of them.
    let (answers, output) = (folder.join("answers"), folder.join("output"));
    let others = OTHERS.map(|(name, _)| folder.join(name));
    for script in others.into_iter().chain([script(1_000_000)]) {
        measure(starter, second, &script, &answers)?;
        measure(starter, ours, &script, &output)?;
        if !same(&answers, &output)? {
            eprintln!("bench: the two do not write the same answers");
            return Ok(1);
        }
    }

    // Each round runs everything once, so that a disturbance falls on all alike.
    let mut jobs: Vec<(&str, &String, String, std::path::PathBuf)> = Vec::new();
    for (name, program) in programs {
        for steps in scripts {
            jobs.push((
                name,
                program,
                format!("script of {steps} steps"),
                script(steps),
            ));
        }
    }
    jobs.push((
        "copy",
        copy,
        "answers to 1000000 steps".to_string(),
        answers.clone(),
    ));
    jobs.push((
        "checker",
        checker,
        "log of 1000000 steps".to_string(),
        folder.join("log"),
    ));
    for (file, what) in OTHERS {
        for (name, program) in [("ours", ours), ("second", second)] {
            jobs.push((name, program, what.to_string(), folder.join(file)));
        }
    }
    let mut runs: Vec<Vec<Measured>> = jobs.iter().map(|_| Vec::new()).collect();
    for _ in 0..repetitions {
        for (job, runs) in jobs.iter().zip(&mut runs) {
            runs.push(measure(starter, job.1, &job.3, &output)?);
        }
    }
    let rows: Vec<Row> = runs.iter().map(|runs| row(runs)).collect();

    println!("median of {repetitions} runs each; wall time with its least and most; cpu is user and system time");
    println!();
    println!(
        "{:<8}{:<26}{:>11}{:>10}{:>21}{:>10}{:>11}",
        "program", "input", "bytes", "wall s", "least - most", "cpu s", "peak MiB"
    );
    for (job, row) in jobs.iter().zip(&rows) {
        println!(
            "{:<8}{:<26}{:>11}{:>10.4}{:>21}{:>10.3}{:>11.1}",
            job.0,
            job.2,
            fs::metadata(&job.3)?.len(),
            row.wall,
            format!("{:.4} - {:.4}", row.least, row.most),
            row.cpu,
            row.peak,
        );
    }
    println!("start-up is the script of 0 steps; under an emulator its own time and memory are in every row");
    println!();
    println!(
        "{:<8}{:>16}{:>16}{:>20}{:>22}",
        "program", "steps/s wall", "steps/s cpu", "cpu, less start", "1000000 to 100000"
    );
    for (at, name) in [(0, "ours"), (3, "second")] {
        let [start, less, more] = [&rows[at], &rows[at + 1], &rows[at + 2]];
        println!(
            "{:<8}{:>16.0}{:>16.0}{:>20.0}{:>18.2} times",
            name,
            1e6 / more.wall,
            1e6 / more.cpu,
            1e6 / (more.cpu - start.cpu).max(1e-9),
            (more.cpu - start.cpu) / (less.cpu - start.cpu).max(1e-9),
        );
    }
    println!();
    let ratio =
        |a: &Row, wall: f64, cpu: f64| format!("{:.2} wall, {:.2} cpu", a.wall / wall, a.cpu / cpu);
    let floor = (rows[8].wall.max(rows[9].wall), rows[8].cpu.max(rows[9].cpu));
    println!(
        "at 1000000 steps, ours to second: {}",
        ratio(&rows[2], rows[5].wall, rows[5].cpu)
    );
    for (at, (_, what)) in OTHERS.iter().enumerate() {
        let [ours, second] = [&rows[11 + 2 * at], &rows[12 + 2 * at]];
        println!(
            "{what}, ours to second: {}",
            ratio(ours, second.wall, second.cpu)
        );
    }
    println!(
        "ours to the copy (the slower of script and answers): {}",
        ratio(&rows[2], floor.0, floor.1)
    );
    println!("second to the copy: {}", ratio(&rows[5], floor.0, floor.1));
    println!(
        "checker on the log to ours on its script: {}; less start-up {:.2} cpu",
        ratio(&rows[10], rows[2].wall, rows[2].cpu),
        (rows[10].cpu - rows[0].cpu) / (rows[2].cpu - rows[0].cpu).max(1e-9)
    );
    println!(
        "peak memory of ours at 1000000 steps to 100000: {:.2} times; less that of the copy: {:.1} MiB",
        rows[2].peak / rows[1].peak,
        rows[2].peak - rows[8].peak,
    );
    Ok(0)
}

fn main() {
    let words: Vec<String> = std::env::args().skip(1).collect();
    let status = bench(&words).unwrap_or_else(|error| {
        eprintln!("bench: {error}");
        1
    });
    std::process::exit(status);
}
