//! Runs a program on given input and takes what it writes.

use std::io::{self, Read, Write};
use std::process::{Command, ExitStatus, Stdio};
use std::sync::mpsc::{self, RecvTimeoutError};
use std::thread;
use std::time::Duration;

pub struct Ran {
    pub output: Vec<u8>,
    pub status: ExitStatus,
    pub in_time: bool,
}

/// Writes `input` to the program in pieces of `piece` bytes. Reads no more than
/// `most` bytes of its output, and ends it after `limit`.
pub fn run(
    command: &mut Command,
    input: &[u8],
    piece: usize,
    most: u64,
    limit: Duration,
) -> io::Result<Ran> {
    let mut child = command
        .stdin(Stdio::piped())
        .stdout(Stdio::piped())
        .spawn()?;
    let mut stdin = child.stdin.take().expect("piped");
    let stdout = child.stdout.take().expect("piped");
    let mut output = Vec::new();
    let (over, ended) = mpsc::channel::<()>();
    let watched = &mut child;
    let in_time = thread::scope(|scope| {
        let watch = scope.spawn(move || match ended.recv_timeout(limit) {
            Err(RecvTimeoutError::Timeout) => {
                // Ending it makes both pipes end.
                watched.kill().ok();
                false
            }
            _ => true,
        });
        scope.spawn(move || {
            for bytes in input.chunks(piece) {
                // A program that was stopped by its input reads no further.
                if stdin.write_all(bytes).is_err() {
                    break;
                }
            }
        });
        let read = stdout.take(most).read_to_end(&mut output);
        drop(over);
        let in_time = watch.join().expect("the watch has no reason to panic");
        read.map(|_| in_time)
    })?;
    Ok(Ran {
        output,
        status: child.wait()?,
        in_time,
    })
}
