//! Captured logs: a script's header, then for each step a line with the fields of
//! its script line and the numbers that the part showed.

use crate::script::{self, Fault, STEPS_MAX};
use crate::table::{Kind, Outcome, Step};

/// No line of a step is longer in a log, its end counted.
pub const LINE_MAX: usize = 62;

/// The line of a step.
struct Line {
    step: Step,
    /// The numbers after the step's own.
    shown: Vec<u16>,
    /// Bytes, the end counted.
    length: usize,
}

/// The line at the start of `bytes`, whether or not its numbers are the rules'.
fn read_line(bytes: &[u8]) -> Result<Line, Fault> {
    let window = &bytes[..bytes.len().min(LINE_MAX)];
    match window.iter().position(|byte| *byte == b'\n') {
        Some(end) => step_and_shown(&bytes[..end]).ok_or(Fault::Malformed),
        None if bytes.len() < LINE_MAX => Err(Fault::Unfinished),
        None => Err(Fault::Malformed),
    }
}

/// Reads the line without its end: a step, then numbers to the last byte.
fn step_and_shown(line: &[u8]) -> Option<Line> {
    let (step, mut at) = script::step_part(line)?;
    let mut shown = Vec::new();
    while at < line.len() {
        let (number, next) = script::field(line, at)?;
        shown.push(number);
        at = next;
    }
    let length = line.len() + 1;
    Some(Line {
        step,
        shown,
        length,
    })
}

/// Fields of the step's script line, its letter counted.
fn step_fields(step: Step) -> usize {
    match step.kind {
        Kind::Request | Kind::Nest => 3,
        Kind::Poll | Kind::Interrupt | Kind::Continue | Kind::Leave => 2,
    }
}

/// The numbers that the rules give: answer, ticket, number of grants, and unit and
/// core of each.
fn given(outcome: &Outcome) -> Vec<u16> {
    let mut numbers = vec![
        outcome.answer as u16,
        outcome.ticket,
        outcome.granted as u16,
    ];
    for (unit, core) in &outcome.grants[..outcome.granted] {
        numbers.extend([*unit, *core]);
    }
    numbers
}

/// How many of the numbers shown come before the first that is off: another one
/// than is given, one missing, or one too many. None where they agree.
fn first_off(shown: &[u16], given: &[u16]) -> Option<usize> {
    let pairs = shown.iter().zip(given);
    let same = pairs.take_while(|(shown, given)| shown == given).count();
    (same < shown.len().max(given.len())).then_some(same)
}

/// Runs the log. Gives 0 and the number of steps where it is accepted; else 20,
/// 21, 22, 24 or 40 and the line at which it stops, and for 40 the first field
/// that is off (0 for the others). Lines and fields count from 1.
///
/// From a header's table all tables are sound, so 16 is never due.
pub fn check(log: &[u8]) -> (u8, u32, u32) {
    let (mut table, mut at) = match script::read_header(log) {
        Ok(header) => header,
        Err(Fault::Unfinished) => return (22, 1, 0),
        Err(Fault::Malformed) => return (20, 1, 0),
    };
    let mut steps = 0;
    while at < log.len() {
        let number = steps + 2;
        if steps == STEPS_MAX {
            return (24, number, 0);
        }
        let line = match read_line(&log[at..]) {
            Ok(line) => line,
            Err(Fault::Unfinished) => return (22, number, 0),
            Err(Fault::Malformed) => return (21, number, 0),
        };
        let outcome = table.step(line.step);
        if let Some(before) = first_off(&line.shown, &given(&outcome)) {
            let field = step_fields(line.step) + before + 1;
            return (40, number, field as u32);
        }
        steps += 1;
        at += line.length;
    }
    (0, steps, 0)
}

/// The log that a perfect part shows for a script with these columns: as many
/// steps as the columns answer.
pub fn log_of(script: &[u8], columns: &[u8]) -> Vec<u8> {
    let lines = script.split_inclusive(|byte| *byte == b'\n');
    let answers = columns.split_inclusive(|byte| *byte == b'\n');
    let mut log = Vec::new();
    for (line, answer) in lines.zip(answers) {
        match answer[0] {
            b'X' => break,
            b'E' | b'F' => log.extend_from_slice(line),
            _ => {
                let step = line.strip_suffix(b"\n").unwrap_or(line);
                let number = answer.iter().take_while(|byte| **byte != b'\t').count();
                log.extend_from_slice(step);
                log.extend_from_slice(&answer[number..]);
            }
        }
    }
    log
}

#[cfg(test)]
mod tests {
    use super::*;
    use crate::make::{Maker, Profiles};
    use crate::rng::Rng;
    use crate::translate::translate;
    use std::fs;
    use std::path::Path;

    /// Tabs shown as spaces, lines parted by `;`, the last one with its end.
    fn lines(text: &str) -> Vec<u8> {
        let text = text.replace("; ", "\n").replace(' ', "\t");
        (text + "\n").into_bytes()
    }

    fn columns(script: &[u8]) -> Vec<u8> {
        let mut columns = Vec::new();
        translate(script, &mut columns).unwrap();
        columns
    }

    /// Core 0 comes to hold both units, for which the others wait, and releases.
    const LOG: &str = "T 3 1 1 65535; R 0 0 0 65535 1 0 0; P 0 1 65535 0; \
                       N 0 1 0 65535 1 1 0; P 0 1 65535 0; R 1 0 0 0 0; R 2 1 0 1 0; \
                       L 0 0 65535 2 0 1 1 2";

    /// The log's first lines, then this one.
    fn ended_by(count: usize, last: &str) -> (u8, u32, u32) {
        let first: Vec<&str> = LOG.split("; ").take(count).collect();
        check(&lines(&(first.join("; ") + "; " + last)))
    }

    #[test]
    fn the_examples() {
        let folder = Path::new(env!("CARGO_MANIFEST_DIR")).join("../examples");
        let mut tried = 0;
        for entry in fs::read_dir(folder).unwrap() {
            let path = entry.unwrap().path();
            if path.extension().is_some_and(|end| end == "script") {
                let script = fs::read(&path).unwrap();
                let columns = fs::read(path.with_extension("columns")).unwrap();
                let log = log_of(&script, &columns);
                let count = |text: &[u8]| text.iter().filter(|byte| **byte == b'\n').count();
                assert_eq!(count(&log), count(&script), "{path:?}");
                let steps = count(&script) as u32 - 1;
                assert_eq!(check(&log), (0, steps, 0), "{path:?}");
                tried += 1;
            }
        }
        assert!(tried >= 4);
    }

    #[test]
    fn logs_of_scripts() {
        let script = lines("T 2 1 1 9; R 0 1; P 1; Q 0");
        let log = lines("T 2 1 1 9; R 0 1 0 9 1 1 0; P 1 12 0 0");
        assert_eq!(log_of(&script, &columns(&script)), log);
        assert_eq!(log_of(b"T\t9", b"X\t22\n"), b"");
        for stream in 0..200 {
            let mut script = Vec::new();
            Maker::any(Rng::new(4, stream), Profiles::Both).put_script(&mut script, 300);
            let log = log_of(&script, &columns(&script));
            assert_eq!(check(&log), (0, 300, 0));
        }
    }

    #[test]
    fn agreeing() {
        assert_eq!(check(&lines(LOG)), (0, 7, 0));
        assert_eq!(check(&lines("T 1 1 0 0")), (0, 0, 0));
        // Refused steps are steps.
        assert_eq!(
            check(&lines("T 1 1 0 0; L 0 12 0 0; R 1 65535 10 0 0")),
            (0, 2, 0)
        );
    }

    /// Each field in turn, the step's own left out.
    #[test]
    fn another_number() {
        assert_eq!(ended_by(1, "R 0 0 1 65535 1 0 0"), (40, 2, 4));
        assert_eq!(ended_by(1, "R 0 0 0 65534 1 0 0"), (40, 2, 5));
        assert_eq!(ended_by(1, "R 0 0 0 65535 0 0 0"), (40, 2, 6));
        assert_eq!(ended_by(1, "R 0 0 0 65535 1 1 0"), (40, 2, 7));
        assert_eq!(ended_by(1, "R 0 0 0 65535 1 0 1"), (40, 2, 8));
        assert_eq!(ended_by(7, "L 0 12 65535 2 0 1 1 2"), (40, 8, 3));
        assert_eq!(ended_by(7, "L 0 0 0 2 0 1 1 2"), (40, 8, 4));
        assert_eq!(ended_by(7, "L 0 0 65535 1 0 1 1 2"), (40, 8, 5));
        assert_eq!(ended_by(7, "L 0 0 65535 2 1 1 1 2"), (40, 8, 6));
        assert_eq!(ended_by(7, "L 0 0 65535 2 0 2 1 2"), (40, 8, 7));
        assert_eq!(ended_by(7, "L 0 0 65535 2 0 1 0 2"), (40, 8, 8));
        assert_eq!(ended_by(7, "L 0 0 65535 2 0 1 1 0"), (40, 8, 9));
        // The first of several; grants by rising unit.
        assert_eq!(ended_by(7, "L 0 0 65535 2 1 2 0 1"), (40, 8, 6));
        assert_eq!(ended_by(7, "L 0 0 1 1 1 1 1 1 1 1"), (40, 8, 4));
        // Another step is judged by what it gives itself.
        assert_eq!(ended_by(7, "P 0 0 65535 2 0 1 1 2"), (40, 8, 3));
        assert_eq!(ended_by(7, "P 0 12 0 0"), (0, 7, 0));
    }

    #[test]
    fn missing_or_too_many() {
        assert_eq!(ended_by(1, "P 0"), (40, 2, 3));
        assert_eq!(ended_by(1, "R 0 0"), (40, 2, 4));
        assert_eq!(ended_by(1, "R 0 0 0"), (40, 2, 5));
        assert_eq!(ended_by(1, "R 0 0 0 65535"), (40, 2, 6));
        assert_eq!(ended_by(1, "R 0 0 0 65535 1"), (40, 2, 7));
        assert_eq!(ended_by(1, "R 0 0 0 65535 1 0"), (40, 2, 8));
        assert_eq!(ended_by(1, "R 0 0 0 65535 1 0 0 0"), (40, 2, 9));
        assert_eq!(ended_by(2, "P 0 1 65535 0 0 0"), (40, 3, 6));
        assert_eq!(ended_by(7, "L 0 0 65535 2 0 1 1"), (40, 8, 9));
        assert_eq!(ended_by(7, "L 0 0 65535 2 0 1 1 2 3 4"), (40, 8, 10));
        // Off before it is too long, or too short.
        assert_eq!(ended_by(1, "R 0 0 0 0 1 0 0 0"), (40, 2, 5));
        assert_eq!(ended_by(1, "R 0 0 0 0"), (40, 2, 5));
    }

    #[test]
    fn malformed() {
        for last in [
            "",
            "P",
            "P ",
            "R 0",
            "R 0 ",
            "Q 0 12 0 0",
            "T 1 1 0 0",
            "p 0 1 65535 0",
            "PP 0",
            "P0 0",
            " P 0",
            "0 1 65535 0",
            "P 65536",
            "P 01 0 0 0",
            "R 0 65536 11 0 0",
            "P 0 1 65535 0 ",
            "P 0  1 65535 0",
            "P 0 1 065535 0",
            "P 0 1 65536 0",
            "P 0 1 65535 -1",
            "P 0 1 65535 +0",
            "P 0 1 65535 0x",
            "P 0 1 65535 0\r",
            "P 0 01 65535 0",
            "P 0 x",
            // Off as well, but that is judged later.
            "P 0 7 7 7 7 7 65536",
            "P 0 2 x",
        ] {
            assert_eq!(ended_by(2, last), (21, 3, 0), "{last:?}");
        }
    }

    /// A line that agrees up to its fifth field and has so many bytes by more of them.
    fn padded(length: usize) -> Vec<u8> {
        let mut line = b"P\t0\t12\t0\t0".to_vec();
        if (length - line.len()) % 2 == 1 {
            line.extend(b"\t10");
        }
        line.extend(b"\t0".repeat((length - line.len()) / 2));
        line
    }

    /// 61, 62 and 63 bytes, with an end and without.
    #[test]
    fn long_lines() {
        let with = |line: &[u8]| check(&[b"T\t1\t1\t0\t0\n", line].concat());
        for (length, expected, unfinished) in [
            (60, (40, 2, 6), 22),
            (61, (40, 2, 6), 22),
            (62, (40, 2, 6), 21),
            (63, (21, 2, 0), 21),
            (64, (21, 2, 0), 21),
        ] {
            let line = [&padded(length - 1)[..], b"\n"].concat();
            assert_eq!(line.len(), length);
            assert_eq!(with(&line), expected, "{length}");
            assert_eq!(with(&padded(length)), (unfinished, 2, 0), "{length}");
        }
        let full = lines("R 65535 65535 65535 65535 65535 65535 65535 65535 65535 65535");
        assert_eq!(full.len(), LINE_MAX);
        assert_eq!(with(&full), (40, 2, 4));
        assert_eq!(with(&[b'?'; 61]), (22, 2, 0));
        assert_eq!(with(&[b'?'; 62]), (21, 2, 0));
    }

    /// However much of the last line is there, it is not finished.
    #[test]
    fn cut_off() {
        let log = lines(LOG);
        for length in 0..=log.len() {
            let ends = log[..length].iter().filter(|b| **b == b'\n').count() as u32;
            let whole = length > 0 && log[length - 1] == b'\n';
            let expected = if whole {
                (0, ends - 1, 0)
            } else {
                (22, ends + 1, 0)
            };
            assert_eq!(check(&log[..length]), expected, "{length}");
        }
    }

    #[test]
    fn headers() {
        assert_eq!(check(b""), (22, 1, 0));
        assert_eq!(check(b"T\t32\t8\t8\t65535"), (22, 1, 0));
        // The header's window has 15 bytes.
        assert_eq!(check(b"T\t32\t8\t8\t655350"), (20, 1, 0));
        assert_eq!(check(b"01234567890123"), (22, 1, 0));
        assert_eq!(check(b"012345678901234"), (20, 1, 0));
        for text in [
            "",
            "T 33 1 0 0",
            "T 1 1 0 0 0",
            "E 1 1 0 0",
            "F 1 1 0 0",
            "D 1 1 1 0",
            "P 0 12 0 0",
            "T 1 1 0 0 12 0 0 0",
        ] {
            assert_eq!(check(&lines(text)), (20, 1, 0), "{text:?}");
        }
    }

    #[test]
    fn a_million_steps_and_no_more() {
        let mut log = lines("T 1 1 0 0");
        log.extend(b"P\t0\t12\t0\t0\n".repeat(1_000_000));
        assert_eq!(check(&log), (0, 1_000_000, 0));
        log.push(b'?');
        assert_eq!(check(&log), (24, 1_000_002, 0));
        log.extend(b"\nP\t0\t12\t0\t0\n");
        assert_eq!(check(&log), (24, 1_000_002, 0));
    }
}
