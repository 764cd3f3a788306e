//! Reading script lines and writing script and answer lines.

use crate::table::{Kind, Outcome, Profile, Step, Table};

/// No line is longer, its end counted.
pub const LINE_MAX: usize = 15;
/// A line after this many steps is refused.
pub const STEPS_MAX: u32 = 1_000_000;

/// What the bytes at hand begin with, when it is no good line.
#[derive(Clone, Copy, PartialEq, Eq, Debug)]
pub enum Fault {
    /// Not finished: fewer bytes than the longest line and no line end.
    Unfinished,
    Malformed,
}

/// A tab at `at` and a number after it; gives the number and the place after it.
#[inline]
pub fn field(bytes: &[u8], at: usize) -> Option<(u16, usize)> {
    if bytes.get(at) != Some(&b'\t') {
        return None;
    }
    let start = at + 1;
    let mut at = start;
    let mut value: u32 = 0;
    while let Some(digit) = bytes
        .get(at)
        .map(|b| b.wrapping_sub(b'0'))
        .filter(|d| *d < 10)
    {
        if at > start && value == 0 {
            return None; // a leading zero
        }
        value = value * 10 + digit as u32;
        if value > 65_535 {
            return None;
        }
        at += 1;
    }
    if at == start {
        return None;
    }
    Some((value as u16, at))
}

fn line_end(bytes: &[u8], at: usize) -> Option<usize> {
    (bytes.get(at) == Some(&b'\n')).then_some(at + 1)
}

/// A step's letter and its numbers at the start of `bytes`; gives the place after
/// the last of them.
#[inline]
pub fn step_part(bytes: &[u8]) -> Option<(Step, usize)> {
    let (kind, two) = match bytes.first()? {
        b'R' => (Kind::Request, true),
        b'N' => (Kind::Nest, true),
        b'P' => (Kind::Poll, false),
        b'I' => (Kind::Interrupt, false),
        b'C' => (Kind::Continue, false),
        b'L' => (Kind::Leave, false),
        _ => return None,
    };
    let (core, at) = field(bytes, 1)?;
    let (unit, at) = if two { field(bytes, at)? } else { (0, at) };
    Some((Step { kind, core, unit }, at))
}

#[inline]
fn step_line(bytes: &[u8]) -> Option<(Step, usize)> {
    let (step, at) = step_part(bytes)?;
    Some((step, line_end(bytes, at)?))
}

fn header_line(bytes: &[u8]) -> Option<(Table, usize)> {
    let profile = Profile::of_letter(*bytes.first()?)?;
    let (cores, at) = field(bytes, 1)?;
    let (first_class, at) = field(bytes, at)?;
    let (second_class, at) = field(bytes, at)?;
    let (counter, at) = field(bytes, at)?;
    let end = line_end(bytes, at)?;
    let counts = [cores, first_class, second_class];
    Some((Table::fresh_in(profile, counts, counter)?, end))
}

/// A good line always fits, so the bytes are searched for a line end only once
/// reading one has failed.
fn fault(bytes: &[u8]) -> Fault {
    if bytes.len() < LINE_MAX && !bytes.contains(&b'\n') {
        Fault::Unfinished
    } else {
        Fault::Malformed
    }
}

/// The header at the start of `bytes` as a fresh table, and its length.
/// Counts out of range are malformed too: both are answered 20.
pub fn read_header(bytes: &[u8]) -> Result<(Table, usize), Fault> {
    header_line(bytes).ok_or_else(|| fault(bytes))
}

/// The step line at the start of `bytes`, and its length.
#[inline]
pub fn read_step(bytes: &[u8]) -> Result<(Step, usize), Fault> {
    step_line(bytes).ok_or_else(|| fault(bytes))
}

/// A place that lines are written to.
pub trait Sink {
    /// The next `count` bytes, to be filled.
    fn take(&mut self, count: usize) -> &mut [u8];

    #[inline]
    fn put(&mut self, byte: u8) {
        self.take(1)[0] = byte;
    }
}

impl Sink for Vec<u8> {
    #[inline]
    fn take(&mut self, count: usize) -> &mut [u8] {
        let start = self.len();
        self.resize(start + count, 0);
        &mut self[start..]
    }
}

/// Puts the number in decimal.
#[inline]
pub fn put_number<S: Sink>(sink: &mut S, number: u32) {
    if number < 10 {
        return sink.put(b'0' + number as u8);
    }
    let mut rest = number;
    for digit in sink.take(number.ilog10() as usize + 1).iter_mut().rev() {
        *digit = b'0' + (rest % 10) as u8;
        rest /= 10;
    }
}

/// Puts a tab and the number.
#[inline]
pub fn put_field<S: Sink>(sink: &mut S, number: u32) {
    sink.put(b'\t');
    put_number(sink, number);
}

/// `letter` and the header's four numbers: `T` or `D` in a script, `E` or `F` in its
/// answers.
pub fn put_header<S: Sink>(sink: &mut S, letter: u8, numbers: [u16; 4]) {
    sink.put(letter);
    for number in numbers {
        put_field(sink, number as u32);
    }
    sink.put(b'\n');
}

pub fn put_step<S: Sink>(sink: &mut S, step: Step) {
    let (letter, two) = match step.kind {
        Kind::Request => (b'R', true),
        Kind::Nest => (b'N', true),
        Kind::Poll => (b'P', false),
        Kind::Interrupt => (b'I', false),
        Kind::Continue => (b'C', false),
        Kind::Leave => (b'L', false),
    };
    sink.put(letter);
    put_field(sink, step.core as u32);
    if two {
        put_field(sink, step.unit as u32);
    }
    sink.put(b'\n');
}

pub fn put_outcome<S: Sink>(sink: &mut S, number: u32, outcome: &Outcome) {
    put_number(sink, number);
    put_field(sink, outcome.answer as u32);
    put_field(sink, outcome.ticket as u32);
    put_field(sink, outcome.granted as u32);
    for (unit, core) in &outcome.grants[..outcome.granted] {
        put_field(sink, *unit as u32);
        put_field(sink, *core as u32);
    }
    sink.put(b'\n');
}

/// The last line of a run that was stopped.
pub fn put_stop<S: Sink>(sink: &mut S, number: u32) {
    sink.put(b'X');
    put_field(sink, number);
    sink.put(b'\n');
}

#[cfg(test)]
mod tests {
    use super::*;

    #[test]
    fn step_lines() {
        let ok = |text: &str| read_step(text.as_bytes()).unwrap();
        assert_eq!(
            ok("R\t0\t1\nP\t0\n"),
            (
                Step {
                    kind: Kind::Request,
                    core: 0,
                    unit: 1
                },
                6
            )
        );
        assert_eq!(
            ok("N\t65535\t65535\n"),
            (
                Step {
                    kind: Kind::Nest,
                    core: 65535,
                    unit: 65535
                },
                14
            )
        );
        assert_eq!(
            ok("L\t10\n"),
            (
                Step {
                    kind: Kind::Leave,
                    core: 10,
                    unit: 0
                },
                5
            )
        );
        for text in [
            "\n",
            "R\n",
            "R\t0\n",
            "R\t0\t\n",
            "R\t0\t1\t2\n",
            "P\t0\t0\n",
            "P\t00\n",
            "P\t01\n",
            "P\t+1\n",
            "P\t-1\n",
            "P\t65536\n",
            "P\t100000\n",
            "P 0\n",
            "P\t\t0\n",
            "P\t0\t\n",
            "P\t0\r\n",
            "p\t0\n",
            "T\t1\t1\t0\t0\n",
            "\tP\t0\n",
            "P\t0 \n",
            "P0\n",
            "P\t0x\n",
            "P\t0000000000000",
            "P\t00000000000",
            "R\t65535\t65535",
            "R\t65535\t655350\n",
            "R\t65535\t655350",
            "R\t65535\t6553500",
            "R\t65535\t6553500\n",
        ] {
            let expected = if text.len() < 15 && !text.contains('\n') {
                Fault::Unfinished
            } else {
                Fault::Malformed
            };
            assert_eq!(read_step(text.as_bytes()), Err(expected), "{text:?}");
        }
        // Fewer than 15 bytes without an end may still become anything.
        for text in [
            "",
            "R",
            "R\t65535\t65535",
            "R\t65535\t655350",
            "Zzzz",
            "P\t0000000000",
        ] {
            assert!(text.len() < 15);
            assert_eq!(
                read_step(text.as_bytes()),
                Err(Fault::Unfinished),
                "{text:?}"
            );
        }
        assert_eq!(read_step(b"Zzzzzzzzzzzzzz"), Err(Fault::Unfinished));
        assert_eq!(read_step(b"Zzzzzzzzzzzzzzz"), Err(Fault::Malformed));
    }

    #[test]
    fn header_lines() {
        for (text, good) in [
            ("T\t8\t8\t8\t65535\n", true),
            ("T\t9\t1\t0\t0\n", true),
            ("T\t32\t8\t8\t65535\n", true),
            ("T\t33\t1\t0\t0\n", false),
            ("T\t032\t1\t0\t0\n", false),
            ("T\t1\t1\t0\t0\n", true),
            ("T\t0\t1\t0\t0\n", false),
            ("T\t1\t0\t0\t0\n", false),
            ("T\t1\t9\t0\t0\n", false),
            ("T\t1\t1\t9\t0\n", false),
            ("T\t1\t1\t0\t65536\n", false),
            ("T\t1\t1\t0\n", false),
            ("T\t01\t1\t0\t0\n", false),
            ("D\t1\t1\t0\t0\n", true),
            ("D\t32\t8\t0\t65535\n", true),
            ("D\t33\t8\t0\t65535\n", false),
            ("D\t0\t1\t0\t0\n", false),
            ("D\t1\t0\t0\t0\n", false),
            ("D\t1\t9\t0\t0\n", false),
            ("D\t1\t1\t1\t0\n", false),
            ("D\t32\t8\t8\t65535\n", false),
            ("D\t1\t1\t9\t0\n", false),
            ("D\t1\t1\t0\t65536\n", false),
            ("D\t1\t1\t0\n", false),
            ("D\t1\t1\t00\t0\n", false),
            ("d\t1\t1\t0\t0\n", false),
            ("E\t1\t1\t0\t0\n", false),
            ("F\t1\t1\t0\t0\n", false),
            ("R\t0\t0\n", false),
            ("\n", false),
        ] {
            match read_header(text.as_bytes()) {
                Ok((table, length)) => {
                    assert!(good && length == text.len(), "{text:?}");
                    assert_eq!(table.profile.letter(), text.as_bytes()[0]);
                }
                Err(fault) => assert!(!good && fault == Fault::Malformed, "{text:?}"),
            }
        }
        assert!(matches!(read_header(b""), Err(Fault::Unfinished)));
        assert!(matches!(
            read_header(b"D\t32\t8\t8\t65535"),
            Err(Fault::Unfinished)
        ));
        assert!(matches!(
            read_header(b"T\t32\t8\t8\t65535"),
            Err(Fault::Unfinished)
        ));
        assert!(matches!(
            read_header(b"T\t32\t8\t8\t655350"),
            Err(Fault::Malformed)
        ));
    }

    #[test]
    fn longest_lines() {
        let mut line = Vec::new();
        put_header(&mut line, b'T', [32, 8, 8, 65535]);
        assert_eq!(line.len(), LINE_MAX);
        line.clear();
        let outcome = Outcome {
            answer: 0,
            ticket: 65535,
            granted: 2,
            grants: [(7, 31), (15, 30)],
        };
        put_outcome(&mut line, STEPS_MAX, &outcome);
        assert_eq!(line, b"1000000\t0\t65535\t2\t7\t31\t15\t30\n");
        assert_eq!(line.len(), 29);
    }
}
