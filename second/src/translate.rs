//! The translator program: a script in, its expected answers out.

use std::io::{self, ErrorKind, Read, Write};

use crate::script::{self, Fault, Sink, STEPS_MAX};

const PIECE: usize = 64 * 1024;

/// Input bytes at hand, and whether more may come.
struct Input<R> {
    source: R,
    bytes: Box<[u8]>,
    start: usize,
    end: usize,
}

impl<R: Read> Input<R> {
    fn rest(&self) -> &[u8] {
        &self.bytes[self.start..self.end]
    }

    /// Moves what is left to the front and reads on; false at the end of input.
    fn more(&mut self) -> io::Result<bool> {
        self.bytes.copy_within(self.start..self.end, 0);
        self.end -= self.start;
        self.start = 0;
        loop {
            match self.source.read(&mut self.bytes[self.end..]) {
                Ok(count) => {
                    self.end += count;
                    return Ok(count > 0);
                }
                Err(error) if error.kind() == ErrorKind::Interrupted => {}
                Err(error) => return Err(error),
            }
        }
    }
}

/// Output buffer, emptied between lines when the next one might not fit.
struct Output<W> {
    target: W,
    bytes: Box<[u8]>,
    length: usize,
}

impl<W: Write> Output<W> {
    /// No line has more bytes than this.
    const ROOM: usize = 32;

    fn make_room(&mut self) -> io::Result<()> {
        if self.bytes.len() - self.length < Self::ROOM {
            self.empty()?;
        }
        Ok(())
    }

    fn empty(&mut self) -> io::Result<()> {
        self.target.write_all(&self.bytes[..self.length])?;
        self.length = 0;
        Ok(())
    }
}

impl<W> Sink for Output<W> {
    #[inline]
    fn take(&mut self, count: usize) -> &mut [u8] {
        let start = self.length;
        self.length += count;
        &mut self.bytes[start..self.length]
    }
}

/// Reads the script to its end, or to where it is stopped, and writes every
/// answer line, with the last line `X` and the number when it was stopped.
pub fn translate<R: Read, W: Write>(source: R, target: W) -> io::Result<()> {
    let bytes = || vec![0; PIECE].into_boxed_slice();
    let mut input = Input {
        source,
        bytes: bytes(),
        start: 0,
        end: 0,
    };
    let mut output = Output {
        target,
        bytes: bytes(),
        length: 0,
    };
    if let Some(number) = run(&mut input, &mut output)? {
        output.make_room()?;
        script::put_stop(&mut output, number);
    }
    output.empty()?;
    output.target.flush()
}

/// Gives the number the run was stopped with, if it was.
fn run<R: Read, W: Write>(input: &mut Input<R>, output: &mut Output<W>) -> io::Result<Option<u32>> {
    let mut table = loop {
        match script::read_header(input.rest()) {
            Ok((table, length)) => {
                input.start += length;
                break table;
            }
            Err(Fault::Malformed) => return Ok(Some(20)),
            Err(Fault::Unfinished) => {
                if !input.more()? {
                    return Ok(Some(22));
                }
            }
        }
    };
    let numbers = [
        table.cores,
        table.first_class,
        table.second_class,
        table.counter,
    ];
    script::put_header(output, table.profile.output_letter(), numbers);

    let mut done = 0;
    loop {
        if done == STEPS_MAX && !input.rest().is_empty() {
            return Ok(Some(24));
        }
        match script::read_step(input.rest()) {
            Ok((step, length)) => {
                input.start += length;
                let outcome = table.step(step);
                done += 1;
                output.make_room()?;
                script::put_outcome(output, done, &outcome);
            }
            Err(Fault::Malformed) => return Ok(Some(21)),
            Err(Fault::Unfinished) => {
                if !input.more()? {
                    return Ok(if input.rest().is_empty() {
                        None
                    } else {
                        Some(22)
                    });
                }
            }
        }
    }
}

#[cfg(test)]
mod tests {
    use super::*;

    fn columns(text: &str) -> String {
        let mut out = Vec::new();
        translate(text.as_bytes(), &mut out).unwrap();
        String::from_utf8(out).unwrap()
    }

    /// Tabs shown as spaces, lines parted by `;`.
    fn lines(text: &str) -> String {
        text.split("; ")
            .map(|line| line.replace(' ', "\t") + "\n")
            .collect()
    }

    const RUN: &str = "T 3 1 1 65535; R 0 1; P 0; R 2 0; R 1 0; I 2; P 1; N 1 1; C 2; P 1; I 0; \
                       L 0; P 1; L 1";
    const ANSWERS: &str = "E 3 1 1 65535; 1 0 65535 1 1 0; 2 1 65535 0; 3 0 0 1 0 2; 4 0 1 0; \
                           5 0 0 1 0 1; 6 1 1 0; 7 0 1 0; 8 0 0 0; 9 2 0 0; 10 14 0 0; \
                           11 0 65535 1 1 1; 12 1 0 0; 13 0 1 1 0 2";

    #[test]
    fn the_whole_run() {
        assert_eq!(columns(&lines(RUN)), lines(ANSWERS));
    }

    /// However the input is cut into pieces, the output is the same.
    #[test]
    fn in_small_pieces() {
        struct Pieces<'a>(&'a [u8], usize);
        impl Read for Pieces<'_> {
            fn read(&mut self, to: &mut [u8]) -> io::Result<usize> {
                let count = self.1.min(to.len()).min(self.0.len());
                to[..count].copy_from_slice(&self.0[..count]);
                self.0 = &self.0[count..];
                Ok(count)
            }
        }
        for stop in [
            "",
            "Q",
            "Q\t0\n",
            "R\t1",
            "12345678901234",
            "123456789012345",
        ] {
            let text = lines(RUN) + stop;
            let whole = columns(&text);
            for size in 1..20 {
                let mut out = Vec::new();
                translate(Pieces(text.as_bytes(), size), &mut out).unwrap();
                assert_eq!(String::from_utf8(out).unwrap(), whole);
            }
        }
    }

    #[test]
    fn stops() {
        assert_eq!(columns(""), "X\t22\n");
        assert_eq!(columns("T\t1\t1\t0\t0"), "X\t22\n");
        assert_eq!(columns("T\t9\t1\t0\t0\n"), "E\t9\t1\t0\t0\n");
        assert_eq!(columns("T\t33\t1\t0\t0\n"), "X\t20\n");
        assert_eq!(columns("T\t32\t8\t8\t655350"), "X\t20\n");
        assert_eq!(columns("T\t32\t8\t8\t65535"), "X\t22\n");
        assert_eq!(columns("\n"), "X\t20\n");
        assert_eq!(columns("D\t9\t1\t0\t0\n"), "F\t9\t1\t0\t0\n");
        assert_eq!(columns("D\t9\t1\t1\t0\n"), "X\t20\n");
        assert_eq!(columns("F\t9\t1\t0\t0\n"), "X\t20\n");
        let both = "D\t9\t1\t0\t0\nT\t9\t1\t0\t0\n";
        assert_eq!(columns(both), "F\t9\t1\t0\t0\nX\t21\n");
        let head = "T\t1\t1\t0\t0\n";
        let expected = |more: &str| format!("E\t1\t1\t0\t0\n{more}");
        assert_eq!(columns(head), expected(""));
        assert_eq!(columns(&format!("{head}{head}")), expected("X\t21\n"));
        assert_eq!(columns(&format!("{head}\n")), expected("X\t21\n"));
        assert_eq!(
            columns(&format!("{head}P\t0\nP\t0")),
            expected("1\t12\t0\t0\nX\t22\n")
        );
        assert_eq!(columns(&format!("{head}R\t0\t0\r\n")), expected("X\t21\n"));
        assert_eq!(
            columns(&format!("{head}R\t0\t0000000000")),
            expected("X\t22\n")
        );
        assert_eq!(
            columns(&format!("{head}R\t0\t00000000000")),
            expected("X\t21\n")
        );
    }

    #[test]
    fn a_million_steps_and_no_more() {
        let mut text = "T\t1\t1\t0\t0\n".to_string() + &"P\t0\n".repeat(1_000_000);
        let whole = columns(&text);
        assert!(whole.ends_with("\n1000000\t12\t0\t0\n"));
        text.push('R');
        assert_eq!(columns(&text), whole + "X\t24\n");
    }
}
