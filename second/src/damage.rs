//! Damaged scripts.

use crate::make::{any_counts, edge_counter, Maker, Profiles};
use crate::rng::Rng;
use crate::script::put_header;
use crate::table::Profile;

/// One byte of each class that a reader may tell apart, and the neighbours of
/// the digits, the tab and the line end.
const BYTES: [u8; 48] = [
    b'0', b'1', b'5', b'6', b'9', b'\t', b'\n', b'\r', 0, 1, 8, 11, 12, 27, 31, b' ', b'!', b'"',
    b'+', b'-', b'.', b',', b'/', b':', b';', b'A', b'B', b'C', b'E', b'I', b'L', b'N', b'P', b'R',
    b'T', b'X', b'Z', b'a', b'c', b'r', b't', b'~', 127, 128, 160, 194, 239, 255,
];

/// The letters of profile D and its answers, besides.
const BYTES_BOTH: [u8; BYTES.len() + 3] = {
    let mut bytes = [b'D'; BYTES.len() + 3];
    let mut at = 0;
    while at < BYTES.len() {
        bytes[at] = BYTES[at];
        at += 1;
    }
    bytes[at] = b'F';
    bytes[at + 1] = b'd';
    bytes
};

fn bytes_of(profiles: Profiles) -> &'static [u8] {
    match profiles {
        Profiles::T => &BYTES,
        Profiles::Both => &BYTES_BOTH,
    }
}

#[derive(Clone, Copy, PartialEq, Eq, Debug)]
pub enum Kind {
    Replaced,
    Inserted,
    Deleted,
    Cut,
    NoFinalEnd,
    LongLine,
    LaterHeader,
    LeadingZero,
    Sign,
    TooLarge,
    Tab,
    Return,
    EmptyLine,
    BadHeader,
    CountsOut,
    FieldCount,
    Letter,
    LinesMoved,
    AnyBytes,
    Empty,
    Several,
}

pub const KINDS: [Kind; 21] = {
    use Kind::*;
    [
        Replaced,
        Inserted,
        Deleted,
        Cut,
        NoFinalEnd,
        LongLine,
        LaterHeader,
        LeadingZero,
        Sign,
        TooLarge,
        Tab,
        Return,
        EmptyLine,
        BadHeader,
        CountsOut,
        FieldCount,
        Letter,
        LinesMoved,
        AnyBytes,
        Empty,
        Several,
    ]
};

/// Every line form, at its longest and its shortest.
const SAMPLE: &[u8] =
    b"T\t8\t3\t4\t65535\nR\t0\t0\nP\t0\nN\t0\t5\nR\t65535\t65535\nI\t10\nC\t1\nL\t0\n";

const SAMPLE_D: &[u8] =
    b"D\t8\t3\t0\t65535\nR\t0\t0\nR\t1\t0\nI\t1\nI\t0\nR\t65535\t65535\nP\t10\nC\t1\nN\t1\t2\nL\t1\n";

/// The script of this number in the list of single damages to the sample, or, with
/// both profiles, to the two samples by turns.
pub fn listed(number: usize, profiles: Profiles) -> Option<(Kind, Vec<u8>)> {
    listed_of([SAMPLE, SAMPLE_D], number, profiles)
}

/// Single damages to the samples of the two profiles: each place cut, deleted,
/// replaced and preceded by every byte. None past the list.
pub fn listed_of(
    samples: [&[u8]; 2],
    number: usize,
    profiles: Profiles,
) -> Option<(Kind, Vec<u8>)> {
    let bytes = bytes_of(profiles);
    let (sample, number) = match profiles {
        Profiles::T => (samples[0], number),
        Profiles::Both => (samples[number % 2], number / 2),
    };
    let each = 2 + 2 * bytes.len();
    let (at, how) = (number / each, number % each);
    if at >= sample.len() {
        return None;
    }
    let mut script = sample.to_vec();
    let kind = match how {
        0 => {
            script.truncate(at);
            Kind::Cut
        }
        1 => {
            script.remove(at);
            Kind::Deleted
        }
        _ if how < 2 + bytes.len() => {
            script[at] = bytes[how - 2];
            Kind::Replaced
        }
        _ => {
            script.insert(at, bytes[how - 2 - bytes.len()]);
            Kind::Inserted
        }
    };
    Some((kind, script))
}

/// A good script of at most `most` steps, damaged in some way.
pub fn any(rng: &mut Rng, most: u64, profiles: Profiles) -> (Kind, Vec<u8>) {
    let kind = rng.pick(&KINDS);
    let mut script = Vec::new();
    let steps = rng.within(0, most);
    Maker::any(Rng::new(rng.draw(), 0), profiles).put_script(&mut script, steps);
    damage(rng, kind, &mut script, profiles);
    if kind == Kind::Several {
        for _ in 0..rng.within(2, 4) {
            let kind = rng.pick(&KINDS);
            damage(rng, kind, &mut script, profiles);
        }
    }
    profiles.keep(&mut script);
    (kind, script)
}

/// The places where lines begin.
fn starts(script: &[u8]) -> Vec<usize> {
    let ends = script
        .iter()
        .enumerate()
        .filter(|(_, b)| **b == b'\n')
        .map(|(at, _)| at + 1);
    std::iter::once(0)
        .chain(ends)
        .filter(|at| *at < script.len())
        .collect()
}

/// The ranges of digits.
fn numbers(script: &[u8]) -> Vec<(usize, usize)> {
    let mut found = Vec::new();
    let mut at = 0;
    while at < script.len() {
        let length = script[at..]
            .iter()
            .take_while(|b| b.is_ascii_digit())
            .count();
        if length > 0 {
            found.push((at, at + length));
        }
        at += length + 1;
    }
    found
}

fn places(script: &[u8], byte: u8) -> Vec<usize> {
    (0..script.len()).filter(|at| script[*at] == byte).collect()
}

fn any_header(rng: &mut Rng, profiles: Profiles) -> Vec<u8> {
    let profile = profiles.any(rng);
    let [cores, first, mut second] = any_counts(rng);
    if profile == Profile::D && rng.chance(80) {
        second = 0;
    }
    let mut line = Vec::new();
    let numbers = [cores, first, second, edge_counter(rng)];
    put_header(&mut line, profile.letter(), numbers);
    line
}

/// Puts `bytes` in the place of the script's bytes from `from` to `to`.
pub fn put(script: &mut Vec<u8>, from: usize, to: usize, bytes: &[u8]) {
    script.splice(from..to, bytes.iter().copied());
}

/// Does nothing where the script has no place for this kind of damage.
pub fn damage(rng: &mut Rng, kind: Kind, script: &mut Vec<u8>, profiles: Profiles) {
    // Often near the end, where a script may also just stop.
    let near = |rng: &mut Rng, length: usize| {
        if rng.chance(25) {
            length - rng.index(length.min(20)) - 1
        } else {
            rng.index(length)
        }
    };
    let line_starts = starts(script);
    let any_line = |rng: &mut Rng| {
        if line_starts.is_empty() {
            0
        } else {
            line_starts[near(rng, line_starts.len())]
        }
    };
    match kind {
        Kind::Replaced | Kind::Deleted if script.is_empty() => {}
        Kind::Replaced => {
            let at = near(rng, script.len());
            script[at] = if rng.chance(90) {
                rng.pick(bytes_of(profiles))
            } else {
                rng.draw() as u8
            };
        }
        Kind::Inserted => {
            let at = rng.index(script.len() + 1);
            let byte = rng.pick(bytes_of(profiles));
            put(script, at, at, &[byte]);
        }
        Kind::Deleted => {
            let at = near(rng, script.len());
            let to = (at + rng.pick(&[1, 1, 1, 2, 5])).min(script.len());
            put(script, at, to, b"");
        }
        Kind::Cut => script.truncate(rng.index(script.len() + 1)),
        Kind::NoFinalEnd => {
            if script.last() == Some(&b'\n') {
                script.pop();
            }
        }
        Kind::LongLine => {
            // Lengths on both sides of the longest line, with and without end.
            let length = match rng.below(3) {
                0 => rng.within(11, 17),
                1 => rng.within(13, 16),
                _ => rng.within(1, 120),
            } as usize;
            let mut line = match rng.below(4) {
                0 => b"R\t".to_vec(),
                1 => b"P\t1\t".to_vec(),
                2 => b"T\t1\t1\t1\t".to_vec(),
                _ => Vec::new(),
            };
            let filling = rng.pick(&[b'0', b'1', b'9', b'\t', b'P', b' ', 0, 255]);
            line.resize(length.max(line.len()), filling);
            let at = if rng.chance(40) {
                script.len()
            } else {
                any_line(rng)
            };
            if rng.chance(70) {
                line.push(b'\n');
            }
            put(script, at, at, &line);
        }
        Kind::LaterHeader => {
            let at = if rng.chance(30) {
                script.len()
            } else {
                any_line(rng)
            };
            let line = any_header(rng, profiles);
            put(script, at, at, &line);
        }
        Kind::LeadingZero | Kind::Sign | Kind::TooLarge => {
            let numbers = numbers(script);
            if numbers.is_empty() {
                return;
            }
            let (from, to) = numbers[near(rng, numbers.len())];
            match kind {
                Kind::LeadingZero => {
                    let zeros = rng.pick(&["0", "00", "0000"]);
                    put(script, from, from, zeros.as_bytes());
                }
                Kind::Sign => {
                    let sign = rng.pick(&["+", "-", "--", "+0", "-0"]);
                    put(script, from, from, sign.as_bytes());
                }
                _ => {
                    let number = rng.pick(&[
                        "65535",
                        "65536",
                        "65537",
                        "65540",
                        "65600",
                        "66000",
                        "70000",
                        "99999",
                        "100000",
                        "131072",
                        "655350",
                        "655360",
                        "1000000",
                        "4294967296",
                        "4294967297",
                        "18446744073709551616",
                    ]);
                    put(script, from, to, number.as_bytes());
                }
            }
        }
        Kind::Tab => {
            let tabs = places(script, b'\t');
            if tabs.is_empty() {
                return;
            }
            let at = tabs[near(rng, tabs.len())];
            let bytes = rng.pick(&["", "\t\t", " ", "\t ", " \t", "\n", "\u{b}", "  "]);
            put(script, at, at + 1, bytes.as_bytes());
        }
        Kind::Return | Kind::FieldCount => {
            let ends = places(script, b'\n');
            if ends.is_empty() {
                return;
            }
            let at = ends[near(rng, ends.len())];
            if kind == Kind::Return {
                let bytes = rng.pick(&["\r\n", "\r", "\n\r", "\r\r\n"]);
                put(script, at, at + 1, bytes.as_bytes());
            } else if rng.chance(50) {
                let bytes = rng.pick(&["\t0", "\t", "\t1\t1", " ", "\t65535"]);
                put(script, at, at, bytes.as_bytes());
            } else {
                // Without its last field.
                let from = script[..at].iter().rposition(|b| *b == b'\t').unwrap_or(at);
                put(script, from, at, b"");
            }
        }
        Kind::EmptyLine => {
            let at = if rng.chance(30) {
                script.len()
            } else {
                any_line(rng)
            };
            let bytes = rng.pick(&["\n", "\n\n", "\t\n", " \n"]);
            put(script, at, at, bytes.as_bytes());
        }
        Kind::BadHeader | Kind::CountsOut => {
            let end = script
                .iter()
                .position(|b| *b == b'\n')
                .map_or(script.len(), |at| at + 1);
            let profile = profiles.any(rng);
            let mut line = if kind == Kind::CountsOut {
                let mut numbers = any_counts(rng);
                for _ in 0..rng.within(1, 2) {
                    let at = rng.index(3);
                    numbers[at] = rng.pick(&[
                        0, 1, 8, 9, 10, 11, 16, 32, 33, 34, 80, 88, 255, 256, 257, 65_535,
                    ]);
                }
                let mut line = Vec::new();
                let counter = edge_counter(rng);
                put_header(
                    &mut line,
                    b'T',
                    [numbers[0], numbers[1], numbers[2], counter],
                );
                line
            } else {
                rng.pick(&[
                    "",
                    "\n",
                    "T\n",
                    "T\t\n",
                    "T\t1\n",
                    "T\t1\t1\n",
                    "T\t1\t1\t1\n",
                    "T\t1\t1\t1\t\n",
                    "T\t1\t1\t1\t1\t1\n",
                    "t\t1\t1\t1\t1\n",
                    "E\t1\t1\t1\t1\n",
                    "X\t20\n",
                    "1\t1\t1\t1\n",
                    "\tT\t1\t1\t1\t1\n",
                    " T\t1\t1\t1\t1\n",
                    "T 1 1 1 1\n",
                    "T\t1\t1\t1\t1\t\n",
                    "T\t1\t1\t1\t1 \n",
                    "T\t1\t1\t1\t65536\n",
                    "T\t1\t1\t1\t065535",
                    "T\t1\t1\t1\t65535",
                    "T\t1\t1\t1\t655350",
                    "T1\t1\t1\t1\n",
                    "T\t1\t1\t\t1\n",
                    "T\t01\t1\t1\t1\n",
                    "T\t+1\t1\t1\t1\n",
                    "T\t1\t-1\t1\t1\n",
                    "T\t1\t1\t00\t1\n",
                    "T\t1\t1\t1\t1\r\n",
                    "\u{feff}T\t1\t1\t1\t1\n",
                    "TT\t1\t1\t1\t1\n",
                    "R\t0\t0\n",
                    "P\t0\n",
                    "T\t1\t1\t1\t99999\n",
                    "T\t1\t1\t1\t100000\n",
                    "T\t11\t1\t1\t1\n",
                ])
                .as_bytes()
                .to_vec()
            };
            if profile == Profile::D {
                let letters = line.iter_mut().filter(|byte| **byte == b'T');
                letters.for_each(|byte| *byte = b'D');
            }
            put(script, 0, end, &line);
        }
        Kind::Letter => {
            if let Some(byte) = script.get_mut(any_line(rng)) {
                *byte = if rng.chance(50) {
                    rng.pick(b"RNPICL")
                } else {
                    rng.pick(b"TEXrnpiclABDFGHJKMOQSUVWYZ0\t ")
                };
            }
        }
        Kind::LinesMoved => {
            // The part from some line on comes first.
            let at = any_line(rng);
            script.rotate_left(at);
        }
        Kind::AnyBytes => {
            let length = rng.index(60);
            let bytes: Vec<u8> = (0..length)
                .map(|_| match rng.below(4) {
                    0 => rng.draw() as u8,
                    1 => rng.pick(b"0123456789"),
                    2 => rng.pick(b"\t\n"),
                    _ => rng.pick(b"TRNPICL"),
                })
                .collect();
            let at = if rng.chance(50) {
                script.len()
            } else {
                any_line(rng)
            };
            put(script, at, at, &bytes);
            if rng.chance(20) {
                script.drain(..at);
            }
        }
        Kind::Empty => {
            if rng.chance(30) {
                script.clear();
            } else {
                // The header alone, or a piece of it.
                script.truncate(rng.index(16));
            }
        }
        Kind::Several => {}
    }
}
