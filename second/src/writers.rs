//! One line written whole into lent bytes at a place, and cases of it.

use crate::cases::{self, LENT_MAX};
use crate::make::{any_counts, edge_counter, Profiles};
use crate::rng::Rng;
use crate::script::{put_header, put_outcome, put_step};
use crate::table::{Outcome, Profile, Step};

#[derive(Clone, Copy, Debug)]
pub enum Line {
    /// A script's header.
    Header(Profile, [u16; 4]),
    Step(Step),
    /// A step number and what the step gave.
    Expected(u32, Outcome),
}

/// The letters of the cases.
pub fn letters(profiles: Profiles) -> &'static [u8] {
    match profiles {
        Profiles::T => b"HLE",
        Profiles::Both => b"HLEh",
    }
}

impl Line {
    pub fn letter(&self) -> u8 {
        match self {
            Line::Header(Profile::T, _) => b'H',
            Line::Header(Profile::D, _) => b'h',
            Line::Step(_) => b'L',
            Line::Expected(..) => b'E',
        }
    }

    fn bytes(&self) -> Vec<u8> {
        let mut bytes = Vec::new();
        match self {
            Line::Header(profile, numbers) => put_header(&mut bytes, profile.letter(), *numbers),
            Line::Step(step) => put_step(&mut bytes, *step),
            Line::Expected(number, outcome) => put_outcome(&mut bytes, *number, outcome),
        }
        bytes
    }

    /// The place after the line, or refusal 20 or 23, which changes no byte.
    pub fn write(&self, lent: &mut [u8], place: usize) -> Result<usize, u8> {
        if let Line::Header(profile, [cores, first, second, _]) = *self {
            if !profile.counts_in_range(cores, first, second) {
                return Err(20);
            }
        }
        let line = self.bytes();
        let room = lent.get_mut(place..place + line.len()).ok_or(23)?;
        room.copy_from_slice(&line);
        Ok(place + line.len())
    }
}

/// Any number, of any width.
fn any_u32(rng: &mut Rng) -> u32 {
    match rng.below(4) {
        // Where one more digit begins.
        0 => 10u32.pow(rng.below(10) as u32) - rng.below(2) as u32,
        1 => rng.pick(&[0, 65_535, 65_536, 1_000_001, u32::MAX]),
        2 => rng.within(1, 1_000_000) as u32,
        _ => (rng.draw() >> rng.within(32, 63)) as u32,
    }
}

/// Core or unit number: most are small.
fn any_u16(rng: &mut Rng) -> u16 {
    match rng.below(4) {
        0 => rng.below(33) as u16,
        1 => rng.pick(&[
            0, 7, 8, 9, 10, 15, 16, 31, 32, 99, 100, 255, 256, 999, 1_000,
        ]),
        2 => rng.pick(&[9_999, 10_000, 32_767, 32_768, 65_534, 65_535]),
        _ => (rng.draw() >> rng.within(48, 63)) as u16,
    }
}

fn any_header(rng: &mut Rng) -> [u16; 4] {
    let mut counts = any_counts(rng);
    if rng.chance(25) {
        counts[rng.index(3)] = rng.pick(&[
            0, 0, 1, 8, 9, 9, 10, 32, 33, 33, 34, 264, 288, 32_769, 65_535,
        ]);
    }
    let [cores, first, second] = counts;
    let counter = if rng.chance(50) {
        edge_counter(rng)
    } else {
        any_u16(rng)
    };
    [cores, first, second, counter]
}

fn any_line(rng: &mut Rng, letter: u8) -> Line {
    match letter {
        b'H' => Line::Header(Profile::T, any_header(rng)),
        b'h' => {
            let mut numbers = any_header(rng);
            if rng.chance(80) {
                numbers[2] = 0;
            }
            Line::Header(Profile::D, numbers)
        }
        b'L' => Line::Step(Step {
            kind: rng.pick(&cases::KINDS),
            core: any_u16(rng),
            unit: any_u16(rng),
        }),
        _ => Line::Expected(
            any_u32(rng),
            Outcome {
                answer: rng.pick(&cases::ANSWERS),
                ticket: any_u16(rng),
                granted: rng.index(3),
                grants: [(); 2].map(|()| (any_u16(rng), any_u16(rng))),
            },
        ),
    }
}

/// Puts a case of this letter. The bytes lent suffice, exactly or with some to
/// spare; or are too few, often by one; or the place is at or past their end.
pub fn put_any(rng: &mut Rng, case: &mut Vec<u8>, letter: u8) {
    let line = any_line(rng, letter);
    let most = LENT_MAX as u64;
    let length = line.bytes().len() as u64;
    let front = rng.below(most.saturating_sub(length) + 1);
    let place = if rng.chance(30) { 0 } else { front };
    let enough = (place + length).min(most);
    let (room, place) = match rng.below(10) {
        0..=2 => (enough, place),
        3..=5 => (rng.within(enough, most), place),
        6 => (enough - 1, place),
        7 => (rng.below(enough), place),
        8 => {
            let room = rng.below(most + 1);
            (room, room + rng.below(3))
        }
        _ => (rng.below(most + 1), rng.draw() >> rng.within(48, 63)),
    };
    cases::put_line(case, room as u16, place as u16, &line);
}

#[cfg(test)]
mod tests {
    use super::*;
    use crate::table::Kind;

    #[test]
    fn lines_in_lent_bytes() {
        let step = Line::Step(Step {
            kind: Kind::Nest,
            core: 3,
            unit: 12,
        });
        let mut lent = *b"..........";
        assert_eq!(step.write(&mut lent, 2), Ok(9));
        assert_eq!(&lent, b"..N\t3\t12\n.");
        let mut lent = *b"........";
        for place in [2, 8, 9, 65_535] {
            assert_eq!(step.write(&mut lent, place), Err(23));
        }
        assert_eq!(&lent, b"........");
        assert_eq!(step.write(&mut lent, 1), Ok(8));

        let header = |cores| Line::Header(Profile::T, [cores, 8, 0, 10]);
        let mut lent = *b"..........";
        assert_eq!(header(33).write(&mut lent, 60), Err(20));
        assert_eq!(header(8).write(&mut lent, 0), Err(23));
        assert_eq!(&lent, b"..........");
        let mut lent = *b"...........";
        assert_eq!(header(8).write(&mut lent, 0), Ok(11));
        assert_eq!(&lent, b"T\t8\t8\t0\t10\n");
        let header = |second| Line::Header(Profile::D, [8, 8, second, 10]);
        for second in [1, 8, 9, 65_535] {
            assert_eq!(header(second).write(&mut lent, 60), Err(20));
        }
        assert_eq!(header(0).write(&mut lent, 1), Err(23));
        assert_eq!(header(0).write(&mut lent, 0), Ok(11));
        assert_eq!(&lent, b"D\t8\t8\t0\t10\n");

        let outcome = Outcome {
            answer: 20,
            ticket: 7,
            granted: 1,
            grants: [(65_535, 10), (1, 1)],
        };
        let mut lent = [b'.'; 30];
        assert_eq!(
            Line::Expected(u32::MAX, outcome).write(&mut lent, 0),
            Ok(27)
        );
        assert_eq!(&lent, b"4294967295\t20\t7\t1\t65535\t10\n...");
    }

    #[test]
    fn answers() {
        let outcome = Outcome {
            answer: 16,
            ticket: 0,
            granted: 0,
            grants: [(2, 3), (4, 5)],
        };
        for line in [
            Line::Header(Profile::T, [1, 1, 0, 9]),
            Line::Header(Profile::D, [1, 1, 0, 9]),
            Line::Step(Step {
                kind: Kind::Poll,
                core: 1,
                unit: 2,
            }),
            Line::Expected(5, outcome),
        ] {
            let (mut case, mut out) = (Vec::new(), Vec::new());
            cases::put_line(&mut case, 11, 1, &line);
            cases::answer_to(&case, &mut out);
            let expected = match line.letter() {
                b'H' => "H\t0\t11\t46\t84\t9\t49\t9\t49\t9\t48\t9\t57\t10\n",
                b'h' => "h\t0\t11\t46\t68\t9\t49\t9\t49\t9\t48\t9\t57\t10\n",
                b'L' => "L\t0\t5\t46\t80\t9\t49\t10\t46\t46\t46\t46\t46\t46\n",
                _ => "E\t0\t10\t46\t53\t9\t49\t54\t9\t48\t9\t48\t10\t46\n",
            };
            assert_eq!(String::from_utf8(out).unwrap(), expected);
        }
    }
}
