//! Register words and table images.

use crate::table::{Next, Profile, Register, Unit, MAX_UNITS};

const VALID: u32 = 1 << 16;
const FLAG: u32 = 1 << 17;

/// None is refusal 30.
pub fn unpack(word: u32) -> Option<Register> {
    if word == 0 {
        return Some(Register::default());
    }
    if word & VALID == 0 || word & !(0xffff | VALID | FLAG) != 0 {
        return None;
    }
    Some(Register {
        ticket: word as u16,
        valid: true,
        flag: word & FLAG != 0,
    })
}

/// None is refusal 30.
pub fn pack(register: Register) -> Option<u32> {
    if !register.valid {
        return (register == Register::default()).then_some(0);
    }
    Some(register.ticket as u32 | VALID | if register.flag { FLAG } else { 0 })
}

/// Ticket and validity; the core and whether the unit is held do not show.
pub fn next_word(next: &Next) -> u32 {
    if next.valid {
        next.ticket as u32 | VALID
    } else {
        0
    }
}

/// Number of units and of words of an image, or refusal 20.
fn extent(profile: Profile, counts: [u16; 3]) -> Result<(usize, usize), u8> {
    let [cores, first_class, second_class] = counts;
    if !profile.counts_in_range(cores, first_class, second_class) {
        return Err(20);
    }
    let units = (first_class + second_class) as usize;
    Ok((units, units * (cores as usize + 1)))
}

/// The units' registers and who is next at each; what is past the counts stays
/// blank.
pub fn read_image(
    profile: Profile,
    counts: [u16; 3],
    words: &[u32],
) -> Result<[Unit; MAX_UNITS], u8> {
    let (_, length) = extent(profile, counts)?;
    if words.len() != length {
        return Err(30);
    }
    let cores = counts[0] as usize;
    let mut units = [Unit::default(); MAX_UNITS];
    for (unit, words) in units.iter_mut().zip(words.chunks_exact(cores + 1)) {
        for (register, word) in unit.registers.iter_mut().zip(&words[..cores]) {
            *register = unpack(*word).ok_or(30)?;
        }
        unit.next = Next::of(&unit.registers[..cores]);
        if words[cores] != next_word(&unit.next) {
            return Err(30);
        }
    }
    Ok(units)
}

/// Fills `room`, or leaves it as it was on a refusal.
pub fn write_image(
    profile: Profile,
    counts: [u16; 3],
    units: &[Unit; MAX_UNITS],
    room: &mut [u32],
) -> Result<(), u8> {
    let (count, length) = extent(profile, counts)?;
    let cores = counts[0] as usize;
    let writable = |unit: &Unit| {
        let registers = &unit.registers[..cores];
        registers.iter().all(|register| pack(*register).is_some())
            && unit.next == Next::of(registers)
    };
    if room.len() != length || !units[..count].iter().all(writable) {
        return Err(30);
    }
    for (words, unit) in room.chunks_exact_mut(cores + 1).zip(units) {
        for (word, register) in words[..cores].iter_mut().zip(&unit.registers) {
            *word = pack(*register).ok_or(30)?;
        }
        words[cores] = next_word(&unit.next);
    }
    Ok(())
}

#[cfg(test)]
mod tests {
    use super::*;
    use Profile::{D, T};

    #[test]
    fn words() {
        for bad in [131_072, 5, 262_144, 131_077, 327_680, u32::MAX, 1 << 31] {
            assert_eq!(unpack(bad), None, "{bad}");
        }
        assert_eq!(unpack(0), Some(Register::default()));
        assert_eq!(
            unpack(65_536),
            Some(Register {
                ticket: 0,
                valid: true,
                flag: false
            })
        );
        assert_eq!(
            unpack(262_143),
            Some(Register {
                ticket: 65_535,
                valid: true,
                flag: true
            })
        );
        for word in 0..300_000 {
            assert!(unpack(word).map_or(true, |register| pack(register) == Some(word)));
        }
        assert_eq!(
            pack(Register {
                ticket: 5,
                valid: false,
                flag: false
            }),
            None
        );
        assert_eq!(
            pack(Register {
                ticket: 0,
                valid: false,
                flag: true
            }),
            None
        );
    }

    fn waiting(ticket: u16) -> Register {
        Register {
            ticket,
            valid: true,
            flag: false,
        }
    }

    fn holding(ticket: u16) -> Register {
        Register {
            flag: true,
            ..waiting(ticket)
        }
    }

    /// Document 01's run after its tenth step: at unit 0 core 1 holds with ticket 1
    /// and core 2 waits with 0; at unit 1 core 0 holds with 65535 and core 1 waits,
    /// with 0 by inheritance.
    const RUN: [u32; 8] = [0, 196_609, 65_536, 65_536, 262_143, 65_536, 0, 65_536];

    #[test]
    fn the_run() {
        let units = read_image(T, [3, 1, 1], &RUN).unwrap();
        assert_eq!(
            units[0].registers[..3],
            [Register::default(), holding(1), waiting(0)]
        );
        assert_eq!(
            units[1].registers[..3],
            [holding(65_535), waiting(0), Register::default()]
        );
        let next = |core| Next {
            ticket: 0,
            core,
            valid: true,
            held: true,
        };
        assert_eq!((units[0].next, units[1].next), (next(2), next(1)));
        assert_eq!(units[2..], [Unit::default(); 14]);
        let mut room = [7; 8];
        assert_eq!(write_image(T, [3, 1, 1], &units, &mut room), Ok(()));
        assert_eq!(room, RUN);
        // Each word changed in each bit. A holder's ticket may be any, and core 1 may
        // wait with ticket 1 behind core 2; with 65535 core 0 were ahead of core 1.
        for at in 0..8 {
            for bit in 0..32 {
                let mut words = RUN;
                words[at] ^= 1 << bit;
                let good = matches!((at, bit), (1 | 4, 0..=15) | (1, 17));
                let read = read_image(T, [3, 1, 1], &words);
                assert_eq!(read.is_ok(), good, "word {at} bit {bit}");
                assert!(good || read == Err(30));
            }
        }
        // The words without the last of each unit.
        let without = [0, 196_609, 65_536, 262_143, 65_536, 0];
        assert_eq!(read_image(T, [3, 1, 1], &without), Err(30));
        // One unit with its last word, without it, and with it before the cores'.
        let read = |words: &[u32]| read_image(T, [2, 1, 0], words).is_ok();
        assert!(read(&[65_541, 196_612, 65_541]));
        assert!(!read(&[65_541, 196_612]));
        assert!(!read(&[65_541, 65_541, 196_612]));
    }

    /// One unit's words for the cores, and the one that has to come after them.
    #[test]
    fn next_words() {
        let waits = |tickets: &[u32]| tickets.iter().map(|t| t | VALID).collect::<Vec<u32>>();
        for (cores, next) in [
            (vec![0, 0, 0], 0),
            (waits(&[7]), 65_543),
            (vec![196_608, 0, 0], 0),
            // Older than all, by whichever place.
            (waits(&[5, 6, 7]), 65_541),
            (waits(&[7, 5, 6]), 65_541),
            (waits(&[6, 7, 5]), 65_541),
            (waits(&[0, 65_535, 1]), 131_071),
            (waits(&[32_767, 0]), 65_536),
            // The oldest has its flag set.
            (vec![196_613, 65_542, 65_543], 65_542),
            // Held twice; an image need not be of a sound table.
            (vec![196_613, 196_614, 65_543], 65_543),
            // The same, and half the circle apart: no one is older.
            (waits(&[5, 5]), 0),
            (waits(&[0, 32_768]), 0),
            (waits(&[5, 32_773, 6]), 0),
            (waits(&[6, 5, 5]), 0),
            (waits(&[10, 32_778, 1]), 0),
            // A third that is older than the two that are the same.
            (waits(&[6, 5, 6]), 65_541),
            // Each older than the one after it, and the last than the first.
            (waits(&[0, 21_845, 43_690]), 0),
            (waits(&[43_690, 21_845, 0]), 0),
            // Without one of the three.
            (vec![65_536, 65_536 + 21_845, 196_608 + 43_690], 65_536),
            (
                vec![65_536, 196_608 + 21_845, 65_536 + 43_690],
                65_536 + 43_690,
            ),
            // Older than two of a circle, not than the third.
            (waits(&[0, 21_845, 43_690, 65_535]), 0),
        ] {
            let count = cores.len() as u16;
            for other in [0, 1, 5, 65_536, 65_541, 65_542, 131_072, 196_608, 1 << 18]
                .into_iter()
                .chain(cores.clone())
                .chain([next, next ^ FLAG, next ^ VALID, next ^ VALID ^ FLAG])
            {
                let words = [&cores[..], &[other]].concat();
                let read = read_image(T, [count, 1, 0], &words);
                assert_eq!(read.is_ok(), other == next, "{words:?}");
                if let Ok(units) = read {
                    let mut room = vec![7; words.len()];
                    assert_eq!(write_image(T, [count, 1, 0], &units, &mut room), Ok(()));
                    assert_eq!(room, words);
                }
            }
        }
    }

    #[test]
    fn images() {
        let words = [
            65_536, 65_537, 65_536, 65_538, 0, 65_538, 65_540, 65_541, 65_540,
        ];
        let units = read_image(T, [2, 1, 2], &words).unwrap();
        assert_eq!(units[1].registers[..2], [waiting(2), Register::default()]);
        let next = Next {
            ticket: 4,
            core: 0,
            valid: true,
            held: false,
        };
        assert_eq!(units[2].next, next);
        let mut room = [7; 9];
        assert_eq!(write_image(T, [2, 1, 2], &units, &mut room), Ok(()));
        assert_eq!(room, words);

        assert_eq!(read_image(T, [2, 1, 2], &words[..8]), Err(30));
        assert_eq!(read_image(T, [2, 1, 9], &words), Err(20));
        assert_eq!(read_image(T, [0, 1, 1], &[]), Err(20));
        assert_eq!(read_image(D, [2, 1, 2], &words), Err(20));
        assert_eq!(read_image(D, [2, 3, 0], &words), Ok(units));
        let mut bad = words;
        bad[7] = 5;
        assert_eq!(read_image(T, [2, 1, 2], &bad), Err(30));

        let mut past = units;
        past[0][2] = holding(65_535); // past the counts
        past[3][0].ticket = 9;
        past[4].next.core = 3;
        assert_eq!(write_image(T, [2, 1, 2], &past, &mut room), Ok(()));
        assert_eq!(room, words);
        let mut room = [7; 9];
        past[0].next = Next::of(&past[0].registers); // of a core past the counts
        assert_eq!(write_image(T, [2, 1, 2], &past, &mut room), Err(30));
        let mut ill = units;
        ill[1][1].ticket = 1;
        assert_eq!(write_image(T, [2, 1, 2], &ill, &mut room), Err(30));
        for change in [
            |next: &mut Next| next.ticket = 5,
            |next: &mut Next| next.core = 1,
            |next: &mut Next| next.valid = false,
            |next: &mut Next| next.held = true,
            |next: &mut Next| *next = Next::default(),
        ] {
            let mut wrong = units;
            change(&mut wrong[2].next);
            assert_eq!(write_image(T, [2, 1, 2], &wrong, &mut room), Err(30));
        }
        assert_eq!(room, [7; 9]);
        assert_eq!(write_image(T, [33, 1, 2], &units, &mut room), Err(20));
        assert_eq!(write_image(D, [2, 1, 2], &units, &mut room), Err(20));
        assert_eq!(write_image(T, [2, 1, 2], &units, &mut room[..8]), Err(30));
        assert_eq!(write_image(T, [2, 1, 2], &units, &mut [7; 6]), Err(30));
    }
}
