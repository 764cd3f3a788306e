//! Lines at units for the comparison: registers whose tickets have an oldest or
//! not, right and wrong next in line, and which kinds of them were put.

use std::collections::BTreeMap;

use crate::make::Profiles;
use crate::rng::Rng;
use crate::table::{compare, older, Comparison, Next, Register, Table, Unit, MAX_UNITS};
use crate::words;

const VALID: u32 = 1 << 16;
const FLAG: u32 = 1 << 17;

/// How often each kind was put: a case's letter and what its next in line is.
pub type Kinds = BTreeMap<String, u64>;

/// What is off with one next in line, where all else is as it has to be. `valid` is
/// that field alone; `missing` is one that is due and not there at all.
const OFF: [&str; 8] = [
    "ticket", "core", "valid", "held", "flagged", "missing", "younger", "nobody's",
];
/// Tickets that may have no oldest.
pub const DISORDERS: [&str; 3] = ["circle", "same", "opposite"];

/// The kinds that a long run has to put. Small letters are cases of profile D, of whose
/// images fewer kinds are asked: nothing in them is by the profile but 20.
pub fn needed(profiles: Profiles) -> Vec<String> {
    let mut kinds = Vec::new();
    if profiles == Profiles::Both {
        for letter in ["s", "m"] {
            kinds.push(format!("{letter} right"));
            kinds.extend(OFF.map(|off| format!("{letter} {off}")));
            kinds.extend(DISORDERS.map(|disorder| format!("{letter} {disorder}")));
        }
        let images = [
            "i right",
            "i without",
            "i missing",
            "i ticket",
            "i younger",
            "o right",
            "o without",
            "o missing",
            "o ticket",
            "o younger",
        ];
        kinds.extend(images.map(String::from));
    }
    for letter in ["S", "M", "O"] {
        kinds.push(format!("{letter} right"));
        kinds.extend(OFF.map(|off| format!("{letter} {off}")));
    }
    for disorder in DISORDERS {
        for letter in ["S", "M"] {
            kinds.push(format!("{letter} {disorder}"));
        }
        for letter in ["I", "O"] {
            kinds.push(format!("{letter} none, {disorder}"));
            kinds.push(format!("{letter} one, {disorder}"));
        }
    }
    let others = [
        "O right, another past the cores",
        "O right, wrong past the units",
        "O right by cores past",
        "O without",
        "I right",
        "I without",
        "I before",
        "I missing",
        "I ticket",
        "I bit 16 off",
        "I bit 17 for 16",
        "I both bits",
        "I flagged",
        "I younger",
        "I nobody's",
    ];
    kinds.extend(others.map(String::from));
    kinds
}

fn count(kinds: &mut Kinds, letter: char, kind: &str) {
    *kinds.entry(format!("{letter} {kind}")).or_default() += 1;
}

/// Sets every next in line as its registers say.
pub fn set_right(table: &mut Table) {
    for unit in &mut table.unit {
        unit.next = Next::of(&unit.registers);
    }
}

fn waiting(registers: &[Register]) -> Vec<usize> {
    let cores = 0..registers.len();
    cores.filter(|c| registers[*c].waits()).collect()
}

/// Three tickets: in a circle, or the first two the same or opposite. Those that are
/// opposite are now and then beside it, so that there is an oldest of the two.
pub fn disorder(rng: &mut Rng, base: u16, kind: &str) -> [u16; 3] {
    let near = rng.below(12) as u16;
    let third = rng.pick(&[near, near.wrapping_sub(6), 20_000, 45_000]);
    let [second, third] = match kind {
        "circle" => rng.pick(&[[21_845, 43_690], [43_690, 21_845], [32_767, 32_769]]),
        "same" => [0, third],
        _ => [rng.pick(&[32_768, 32_768, 32_767, 32_769]), third],
    };
    [base, base.wrapping_add(second), base.wrapping_add(third)]
}

/// The registers of a unit's cores: made one by one, so that their tickets lie
/// anywhere; then moved close to each other, or some of them into disorder.
pub fn any(rng: &mut Rng, cores: usize, one: fn(&mut Rng) -> Register) -> Vec<Register> {
    let mut registers: Vec<Register> = (0..cores).map(|_| one(rng)).collect();
    let anywhere = rng.draw() as u16;
    let base = rng.pick(&[0, 1, 32_767, 32_768, 65_535, anywhere]);
    let way = rng.below(10);
    if way < 8 {
        for register in registers.iter_mut().filter(|register| register.valid) {
            register.ticket = base.wrapping_add(rng.below(2_000) as u16);
        }
    }
    if way < 4 && cores > 1 {
        let from = rng.index(cores);
        let kind = rng.pick(&DISORDERS);
        let tickets = disorder(rng, base, kind);
        let several = rng.within(2, 3).min(cores as u64) as usize;
        for (at, ticket) in tickets[..several].iter().enumerate() {
            registers[(from + at) % cores] = Register {
                ticket: *ticket,
                valid: true,
                flag: false,
            };
        }
    }
    registers
}

/// Number of ways in which a next in line is wrong, in the order of `OFF`.
pub const WRONG: u64 = OFF.len() as u64;

/// A next in line that is wrong for these registers, where they have a place for it.
pub fn wrong(rng: &mut Rng, registers: &[Register], way: u64) -> Option<Next> {
    let due = Next::of(registers);
    let shown = |c: usize| Next {
        ticket: registers[c].ticket,
        core: c as u16,
        valid: true,
        held: due.held,
    };
    let line = waiting(registers);
    let mut next = due;
    match OFF[way as usize] {
        "ticket" if due.valid => {
            let bit = 1 << rng.below(16);
            let one_of = [1, 65_535, 32_768, bit];
            next.ticket = due.ticket.wrapping_add(rng.pick(&one_of));
        }
        "core" if due.valid => {
            let past = rng.pick(&[32, 255, 256, 65_535]);
            let other = rng.pick(&[
                due.core ^ 1,
                due.core ^ 2,
                due.core ^ 4,
                due.core ^ 8,
                due.core ^ 16,
                past,
            ]);
            next.core = other;
        }
        "valid" => next.valid = !due.valid,
        "held" => next.held = !due.held,
        "flagged" => {
            let flags = 0..registers.len();
            let flags: Vec<usize> = flags.filter(|c| registers[*c].flag).collect();
            if flags.is_empty() {
                return None;
            }
            next = shown(rng.pick(&flags));
        }
        "missing" if due.valid => {
            next = Next {
                held: due.held,
                ..Next::default()
            }
        }
        "younger" => {
            let others = line.into_iter().filter(|c| shown(*c) != due);
            let others: Vec<usize> = others.collect();
            if others.is_empty() {
                return None;
            }
            next = shown(rng.pick(&others));
        }
        "nobody's" if line.is_empty() => {
            next.ticket = rng.pick(&[1, 2, 256, 32_768, 65_535]);
            next.core = rng.pick(&[0, 1, 7, 8, 31, 32, 65_535]);
            next.valid = rng.chance(70);
        }
        _ => return None,
    }
    Some(next)
}

/// A word that is mostly not the one due after the words of these registers.
pub fn wrong_word(rng: &mut Rng, registers: &[Register], due: u32) -> u32 {
    let some = |rng: &mut Rng, fits: fn(&Register) -> bool| {
        let found: Vec<Register> = registers.iter().filter(|r| fits(r)).copied().collect();
        (!found.is_empty()).then(|| rng.pick(&found).ticket as u32 | VALID)
    };
    match rng.below(10) {
        0 => 0,
        1 => due ^ 1 << rng.below(16),
        2 => due ^ VALID,
        3 => due ^ FLAG,
        4 => due ^ VALID ^ FLAG,
        5 => due ^ 1 << rng.below(32),
        6 => some(rng, |register| register.flag).unwrap_or(0),
        _ => some(rng, Register::waits).unwrap_or(VALID),
    }
}

/// The disorders among the tickets that wait.
fn disorders(registers: &[Register]) -> Vec<&'static str> {
    let line = waiting(registers);
    let ticket = |c: &usize| registers[*c].ticket;
    let (mut circle, mut same, mut opposite) = (false, false, false);
    for (at, a) in line.iter().enumerate() {
        for b in &line[..at] {
            same |= compare(ticket(a), ticket(b)) == Comparison::Same;
            opposite |= compare(ticket(a), ticket(b)) == Comparison::Opposite;
            for c in &line {
                let [a, b, c] = [a, b, c].map(ticket);
                circle |= older(a, b) && older(b, c) && older(c, a);
                circle |= older(b, a) && older(a, c) && older(c, b);
            }
        }
    }
    let found = DISORDERS.into_iter().zip([circle, same, opposite]);
    found
        .filter(|(_, met)| *met)
        .map(|(name, _)| name)
        .collect()
}

/// What is off with a unit's next in line; None where it is right.
fn off(next: Next, registers: &[Register]) -> Option<&'static str> {
    let due = Next::of(registers);
    let none = Next {
        held: due.held,
        ..Next::default()
    };
    let register = registers.get(next.core as usize);
    let shown = register.filter(|r| next.valid && r.valid && r.ticket == next.ticket);
    let differ = [
        next.ticket != due.ticket,
        next.core != due.core,
        next.valid != due.valid,
        next.held != due.held,
    ];
    Some(match differ {
        [false, false, false, false] => return None,
        [true, false, false, false] => "ticket",
        [false, true, false, false] => "core",
        [false, false, true, false] => "valid",
        [false, false, false, true] => "held",
        [_, _, _, true] => "several",
        _ => match shown {
            Some(register) if register.flag => "flagged",
            Some(_) if due.valid => "younger",
            Some(_) => "one of",
            None if next == none => "missing",
            None if waiting(registers).is_empty() => "nobody's",
            None => "several",
        },
    })
}

/// Counts a table that is sound but for its next in line, or whose tickets are in
/// disorder.
pub fn count_table(kinds: &mut Kinds, letter: char, table: &Table) {
    let mut right = table.clone();
    set_right(&mut right);
    if !right.sound() {
        for unit in &table.unit {
            for disorder in disorders(&unit.registers) {
                count(kinds, letter, disorder);
            }
        }
        return;
    }
    let units = table.unit.iter();
    let wrong: Vec<&str> = units.filter_map(|u| off(u.next, &u.registers)).collect();
    match wrong[..] {
        [] if table.unit.iter().any(|unit| unit.next.valid) => count(kinds, letter, "right"),
        [] => count(kinds, letter, "nobody waits"),
        [one] => count(kinds, letter, one),
        _ => count(kinds, letter, "several"),
    }
}

/// Counts units whose registers are good and whose next in line, one at most, is off.
fn count_lines<'a>(
    kinds: &mut Kinds,
    letter: char,
    lines: impl Iterator<Item = (&'a [Register], Option<&'static str>)>,
) {
    let lines: Vec<(&[Register], Option<&str>)> = lines.collect();
    let wrong: Vec<&(&[Register], Option<&str>)> =
        lines.iter().filter(|(_, off)| off.is_some()).collect();
    match wrong[..] {
        [] => {
            count(kinds, letter, "right");
            for (registers, _) in &lines {
                if !Next::of(registers).valid {
                    for disorder in disorders(registers) {
                        count(kinds, letter, &format!("none, {disorder}"));
                    }
                }
            }
        }
        [(registers, Some("one of"))] => {
            for disorder in disorders(registers) {
                count(kinds, letter, &format!("one, {disorder}"));
            }
        }
        [(_, Some(off))] => count(kinds, letter, off),
        _ => count(kinds, letter, "several"),
    }
}

/// What is off with the word after those of the registers; None where it is right.
fn word_off(word: u32, registers: &[Register]) -> Option<&'static str> {
    let due = words::next_word(&Next::of(registers));
    let line = waiting(registers);
    let shown = |register: &Register| word == register.ticket as u32 | VALID;
    Some(match word ^ due {
        0 => return None,
        _ if word == 0 => "missing",
        VALID if due != 0 => "bit 16 off",
        FLAG if due != 0 => "both bits",
        x if x == VALID | FLAG && due != 0 => "bit 17 for 16",
        _ if line.iter().any(|c| shown(&registers[*c])) => match due {
            0 => "one of",
            _ => "younger",
        },
        _ if registers.iter().any(|r| r.flag && shown(r)) => "flagged",
        _ if line.is_empty() => "nobody's",
        x if x < VALID => "ticket",
        _ => "other",
    })
}

/// Counts an image to read. The counts have to be in range.
pub fn count_reading(
    kinds: &mut Kinds,
    letter: char,
    [cores, first, second]: [u16; 3],
    image: &[u32],
) {
    let (cores, units) = (cores as usize, (first + second) as usize);
    let read = |words: &[u32]| -> Option<Vec<Register>> {
        words.iter().map(|word| words::unpack(*word)).collect()
    };
    if image.len() == units * cores && read(image).is_some() {
        return count(kinds, letter, "without");
    }
    if image.len() != units * (cores + 1) {
        return;
    }
    let split = |first: bool| -> Option<Vec<(Vec<Register>, Option<&'static str>)>> {
        let chunks = image.chunks_exact(cores + 1);
        let parts = chunks.map(|chunk| match first {
            true => (chunk[0], &chunk[1..]),
            false => (chunk[cores], &chunk[..cores]),
        });
        let lines = parts.map(|(word, words)| {
            let registers = read(words)?;
            let off = word_off(word, &registers);
            Some((registers, off))
        });
        lines.collect()
    };
    let right = |lines: &[(Vec<Register>, Option<&str>)]| lines.iter().all(|l| l.1.is_none());
    let after = split(false);
    if !after.as_deref().is_some_and(right) && split(true).as_deref().is_some_and(right) {
        return count(kinds, letter, "before");
    }
    if let Some(lines) = after {
        count_lines(kinds, letter, lines.iter().map(|(r, off)| (&r[..], *off)));
    }
}

/// Counts units to write. The counts have to be in range.
pub fn count_writing(
    kinds: &mut Kinds,
    letter: char,
    [cores, first, second]: [u16; 3],
    room: u16,
    units: &[Unit; MAX_UNITS],
) {
    let (cores, count_of) = (cores as usize, (first + second) as usize);
    let inside = &units[..count_of];
    let bad = |register: &Register| words::pack(*register).is_none();
    if inside
        .iter()
        .any(|unit| unit.registers[..cores].iter().any(bad))
    {
        return;
    }
    let lines = inside.iter().map(|unit| {
        let registers = &unit.registers[..cores];
        (registers, off(unit.next, registers))
    });
    let right = lines.clone().all(|(_, off)| off.is_none());
    if right && room as usize == count_of * cores {
        return count(kinds, letter, "without");
    }
    if room as usize != count_of * (cores + 1) {
        return;
    }
    let by_all = |unit: &Unit| unit.next == Next::of(&unit.registers);
    if right && !inside.iter().all(by_all) {
        count(kinds, letter, "right, another past the cores");
    }
    if right && !units[count_of..].iter().all(by_all) {
        count(kinds, letter, "right, wrong past the units");
    }
    if !right && inside.iter().all(by_all) {
        return count(kinds, letter, "right by cores past");
    }
    count_lines(kinds, letter, lines);
}
