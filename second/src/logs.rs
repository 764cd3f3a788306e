//! Logs of made scripts: as a perfect part shows them, and damaged.

use crate::damage;
use crate::log::log_of;
use crate::make::{Maker, Profiles};
use crate::rng::Rng;
use crate::script::put_step;
use crate::table::{Kind as Letter, Profile, Step, Table};
use crate::translate::translate;

#[derive(Clone, Copy, PartialEq, Eq, Debug)]
pub enum Kind {
    Whole,
    ByOne,
    AnyNumber,
    FieldRemoved,
    FieldAdded,
    /// The step without what the part showed, or not even all of the step.
    StepAlone,
    LinesSwapped,
    LineDoubled,
    LineDropped,
    LineCut,
    /// Many fields, about as many as the longest line can have.
    LongLine,
    LongHeader,
    /// As scripts are damaged.
    Script(damage::Kind),
    Several,
}

/// The damages that scripts do not have.
const KINDS: [Kind; 11] = {
    use Kind::*;
    [
        ByOne,
        AnyNumber,
        FieldRemoved,
        FieldAdded,
        StepAlone,
        LinesSwapped,
        LineDoubled,
        LineDropped,
        LineCut,
        LongLine,
        LongHeader,
    ]
};

/// A log has at most so many bytes in a case.
const BYTES_MAX: usize = 65_535;
/// Steps of the longest logs: so many often pass that.
const STEPS_LONG: u64 = 5_000;

/// Every number of grants, refused steps, and polls answered 1 and 2.
const SAMPLE: &[u8] = b"T\t3\t1\t1\t65535\nR\t0\t0\t0\t65535\t1\t0\t0\nP\t0\t1\t65535\t0\n\
    N\t0\t1\t0\t65535\t1\t1\t0\nR\t1\t0\t0\t0\t0\nR\t2\t1\t0\t1\t0\nP\t2\t2\t1\t0\n\
    C\t10\t10\t0\t0\nI\t0\t0\t65535\t2\t0\t1\t1\t2\n";

/// The same for profile D: one and two dropped before a grant and without one, and
/// cores that come back, in line or with a new ticket.
const SAMPLE_D: &[u8] = b"D\t4\t1\t0\t65534\nR\t0\t0\t0\t65534\t1\t0\t0\nR\t1\t0\t0\t65535\t0\n\
    R\t2\t0\t0\t0\t0\nR\t3\t0\t0\t1\t0\nI\t1\t0\t65535\t0\nP\t3\t2\t1\t0\nI\t2\t0\t0\t0\n\
    I\t0\t0\t65534\t1\t0\t3\nC\t1\t0\t2\t0\nI\t1\t0\t2\t0\nC\t1\t0\t2\t0\nI\t1\t0\t2\t0\n\
    P\t3\t1\t1\t0\nI\t3\t14\t0\t0\nL\t3\t0\t1\t0\nC\t0\t0\t3\t1\t0\t0\nC\t3\t12\t0\t0\n";

/// The log of this number in the list of single damages to the sample, or to both
/// samples by turns. None past the list.
pub fn listed(number: usize, profiles: Profiles) -> Option<(Kind, Vec<u8>)> {
    let (kind, log) = damage::listed_of([SAMPLE, SAMPLE_D], number, profiles)?;
    Some((Kind::Script(kind), log))
}

/// A log of a few lines, most of them damaged.
pub fn small(rng: &mut Rng, profiles: Profiles) -> (Kind, Vec<u8>) {
    let log = if rng.chance(30) {
        let steps = rng.within(0, 5);
        made(rng, steps, true, profiles)
    } else {
        let steps = rng.within(0, 12);
        made(rng, steps, false, profiles)
    };
    damaged(rng, log, 12, profiles)
}

/// A log of many lines, though of at most so many steps; every second is whole.
pub fn long(rng: &mut Rng, most: u64, profiles: Profiles) -> (Kind, Vec<u8>) {
    let steps = rng.within(1, STEPS_LONG).min(most);
    let mut log = made(rng, steps, false, profiles);
    if log.len() > BYTES_MAX {
        // With its last line whole or cut off.
        log.truncate(BYTES_MAX);
        if rng.chance(80) {
            let end = log.iter().rposition(|byte| *byte == b'\n');
            log.truncate(end.expect("a header") + 1);
        }
    }
    let (kind, mut log) = damaged(rng, log, 50, profiles);
    log.truncate(BYTES_MAX);
    (kind, log)
}

/// The log of a made script, which may open with a step that gives two grants, in D
/// with one that drops cores.
fn made(rng: &mut Rng, steps: u64, opening: bool, profiles: Profiles) -> Vec<u8> {
    let mut maker = Maker::any(Rng::new(rng.draw(), 0), profiles);
    let mut script = Vec::new();
    maker.put_header(&mut script);
    if opening {
        let steps = match maker.table.profile {
            Profile::T => two_grants(rng, &maker.table),
            Profile::D => drops(rng, &maker.table),
        };
        for step in steps {
            maker.make(step);
            put_step(&mut script, step);
        }
    }
    for _ in 0..steps {
        maker.put_step(&mut script);
    }
    let mut columns = Vec::new();
    translate(&script[..], &mut columns).expect("memory does not fail");
    log_of(&script, &columns)
}

/// A core comes to stand at two units, for which others wait, and gives them up.
/// Nothing where the table has too few cores or no second-class unit.
fn two_grants(rng: &mut Rng, table: &Table) -> Vec<Step> {
    if table.cores < 3 || table.second_class == 0 {
        return Vec::new();
    }
    let core = |number: u64| (number % table.cores as u64) as u16;
    let from = rng.below(table.cores as u64);
    let (a, b, c) = (core(from), core(from + 1), core(from + 2));
    let first = rng.below(table.first_class as u64) as u16;
    let second = table.first_class + rng.below(table.second_class as u64) as u16;
    let step = |kind, core, unit| Step { kind, core, unit };
    let mut steps = vec![
        step(Letter::Request, a, first),
        step(Letter::Poll, a, 0),
        step(Letter::Nest, a, second),
        step(Letter::Request, b, first),
        step(Letter::Request, c, second),
    ];
    if rng.chance(50) {
        steps.push(step(Letter::Interrupt, a, 0));
    } else {
        steps.extend([step(Letter::Poll, a, 0), step(Letter::Leave, a, 0)]);
    }
    steps
}

/// Cores stand in line at a unit, and all but the last or all go away; then the one
/// that has the unit gives it up, and some come back.
fn drops(rng: &mut Rng, table: &Table) -> Vec<Step> {
    let step = |kind, core: u64, unit| Step {
        kind,
        core: (core % table.cores as u64) as u16,
        unit,
    };
    let from = rng.below(table.cores as u64);
    let count = rng.within(0, 3).min(table.cores as u64 - 1);
    let unit = rng.below(table.first_class as u64) as u16;
    let requests = (0..=count).map(|c| step(Letter::Request, from + c, unit));
    let mut steps: Vec<Step> = requests.collect();
    let away = if rng.chance(70) { count } else { count + 1 };
    steps.extend((1..away).map(|c| step(Letter::Interrupt, from + c, 0)));
    if rng.chance(50) {
        steps.push(step(Letter::Interrupt, from, 0));
    } else {
        let ends = [Letter::Poll, Letter::Leave];
        steps.extend(ends.map(|kind| step(kind, from, 0)));
    }
    let back = rng.below(away + 1);
    steps.extend((0..back).map(|c| step(Letter::Continue, from + c, 0)));
    steps
}

/// Leaves the log whole so many times in a hundred.
fn damaged(rng: &mut Rng, mut log: Vec<u8>, whole: u64, profiles: Profiles) -> (Kind, Vec<u8>) {
    let kind = if rng.chance(whole) {
        Kind::Whole
    } else if rng.chance(5) {
        Kind::Several
    } else {
        any_kind(rng)
    };
    if kind == Kind::Several {
        for _ in 0..rng.within(2, 4) {
            let kind = any_kind(rng);
            damage(rng, kind, &mut log, profiles);
        }
    } else {
        damage(rng, kind, &mut log, profiles);
    }
    profiles.keep(&mut log);
    (kind, log)
}

/// One kind of damage alone.
fn any_kind(rng: &mut Rng) -> Kind {
    if rng.chance(65) {
        return rng.pick(&KINDS);
    }
    loop {
        let kind = rng.pick(&damage::KINDS);
        if kind != damage::Kind::Several {
            return Kind::Script(kind);
        }
    }
}

/// Does nothing where the log has no place for this kind of damage.
fn damage(rng: &mut Rng, kind: Kind, log: &mut Vec<u8>, profiles: Profiles) {
    match kind {
        Kind::Whole | Kind::Several => {}
        Kind::ByOne | Kind::AnyNumber | Kind::FieldRemoved | Kind::FieldAdded | Kind::StepAlone => {
            if let Some((from, to)) = any_line(rng, log) {
                let fields = log[from..to].split(|byte| *byte == b'\t');
                let mut fields: Vec<Vec<u8>> = fields.map(|field| field.to_vec()).collect();
                change_fields(rng, kind, &mut fields);
                damage::put(log, from, to, &fields.join(&b'\t'));
            }
        }
        Kind::LinesSwapped | Kind::LineDoubled | Kind::LineDropped => {
            let lines = log.split_inclusive(|byte| *byte == b'\n');
            let mut lines: Vec<&[u8]> = lines.collect();
            move_lines(rng, kind, &mut lines);
            *log = lines.concat();
        }
        Kind::LineCut => {
            if let Some((from, to)) = any_line(rng, log) {
                let at = from + rng.index(to - from + 1);
                // Its end stands, or goes too.
                let to = to + rng.chance(30) as usize;
                damage::put(log, at, to.min(log.len()), b"");
            }
        }
        Kind::LongLine => put_long_line(rng, log),
        Kind::LongHeader => put_long_header(rng, log),
        Kind::Script(kind) => damage::damage(rng, kind, log, profiles),
    }
}

/// Where some line after the header begins, and its end: often one of the last, or
/// the longest, which shows grants.
fn any_line(rng: &mut Rng, log: &[u8]) -> Option<(usize, usize)> {
    let mut found = Vec::new();
    let mut from = 0;
    for line in log.split_inclusive(|byte| *byte == b'\n') {
        let length = line.strip_suffix(b"\n").unwrap_or(line).len();
        found.push((from, from + length));
        from += line.len();
    }
    let steps = found.get(1..).filter(|steps| !steps.is_empty())?;
    Some(match rng.below(4) {
        0 => *steps.iter().max_by_key(|(from, to)| to - from)?,
        1 => steps[steps.len() - 1 - rng.index(steps.len().min(8))],
        _ => rng.pick(steps),
    })
}

/// Fields of the step that begins the line, if it begins with one.
fn step_fields(fields: &[Vec<u8>]) -> usize {
    let two = matches!(&fields[0][..], b"R" | b"N");
    fields.len().min(if two { 3 } else { 2 })
}

/// Any number, small ones often.
fn any_number(rng: &mut Rng) -> u16 {
    match rng.below(4) {
        0 => rng.below(3) as u16,
        1 => rng.below(17) as u16,
        2 => rng.pick(&[
            99, 100, 255, 256, 257, 32_767, 32_768, 65_279, 65_534, 65_535,
        ]),
        _ => rng.draw() as u16,
    }
}

/// Most changes are to what the part showed, not to the step.
fn change_fields(rng: &mut Rng, kind: Kind, fields: &mut Vec<Vec<u8>>) {
    let step = step_fields(fields);
    let from = if rng.chance(85) { step } else { 1 };
    let at = from + rng.index(fields.len().saturating_sub(from).max(1));
    let bytes = |number: u16| number.to_string().into_bytes();
    match kind {
        Kind::ByOne | Kind::AnyNumber => {
            let Some(field) = fields.get_mut(at) else {
                return;
            };
            let text = std::str::from_utf8(field).unwrap_or_default();
            let number: u16 = text.parse().unwrap_or_default();
            *field = bytes(match kind {
                Kind::AnyNumber => any_number(rng),
                _ if rng.chance(50) => number.wrapping_add(1),
                _ => number.wrapping_sub(1),
            });
        }
        Kind::FieldRemoved if rng.chance(50) => fields.truncate(at),
        Kind::FieldRemoved => {
            if at < fields.len() {
                fields.remove(at);
            }
        }
        Kind::FieldAdded => {
            let at = if rng.chance(60) { fields.len() } else { at };
            for _ in 0..rng.pick(&[1, 1, 2, 4]) {
                fields.insert(at.min(fields.len()), bytes(any_number(rng)));
            }
        }
        _ => fields.truncate(if rng.chance(60) {
            step
        } else {
            rng.within(1, step as u64) as usize
        }),
    }
}

/// The header is moved too now and then.
fn move_lines(rng: &mut Rng, kind: Kind, lines: &mut Vec<&[u8]>) {
    let from = !rng.chance(5) as usize;
    if lines.len() <= from {
        return;
    }
    let at = from + rng.index(lines.len() - from);
    match kind {
        Kind::LinesSwapped => {
            let next = (at + 1).min(lines.len() - 1);
            let any = from + rng.index(lines.len() - from);
            lines.swap(at, if rng.chance(70) { next } else { any });
        }
        Kind::LineDoubled => lines.insert(at, lines[at]),
        _ => {
            lines.remove(at);
        }
    }
}

/// Adds numbers until the line has so many bytes, its end not counted.
fn fill(rng: &mut Rng, line: &mut Vec<u8>, length: usize) {
    while line.len() + 1 < length {
        let left = length - line.len();
        // A tab and a number; one byte left over would be a tab alone.
        let sizes: Vec<usize> = (2..=left.min(6)).filter(|size| left - size != 1).collect();
        let number = match rng.pick(&sizes) {
            2 => rng.below(10),
            3 => rng.within(10, 99),
            4 => rng.within(100, 999),
            5 => rng.within(1_000, 9_999),
            _ => rng.within(10_000, 65_535),
        };
        line.push(b'\t');
        line.extend_from_slice(number.to_string().as_bytes());
    }
}

/// A line that goes on with many numbers, to about the greatest length, in its
/// place or at the end; with its end or, mostly as the last, without.
fn put_long_line(rng: &mut Rng, log: &mut Vec<u8>) {
    let place = any_line(rng, log);
    let (mut from, mut to) = place.unwrap_or((log.len(), log.len()));
    let mut line = match rng.below(4) {
        0 => b"R\t65535\t65535".to_vec(),
        1 => b"P\t0".to_vec(),
        _ => log[from..to].to_vec(),
    };
    if rng.chance(40) {
        (from, to) = (log.len(), log.len());
    }
    let length = match rng.below(8) {
        0 => rng.within(30, 130),
        1 => rng.within(58, 66),
        _ => rng.within(61, 63),
    } as usize;
    if rng.chance(75) {
        fill(rng, &mut line, length - 1);
        line.push(b'\n');
        to = (to + 1).min(log.len());
    } else {
        fill(rng, &mut line, length);
        if rng.chance(80) {
            to = log.len();
        }
    }
    damage::put(log, from, to, &line);
}

/// A header that goes on with more numbers, to a length at which one of the two
/// windows ends or to another; sometimes nothing comes after it.
fn put_long_header(rng: &mut Rng, log: &mut Vec<u8>) {
    let end = log.iter().position(|byte| *byte == b'\n');
    let end = end.unwrap_or(log.len());
    let mut line = log[..end].to_vec();
    let length = match rng.below(3) {
        0 => rng.within(11, 17),
        1 => rng.within(60, 64),
        _ => rng.within(11, 70),
    } as usize;
    fill(rng, &mut line, length);
    damage::put(log, 0, end, &line);
    if rng.chance(40) {
        log.truncate(line.len() + rng.index(2));
    }
}

#[cfg(test)]
mod tests {
    use super::*;
    use crate::log::{check, LINE_MAX};
    use std::collections::BTreeSet;

    #[test]
    fn the_sample_agrees() {
        assert_eq!(check(SAMPLE), (0, 8, 0));
        let listed = |number: &usize| listed(*number, Profiles::T).is_some();
        assert_eq!((0..).take_while(listed).count(), SAMPLE.len() * 98);
        assert_eq!(check(SAMPLE_D), (0, 17, 0));
    }

    #[test]
    fn whole_logs_agree_and_others_meet_every_stop() {
        for profiles in [Profiles::T, Profiles::Both] {
            meet_every_stop(profiles);
        }
    }

    fn meet_every_stop(profiles: Profiles) {
        let mut rng = Rng::new(6, 0);
        let mut met = BTreeSet::new();
        for number in 0..6_000 {
            let (kind, log) = if number % 200 == 0 {
                long(&mut rng, 10_000, profiles)
            } else {
                small(&mut rng, profiles)
            };
            assert!(profiles == Profiles::Both || check(&log) == check(&t(&log)));
            let (number, line, field) = check(&log);
            if kind == Kind::Whole {
                let cut = log.last() != Some(&b'\n');
                assert_eq!(number, if cut { 22 } else { 0 });
            }
            assert!(log.len() <= BYTES_MAX && line <= 5_001);
            met.insert((number, field));
        }
        let fields = (3..=10).map(|field| (40, field));
        let all = [0, 20, 21, 22].map(|number| (number, 0));
        assert_eq!(met, all.into_iter().chain(fields).collect());
    }

    /// As it is read where `D` is no header's letter.
    fn t(log: &[u8]) -> Vec<u8> {
        let mut log = log.to_vec();
        if log.first() == Some(&b'D') {
            log[0] = b'?';
        }
        log
    }

    #[test]
    fn filled_lines() {
        let mut rng = Rng::new(7, 0);
        for length in 3..200 {
            let mut line = b"P".to_vec();
            fill(&mut rng, &mut line, length);
            assert_eq!(line.len(), length);
            let fields = line.split(|byte| *byte == b'\t').skip(1);
            for field in fields {
                let text = std::str::from_utf8(field).unwrap();
                let number: u16 = text.parse().unwrap();
                assert_eq!(number.to_string(), text);
            }
            if (6..LINE_MAX).contains(&length) {
                line.push(b'\n');
                let log = [b"T\t1\t1\t0\t0\n", &line[..]].concat();
                assert_eq!(check(&log).0, 40);
            }
        }
    }
}
