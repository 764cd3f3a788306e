//! Many cases in one process: binary cases in, text answers out.
//!
//! A case is a letter and its payload, numbers little endian:
//! - `T`: u16 length, script. Answer: the translator's bytes, then a line `--`.
//! - `B`: u16 bytes lent, u16 length, script. Answer: `B`, the number that stops one
//!   call with that room (0 where the script is finished), and the bytes written.
//! - `G`: u16 length, log. Answer: `G`, the number, and for 40 the line and the field,
//!   for 20, 21, 22 and 24 the line, for 0 the number of steps that agree.
//! - `S`: a table of 2,440 bytes (see `put_whole`; a core's state is 0 idle, 1 waiting,
//!   2 holding, 3 waiting at its second, 4 holding both, 5 away, 6 marked, from 7 on
//!   dropped). Answer: `S`, 1 if sound else 0.
//! - `M`: a table as in `S`, u8 letter (0 R, 1 N, 2 P, 3 I, 4 C, from 5 on L), u16
//!   core, u16 unit. Answer: `M`, answer, ticket, number of grants, unit and core
//!   of each, and every number of the next table in the order of `put_whole`.
//! - `W`: u32 word. Answer: `W`, 30, or `W`, 0, ticket, valid, flag.
//! - `P`: a register. Answer: `P`, 30, or `P`, 0, word.
//! - `I`: u16 cores, first, second, n; n words. Answer: `I`, 20 or 30, or `I`, 0
//!   and for each unit ticket, valid, flag of each register, and ticket, core,
//!   valid, held of the next in line.
//! - `O`: u16 cores, first, second, room; 16 units of 32 registers and the next in
//!   line. Answer: `O`, 20 or 30, or `O`, 0 and each word.
//! - `H`, `L`, `E`: u16 bytes lent (at most 64, each `.`), u16 place, and the line
//!   to write there. `H`: the header's four u16. `L`: the step as in `M`. `E`: u32
//!   step number, u8 index of the answer in `ANSWERS` (from 10 on the last), u16
//!   ticket, u8 number of grants (from 2 on two), two times u16 unit, u16 core.
//!   Answer: the letter, 20, 23, or 0 and the place after the line; then each
//!   byte lent, as a number.
//! - `s`, `m`, `i`, `o`, `h`: as the capital letters, for a table, counts or a header of
//!   profile D; those are of T. The answer has the case's letter.
//!
//! A case that is cut off, or of no such letter, ends the run.

use std::io::{self, BufReader, BufWriter, ErrorKind, Read, Write};

use crate::log;
use crate::script::put_field;
use crate::table::{
    Core, Kind, Next, Outcome, Profile, Register, State, Step, Table, Unit, MAX_CORES, MAX_UNITS,
};
use crate::translate::translate;
use crate::words;
use crate::writers::Line;

/// Most words of an image in a case.
pub const WORDS_MAX: usize = 600;
const UNITS: usize = MAX_UNITS * (MAX_CORES * 4 + 6);
pub const TABLE: usize = 8 + MAX_CORES * 9 + UNITS;
/// Most bytes lent in a case.
pub const LENT_MAX: usize = 64;
/// The answers' order in a case `E`.
pub const ANSWERS: [u8; 11] = [0, 1, 2, 10, 11, 12, 13, 14, 15, 16, 20];
/// The letters' order in a case `M` or `L`.
pub const KINDS: [Kind; 6] = [
    Kind::Request,
    Kind::Nest,
    Kind::Poll,
    Kind::Interrupt,
    Kind::Continue,
    Kind::Leave,
];

fn put_u16(case: &mut Vec<u8>, number: u16) {
    case.extend_from_slice(&number.to_le_bytes());
}

fn put_register(case: &mut Vec<u8>, register: &Register) {
    put_u16(case, register.ticket);
    case.push(register.valid as u8);
    case.push(register.flag as u8);
}

fn put_units(case: &mut Vec<u8>, units: &[Unit; MAX_UNITS]) {
    for unit in units {
        for register in &unit.registers {
            put_register(case, register);
        }
        put_u16(case, unit.next.ticket);
        put_u16(case, unit.next.core);
        case.push(unit.next.valid as u8);
        case.push(unit.next.held as u8);
    }
}

/// A script or a log, which have at most 65,535 bytes here, after its length.
fn put_text(case: &mut Vec<u8>, text: &[u8]) {
    put_u16(
        case,
        u16::try_from(text.len()).expect("text too long for a case"),
    );
    case.extend_from_slice(text);
}

pub fn put_script(case: &mut Vec<u8>, script: &[u8]) {
    case.push(b'T');
    put_text(case, script);
}

pub fn put_log(case: &mut Vec<u8>, log: &[u8]) {
    case.push(b'G');
    put_text(case, log);
}

/// One call with so many bytes lent.
pub fn put_lent(case: &mut Vec<u8>, room: u16, script: &[u8]) {
    case.push(b'B');
    put_u16(case, room);
    put_text(case, script);
}

/// The number that stops a call with so many bytes lent, and how many it writes:
/// a line is written whole or not at all.
pub fn lent(room: usize, answers: &[u8]) -> (u8, usize) {
    let mut wrote = 0;
    for line in answers.split_inclusive(|byte| *byte == b'\n') {
        if let Some(number) = line.strip_prefix(b"X\t") {
            let number = std::str::from_utf8(number).expect("a number");
            return (number.trim_end().parse().expect("a number"), wrote);
        }
        if room - wrote < line.len() {
            return (23, wrote);
        }
        wrote += line.len();
    }
    (0, wrote)
}

/// The letter of a case for this profile: the small one is D's.
pub fn letter_in(profile: Profile, letter: u8) -> u8 {
    match profile {
        Profile::T => letter,
        Profile::D => letter.to_ascii_lowercase(),
    }
}

fn profile_of(letter: u8) -> Profile {
    if letter.is_ascii_lowercase() {
        Profile::D
    } else {
        Profile::T
    }
}

fn put_whole(case: &mut Vec<u8>, table: &Table) {
    for number in [
        table.cores,
        table.first_class,
        table.second_class,
        table.counter,
    ] {
        put_u16(case, number);
    }
    for core in &table.core {
        for number in [core.own, core.carried, core.first, core.second] {
            put_u16(case, number);
        }
        case.push(core.state as u8);
    }
    put_units(case, &table.unit);
}

pub fn put_table(case: &mut Vec<u8>, table: &Table) {
    case.push(letter_in(table.profile, b'S'));
    put_whole(case, table);
}

pub fn put_method(case: &mut Vec<u8>, table: &Table, step: Step) {
    case.push(letter_in(table.profile, b'M'));
    put_whole(case, table);
    put_step(case, step);
}

fn put_step(case: &mut Vec<u8>, step: Step) {
    let letter = KINDS.iter().position(|kind| *kind == step.kind);
    case.push(letter.expect("all kinds are listed") as u8);
    put_u16(case, step.core);
    put_u16(case, step.unit);
}

pub fn put_word(case: &mut Vec<u8>, word: u32) {
    case.push(b'W');
    case.extend_from_slice(&word.to_le_bytes());
}

pub fn put_pack(case: &mut Vec<u8>, register: &Register) {
    case.push(b'P');
    put_register(case, register);
}

pub fn put_read_image(case: &mut Vec<u8>, profile: Profile, counts: [u16; 3], words: &[u32]) {
    case.push(letter_in(profile, b'I'));
    for number in counts {
        put_u16(case, number);
    }
    put_u16(case, words.len() as u16);
    for word in words {
        case.extend_from_slice(&word.to_le_bytes());
    }
}

pub fn put_write_image(
    case: &mut Vec<u8>,
    profile: Profile,
    counts: [u16; 3],
    room: u16,
    units: &[Unit; MAX_UNITS],
) {
    case.push(letter_in(profile, b'O'));
    for number in counts {
        put_u16(case, number);
    }
    put_u16(case, room);
    put_units(case, units);
}

pub fn put_line(case: &mut Vec<u8>, room: u16, place: u16, line: &Line) {
    case.push(line.letter());
    put_u16(case, room);
    put_u16(case, place);
    match line {
        Line::Header(_, numbers) => numbers.iter().for_each(|number| put_u16(case, *number)),
        Line::Step(step) => put_step(case, *step),
        Line::Expected(number, outcome) => {
            case.extend_from_slice(&number.to_le_bytes());
            let answer = ANSWERS.iter().position(|answer| *answer == outcome.answer);
            case.push(answer.expect("all answers are listed") as u8);
            put_u16(case, outcome.ticket);
            case.push(outcome.granted as u8);
            for (unit, core) in outcome.grants {
                put_u16(case, unit);
                put_u16(case, core);
            }
        }
    }
}

/// Takes numbers off the front of a payload that has been read whole.
struct Payload<'a>(&'a [u8]);

impl Payload<'_> {
    fn byte(&mut self) -> u8 {
        let byte = self.0[0];
        self.0 = &self.0[1..];
        byte
    }

    fn u16(&mut self) -> u16 {
        u16::from_le_bytes([self.byte(), self.byte()])
    }

    fn u32(&mut self) -> u32 {
        self.u16() as u32 | (self.u16() as u32) << 16
    }

    fn register(&mut self) -> Register {
        Register {
            ticket: self.u16(),
            valid: self.byte() != 0,
            flag: self.byte() != 0,
        }
    }

    fn units(&mut self) -> [Unit; MAX_UNITS] {
        [(); MAX_UNITS].map(|()| Unit {
            registers: [(); MAX_CORES].map(|()| self.register()),
            next: Next {
                ticket: self.u16(),
                core: self.u16(),
                valid: self.byte() != 0,
                held: self.byte() != 0,
            },
        })
    }

    fn table(&mut self, profile: Profile) -> Table {
        let mut table = Table {
            profile,
            cores: self.u16(),
            first_class: self.u16(),
            second_class: self.u16(),
            counter: self.u16(),
            core: [Core::default(); MAX_CORES],
            unit: [Unit::default(); MAX_UNITS],
        };
        for core in &mut table.core {
            *core = Core {
                own: self.u16(),
                carried: self.u16(),
                first: self.u16(),
                second: self.u16(),
                state: match self.byte() {
                    0 => State::Idle,
                    1 => State::Waiting,
                    2 => State::Holding,
                    3 => State::WaitingSecond,
                    4 => State::HoldingBoth,
                    5 => State::Away,
                    6 => State::Marked,
                    _ => State::Dropped,
                },
            };
        }
        table.unit = self.units();
        table
    }

    fn step(&mut self) -> Step {
        Step {
            kind: KINDS[(self.byte() as usize).min(5)],
            core: self.u16(),
            unit: self.u16(),
        }
    }

    fn line(&mut self, letter: u8) -> Line {
        match letter {
            b'H' | b'h' => Line::Header(profile_of(letter), [(); 4].map(|()| self.u16())),
            b'L' => Line::Step(self.step()),
            _ => Line::Expected(
                self.u32(),
                Outcome {
                    answer: ANSWERS[(self.byte() as usize).min(10)],
                    ticket: self.u16(),
                    granted: (self.byte() as usize).min(2),
                    grants: [(); 2].map(|()| (self.u16(), self.u16())),
                },
            ),
        }
    }
}

fn put_answer(out: &mut Vec<u8>, letter: u8, answer: u8) {
    out.push(letter);
    put_field(out, answer as u32);
}

fn put_fields(out: &mut Vec<u8>, register: &Register) {
    put_field(out, register.ticket as u32);
    put_field(out, register.valid as u32);
    put_field(out, register.flag as u32);
}

/// Registers of a unit, and its next in line.
fn put_unit(out: &mut Vec<u8>, registers: &[Register], next: &Next) {
    for register in registers {
        put_fields(out, register);
    }
    put_field(out, next.ticket as u32);
    put_field(out, next.core as u32);
    put_field(out, next.valid as u32);
    put_field(out, next.held as u32);
}

fn put_outcome(out: &mut Vec<u8>, outcome: &Outcome) {
    put_field(out, outcome.answer as u32);
    put_field(out, outcome.ticket as u32);
    put_field(out, outcome.granted as u32);
    for (unit, core) in &outcome.grants[..outcome.granted] {
        put_field(out, *unit as u32);
        put_field(out, *core as u32);
    }
}

fn put_numbers(out: &mut Vec<u8>, table: &Table) {
    put_field(out, table.cores as u32);
    put_field(out, table.first_class as u32);
    put_field(out, table.second_class as u32);
    put_field(out, table.counter as u32);
    for core in &table.core {
        for number in [core.own, core.carried, core.first, core.second] {
            put_field(out, number as u32);
        }
        put_field(out, core.state as u32);
    }
    for unit in &table.unit {
        put_unit(out, &unit.registers, &unit.next);
    }
}

/// Reads one case and puts its answer; false when its letter is unknown.
fn answer<R: Read>(input: &mut R, payload: &mut Vec<u8>, out: &mut Vec<u8>) -> io::Result<bool> {
    let mut head = [0; 1];
    input.read_exact(&mut head)?;
    let letter = head[0];
    let mut read = |payload: &mut Vec<u8>, length: usize| {
        payload.resize(length, 0);
        input.read_exact(payload)
    };
    match letter {
        b'T' => {
            read(payload, 2)?;
            let length = Payload(payload).u16();
            read(payload, length as usize)?;
            translate(&payload[..], &mut *out)?;
            out.extend_from_slice(b"--");
        }
        b'B' => {
            read(payload, 4)?;
            let mut fields = Payload(payload);
            let (room, length) = (fields.u16(), fields.u16());
            read(payload, length as usize)?;
            let mut answers = Vec::new();
            translate(&payload[..], &mut answers)?;
            let (number, wrote) = lent(room as usize, &answers);
            put_answer(out, letter, number);
            put_field(out, wrote as u32);
        }
        b'G' => {
            read(payload, 2)?;
            let length = Payload(payload).u16();
            read(payload, length as usize)?;
            let (number, line, field) = log::check(payload);
            put_answer(out, letter, number);
            put_field(out, line);
            if number == 40 {
                put_field(out, field);
            }
        }
        b'S' | b's' => {
            read(payload, TABLE)?;
            let sound = Payload(payload).table(profile_of(letter)).sound();
            put_answer(out, letter, sound as u8);
        }
        b'M' | b'm' => {
            read(payload, TABLE + 5)?;
            let mut fields = Payload(payload);
            let mut table = fields.table(profile_of(letter));
            let outcome = table.step_any(fields.step());
            out.push(letter);
            put_outcome(out, &outcome);
            put_numbers(out, &table);
        }
        b'W' => {
            read(payload, 4)?;
            match words::unpack(Payload(payload).u32()) {
                None => put_answer(out, letter, 30),
                Some(register) => {
                    put_answer(out, letter, 0);
                    put_fields(out, &register);
                }
            }
        }
        b'P' => {
            read(payload, 4)?;
            match words::pack(Payload(payload).register()) {
                None => put_answer(out, letter, 30),
                Some(word) => {
                    put_answer(out, letter, 0);
                    put_field(out, word);
                }
            }
        }
        b'I' | b'i' => {
            read(payload, 8)?;
            let mut fields = Payload(payload);
            let [cores, first, second, n] = [(); 4].map(|()| fields.u16());
            read(payload, n as usize * 4)?;
            let mut fields = Payload(payload);
            let image: Vec<u32> = (0..n).map(|_| fields.u32()).collect();
            match words::read_image(profile_of(letter), [cores, first, second], &image) {
                Err(number) => put_answer(out, letter, number),
                Ok(units) => {
                    put_answer(out, letter, 0);
                    for unit in &units[..(first + second) as usize] {
                        put_unit(out, &unit.registers[..cores as usize], &unit.next);
                    }
                }
            }
        }
        b'O' | b'o' => {
            read(payload, 8 + UNITS)?;
            let mut fields = Payload(payload);
            let counts = [(); 3].map(|()| fields.u16());
            let room = fields.u16();
            let units = fields.units();
            let mut image = vec![0; room as usize];
            match words::write_image(profile_of(letter), counts, &units, &mut image) {
                Err(number) => put_answer(out, letter, number),
                Ok(()) => {
                    put_answer(out, letter, 0);
                    for word in image {
                        put_field(out, word);
                    }
                }
            }
        }
        b'H' | b'h' | b'L' | b'E' => {
            read(payload, 4)?;
            let mut fields = Payload(payload);
            let (room, place) = (fields.u16() as usize, fields.u16() as usize);
            if room > LENT_MAX {
                return Ok(false);
            }
            let length = match letter {
                b'H' | b'h' => 8,
                b'L' => 5,
                _ => 16,
            };
            read(payload, length)?;
            let line = Payload(payload).line(letter);
            let mut lent = vec![b'.'; room];
            match line.write(&mut lent, place) {
                Err(number) => put_answer(out, letter, number),
                Ok(next) => {
                    put_answer(out, letter, 0);
                    put_field(out, next as u32);
                }
            }
            for byte in lent {
                put_field(out, byte as u32);
            }
        }
        _ => return Ok(false),
    }
    out.push(b'\n');
    Ok(true)
}

/// Answers every whole case of the input.
pub fn answer_all<R: Read, W: Write>(input: R, output: W) -> io::Result<()> {
    let mut input = BufReader::with_capacity(64 * 1024, input);
    let mut output = BufWriter::with_capacity(64 * 1024, output);
    let mut payload = Vec::new();
    let mut out = Vec::new();
    loop {
        out.clear();
        match answer(&mut input, &mut payload, &mut out) {
            Ok(true) => output.write_all(&out)?,
            Ok(false) => break,
            Err(error) if error.kind() == ErrorKind::UnexpectedEof => break,
            Err(error) => return Err(error),
        }
    }
    output.flush()
}

/// The answer to one case.
pub fn answer_to(mut case: &[u8], out: &mut Vec<u8>) {
    let mut payload = Vec::new();
    answer(&mut case, &mut payload, out).expect("a whole case");
}

/// A case other than a script, for a reader.
pub fn described(case: &[u8]) -> String {
    let mut text = format!("case {}, bytes", case[0] as char);
    for byte in &case[1..] {
        text += &format!(" {byte:02x}");
    }
    if matches!(case[0], b'H' | b'h' | b'L' | b'E') {
        let mut fields = Payload(&case[1..]);
        let (room, place) = (fields.u16(), fields.u16());
        let line = fields.line(case[0]);
        text += &format!("\n{room} bytes lent, place {place}, {line:?}");
    }
    if matches!(case[0], b'S' | b'M' | b's' | b'm') {
        let mut fields = Payload(&case[1..]);
        let table = fields.table(profile_of(case[0]));
        let Table {
            cores,
            first_class,
            second_class,
            counter,
            ..
        } = table;
        let profile = table.profile;
        text += &format!(
            "\n{profile:?}, counts {cores} {first_class} {second_class}, counter {counter}"
        );
        for (c, core) in table.core.iter().enumerate() {
            text += &format!("\ncore {c}: {core:?}");
        }
        put_described(&mut text, &table.unit);
        if matches!(case[0], b'M' | b'm') {
            text += &format!("\n{:?}", fields.step());
        }
    }
    if matches!(case[0], b'O' | b'o') {
        put_described(&mut text, &Payload(&case[9..]).units());
    }
    text
}

/// What is not blank of the units, for a reader.
fn put_described(text: &mut String, units: &[Unit; MAX_UNITS]) {
    for (u, unit) in units.iter().enumerate() {
        for (c, register) in unit.registers.iter().enumerate() {
            if *register != Register::default() {
                *text += &format!("\nunit {u} core {c}: {register:?}");
            }
        }
        if unit.next != Next::default() {
            *text += &format!("\nunit {u}: {:?}", unit.next);
        }
    }
}

#[cfg(test)]
mod tests {
    use super::*;

    #[test]
    fn every_letter() {
        let mut cases = Vec::new();
        put_script(&mut cases, b"T\t1\t1\t0\t7\nR\t0\t0\nZ");
        put_script(&mut cases, b"");
        let table = Table::fresh(2, 1, 1, 5).unwrap();
        put_table(&mut cases, &table);
        let mut broken = table.clone();
        broken.core[1].second = 1;
        put_table(&mut cases, &broken);
        put_word(&mut cases, 262_143);
        put_word(&mut cases, 5);
        put_pack(
            &mut cases,
            &Register {
                ticket: 2,
                valid: true,
                flag: false,
            },
        );
        put_pack(
            &mut cases,
            &Register {
                ticket: 2,
                valid: false,
                flag: false,
            },
        );
        put_read_image(&mut cases, Profile::T, [1, 1, 1], &[65_537, 65_537, 0, 0]);
        put_read_image(&mut cases, Profile::T, [1, 1, 0], &[196_611, 0]);
        put_read_image(&mut cases, Profile::T, [1, 1, 1], &[65_537, 0]);
        put_read_image(&mut cases, Profile::T, [1, 1, 1], &[65_537, 0, 0, 0]);
        put_read_image(&mut cases, Profile::T, [33, 1, 1], &[65_537]);
        put_write_image(&mut cases, Profile::T, [2, 1, 1], 6, &table.unit);
        put_write_image(&mut cases, Profile::T, [2, 1, 1], 4, &table.unit);
        put_write_image(&mut cases, Profile::T, [2, 0, 1], 3, &table.unit);
        let mut units = table.unit;
        units[0].registers[1] = Register {
            ticket: 3,
            valid: true,
            flag: false,
        };
        put_write_image(&mut cases, Profile::T, [2, 1, 0], 3, &units);
        units[0].next = Next {
            ticket: 3,
            core: 1,
            valid: true,
            held: false,
        };
        put_write_image(&mut cases, Profile::T, [2, 1, 0], 3, &units);
        let of_d = Table::fresh_in(Profile::D, [2, 2, 0], 5).unwrap();
        put_table(&mut cases, &of_d);
        put_read_image(&mut cases, Profile::D, [1, 1, 0], &[196_611, 0]);
        put_read_image(&mut cases, Profile::D, [1, 1, 1], &[65_537, 65_537, 0, 0]);
        put_write_image(&mut cases, Profile::D, [2, 1, 0], 3, &units);
        put_write_image(&mut cases, Profile::D, [2, 1, 1], 6, &table.unit);
        put_log(&mut cases, b"T\t1\t1\t0\t7\nP\t0\t12\t0\t0\n");
        put_log(&mut cases, b"T\t1\t1\t0\t7\nP\t0\t12\t1\t0\n");
        put_log(&mut cases, b"T\t1\t1\t0\t7\nP\t0\t12\t0\t0\nP");
        put_log(&mut cases, b"\n");
        cases.extend_from_slice(b"W\x01"); // cut off
        let mut out = Vec::new();
        answer_all(&cases[..], &mut out).unwrap();
        assert_eq!(
            String::from_utf8(out).unwrap(),
            "E\t1\t1\t0\t7\n1\t0\t7\t1\t0\t0\nX\t22\n--\nX\t22\n--\nS\t1\nS\t0\n\
             W\t0\t65535\t1\t1\nW\t30\nP\t0\t65538\nP\t30\n\
             I\t0\t1\t1\t0\t1\t0\t1\t0\t0\t0\t0\t0\t0\t0\t0\nI\t0\t3\t1\t1\t0\t0\t0\t1\n\
             I\t30\nI\t30\nI\t20\nO\t0\t0\t0\t0\t0\t0\t0\nO\t30\nO\t20\nO\t30\n\
             O\t0\t0\t65539\t65539\ns\t1\ni\t0\t3\t1\t1\t0\t0\t0\t1\ni\t20\n\
             o\t0\t0\t65539\t65539\no\t20\nG\t0\t1\nG\t40\t2\t4\nG\t22\t3\nG\t20\t1\n"
        );
        assert_eq!(TABLE, 2_440);
    }

    /// A table's line has 32 x 5 numbers of cores and for each of 16 units 32 x 3 of
    /// registers and 4 of the next in line.
    #[test]
    fn steps_by_methods() {
        let answered = |table: &Table, kind, core, unit| {
            let (mut case, mut out) = (Vec::new(), Vec::new());
            put_method(&mut case, table, Step { kind, core, unit });
            assert_eq!(case.len(), 2_446);
            answer_to(&case, &mut out);
            String::from_utf8(out).unwrap()
        };
        let zeros = |count| "\t0".repeat(count);
        let table = Table::fresh(2, 1, 1, 5).unwrap();
        let mut expected = "M\t0\t5\t1\t1\t1\t2\t1\t1\t6".to_string();
        expected += &(zeros(5) + "\t5\t5\t1\t0\t1" + &zeros(150));
        expected += &(zeros(100 + 3) + "\t5\t1\t1" + &zeros(90) + "\t0\t0\t0\t1");
        expected += &(zeros(14 * 100) + "\n");
        assert_eq!(answered(&table, Kind::Request, 1, 1), expected);
        let expected = "M\t12\t0\t0\t2\t1\t1\t5".to_string() + &zeros(1_760) + "\n";
        assert_eq!(answered(&table, Kind::Leave, 0, 9), expected);
        let mut broken = table.clone();
        broken.core[1].second = 1;
        let mut expected = "M\t16\t0\t0\t2\t1\t1\t5".to_string();
        expected += &(zeros(5) + "\t0\t0\t0\t1\t0" + &zeros(1_750) + "\n");
        assert_eq!(answered(&broken, Kind::Poll, 9, 9), expected);
        let mut broken = table;
        broken.unit[15].next = Next {
            ticket: 1,
            core: 2,
            valid: true,
            held: true,
        };
        let mut expected = "M\t16\t0\t0\t2\t1\t1\t5".to_string();
        expected += &(zeros(1_756) + "\t1\t2\t1\t1\n");
        assert_eq!(answered(&broken, Kind::Poll, 9, 9), expected);
    }
}
