//! The comparison: batches of seeded cases to the first implementation's
//! programs and to this one, held to each other byte for byte.

use std::collections::BTreeMap;
use std::io::Write;
use std::process::Command;
use std::sync::atomic::{AtomicBool, AtomicUsize, Ordering};
use std::sync::Mutex;
use std::thread;
use std::time::{Duration, Instant};

use crate::cases;
use crate::damage;
use crate::lines;
use crate::logs;
use crate::make::{edge_counter, Maker, Profiles, Seen, DEQUEUEING};
use crate::program::{self, Ran};
use crate::rng::Rng;
use crate::script::STEPS_MAX;
use crate::table::Profile;
use crate::tables;
use crate::translate::translate;
use crate::writers;

pub struct Options {
    /// Starts `translator` or `cases`, the name being its argument.
    pub starter: String,
    pub steps: u64,
    pub seed: u64,
    /// Which profiles ours knows: with both, half of what is made is of D.
    pub profiles: Profiles,
    /// Damaged scripts in batches.
    pub damaged: u64,
    /// Damaged scripts with a process of their own.
    pub singles: u64,
    /// Soundness, word and image cases.
    pub others: u64,
    /// Steps by the table's methods.
    pub methods: u64,
    /// Lines by the writers' functions.
    pub writers: u64,
    /// Lines of logs.
    pub logs: u64,
    pub jobs: usize,
    pub shrink_seconds: u64,
    /// Seconds a program may take for one batch.
    pub limit: u64,
}

/// Steps of the scripts in one batch of short scripts.
const SHORT_BATCH: u64 = 50_000;
/// Steps of a long script that is not of the greatest length.
const LONG_SCRIPT: u64 = 150_000;
const DAMAGED_BATCH: u64 = 5_000;
const SINGLES_BATCH: u64 = 25;
const OTHERS_BATCH: u64 = 5_000;
const METHODS_BATCH: u64 = 5_000;
const WRITERS_BATCH: u64 = 15_000;
/// Lines of the logs in one batch, and how many small logs come to 100 lines; the
/// other lines are in long ones.
const LOGS_BATCH: u64 = 25_000;
const LOGS_SMALL: u64 = 6;
/// The answers a run of a million steps or more has to meet.
const NUMBERS: [u32; 13] = [0, 1, 2, 10, 11, 12, 13, 14, 15, 20, 21, 22, 24];
/// The answers so many steps by methods have to meet.
const METHOD_NUMBERS: [u32; 10] = [0, 1, 2, 10, 11, 12, 13, 14, 15, 16];
const METHODS_ENOUGH: u64 = 20_000;
/// With so many cases of tables and images besides, each kind of next in line is met.
const OTHERS_ENOUGH: u64 = 20_000;
/// The answers so many lines by the writers have to meet.
const WRITER_NUMBERS: [(u8, u32); 7] = [
    (b'H', 0),
    (b'H', 20),
    (b'H', 23),
    (b'L', 0),
    (b'L', 23),
    (b'E', 0),
    (b'E', 23),
];
/// The same of headers of D.
const WRITER_NUMBERS_D: [(u8, u32); 3] = [(b'h', 0), (b'h', 20), (b'h', 23)];
const WRITERS_ENOUGH: u64 = 3_000;
/// The stops that so many damaged scripts have to meet, where a call is lent so
/// many bytes.
const LENT_NUMBERS: [u32; 5] = [0, 20, 21, 22, 23];
const LENT_ENOUGH: u64 = 10_000;
/// The stops that so many lines of logs have to meet, and the fields that are off.
/// None past the tenth is the first: only steps of two fields give two grants.
const LOG_NUMBERS: [u32; 5] = [0, 20, 21, 22, 40];
const LOG_FIELDS: [u32; 8] = [3, 4, 5, 6, 7, 8, 9, 10];
const LOGS_ENOUGH: u64 = 100_000;

const LETTERS: &[u8; 6] = b"RNPICL";

/// Work whose content follows from the seed and its place in the plan alone.
#[derive(Clone, Copy, Debug)]
enum Batch {
    /// One script of so many steps, and what is put after them.
    Long {
        stream: u64,
        steps: u64,
        end: End,
    },
    /// Short good scripts of so many steps together.
    Short {
        stream: u64,
        steps: u64,
    },
    Damaged {
        stream: u64,
        first: u64,
        count: u64,
    },
    Singles {
        stream: u64,
        count: u64,
    },
    Others {
        stream: u64,
        count: u64,
    },
    Methods {
        stream: u64,
        count: u64,
    },
    Writers {
        stream: u64,
        first: u64,
        count: u64,
    },
    /// Logs of so many lines together, `first` lines being in the batches before.
    Logs {
        stream: u64,
        first: u64,
        lines: u64,
    },
}

#[derive(Clone, Copy, Debug)]
enum End {
    Nothing,
    Steps,
    Any,
}

fn plan(options: &Options) -> Vec<Batch> {
    let mut plan = Vec::new();
    let greatest = STEPS_MAX as u64;
    let mut left = options.steps;
    let mut stream = 0;
    let mut next = || {
        stream += 1;
        stream
    };
    let ends = [End::Steps, End::Nothing, End::Any];
    let mut greatest_made = 0;
    // The greatest scripts first: they take longest.
    for _ in 0..2 {
        if left >= greatest {
            left -= greatest;
            plan.push(Batch::Long {
                stream: next(),
                steps: greatest,
                end: ends[greatest_made % 3],
            });
            greatest_made += 1;
        }
    }
    let mut round = 0;
    while left > 0 {
        round += 1;
        if round % 8 == 0 && left >= 4 * greatest {
            left -= greatest;
            plan.push(Batch::Long {
                stream: next(),
                steps: greatest,
                end: ends[greatest_made % 3],
            });
            greatest_made += 1;
        }
        // One long script to as many steps of short ones.
        let steps = left.min(LONG_SCRIPT);
        if left > LONG_SCRIPT {
            left -= steps;
            plan.push(Batch::Long {
                stream: next(),
                steps,
                end: End::Any,
            });
        }
        for _ in 0..LONG_SCRIPT / SHORT_BATCH {
            let steps = left.min(SHORT_BATCH);
            if steps > 0 {
                left -= steps;
                plan.push(Batch::Short {
                    stream: next(),
                    steps,
                });
            }
        }
    }
    let mut pieces = |total: u64, size: u64, batch: &dyn Fn(u64, u64, u64) -> Batch| {
        let mut first = 0;
        while first < total {
            let count = size.min(total - first);
            plan.push(batch(next(), first, count));
            first += count;
        }
    };
    pieces(options.damaged, DAMAGED_BATCH, &|stream, first, count| {
        Batch::Damaged {
            stream,
            first,
            count,
        }
    });
    pieces(options.singles, SINGLES_BATCH, &|stream, _, count| {
        Batch::Singles { stream, count }
    });
    pieces(options.others, OTHERS_BATCH, &|stream, _, count| {
        Batch::Others { stream, count }
    });
    pieces(options.methods, METHODS_BATCH, &|stream, _, count| {
        Batch::Methods { stream, count }
    });
    pieces(options.writers, WRITERS_BATCH, &|stream, first, count| {
        Batch::Writers {
            stream,
            first,
            count,
        }
    });
    pieces(options.logs, LOGS_BATCH, &|stream, first, lines| {
        Batch::Logs {
            stream,
            first,
            lines,
        }
    });
    plan
}

/// What was compared.
#[derive(Default)]
struct Tally {
    scripts: u64,
    damaged: u64,
    singles: u64,
    steps: u64,
    letters: BTreeMap<u8, u64>,
    numbers: BTreeMap<u32, u64>,
    others: BTreeMap<u8, u64>,
    sound: u64,
    /// Tables and images by their next in line.
    lines: lines::Kinds,
    /// Steps by methods: their letters, their answers, those with two grants.
    methods: BTreeMap<u8, u64>,
    method_numbers: BTreeMap<u32, u64>,
    method_two_grants: u64,
    /// Steps by methods in D, by their letters with their answers.
    methods_d: BTreeMap<(u8, u32), u64>,
    /// Lines by the writers: their letters with their answers, those that fill
    /// the bytes lent to the last.
    writers: BTreeMap<(u8, u32), u64>,
    writer_fits: u64,
    /// Calls with so many bytes lent, by the number that stopped them.
    lent: BTreeMap<u32, u64>,
    /// Logs: their lines up to where each stops, by the number that stops them, for
    /// 40 by the field, and by their damage.
    log_lines: u64,
    log_numbers: BTreeMap<u32, u64>,
    log_fields: BTreeMap<u32, u64>,
    log_kinds: BTreeMap<String, u64>,
    /// Counts in headers of scripts that were begun.
    headers: BTreeMap<Vec<u8>, u64>,
    kinds: BTreeMap<String, u64>,
    seen: Seen,
}

fn add_all<K: Ord>(to: &mut BTreeMap<K, u64>, from: BTreeMap<K, u64>) {
    for (key, count) in from {
        *to.entry(key).or_default() += count;
    }
}

impl Tally {
    fn add(&mut self, other: Tally) {
        self.scripts += other.scripts;
        self.damaged += other.damaged;
        self.singles += other.singles;
        self.steps += other.steps;
        self.sound += other.sound;
        self.method_two_grants += other.method_two_grants;
        self.writer_fits += other.writer_fits;
        self.log_lines += other.log_lines;
        self.seen.add(&other.seen);
        add_all(&mut self.letters, other.letters);
        add_all(&mut self.numbers, other.numbers);
        add_all(&mut self.others, other.others);
        add_all(&mut self.lines, other.lines);
        add_all(&mut self.methods, other.methods);
        add_all(&mut self.method_numbers, other.method_numbers);
        add_all(&mut self.methods_d, other.methods_d);
        add_all(&mut self.writers, other.writers);
        add_all(&mut self.lent, other.lent);
        add_all(&mut self.log_numbers, other.log_numbers);
        add_all(&mut self.log_fields, other.log_fields);
        add_all(&mut self.log_kinds, other.log_kinds);
        add_all(&mut self.headers, other.headers);
        add_all(&mut self.kinds, other.kinds);
    }

    /// Counts a script by the answers to it: line by line after the header.
    fn count_script(&mut self, script: &[u8], answers: &[u8]) {
        self.scripts += 1;
        let mut numbers = [0u64; 64];
        let mut letters = [0u64; 256];
        let mut lines = script.split(|b| *b == b'\n').skip(1);
        for line in answers.split(|b| *b == b'\n') {
            match line.first() {
                Some(b'E' | b'F') => {
                    let counts = line.rsplitn(2, |b| *b == b'\t').last().unwrap_or_default();
                    *self.headers.entry(counts.to_vec()).or_default() += 1;
                }
                Some(first) => {
                    let number = line.split(|b| *b == b'\t').nth(1).unwrap_or_default();
                    let number = number.iter().fold(0, |n, b| n * 10 + (b - b'0') as usize);
                    numbers[number] += 1;
                    if *first != b'X' {
                        self.steps += 1;
                        let line = lines.next().expect("a line for each answer");
                        letters[line[0] as usize] += 1;
                    }
                }
                None => {}
            }
        }
        for (number, count) in numbers.iter().enumerate().filter(|(_, count)| **count > 0) {
            *self.numbers.entry(number as u32).or_default() += count;
        }
        for letter in LETTERS {
            *self.letters.entry(*letter).or_default() += letters[*letter as usize];
        }
    }

    /// Counts a step by a method by its answer: number, ticket, number of grants.
    fn count_method(&mut self, profile: Profile, letter: u8, answer: &[u8]) {
        let mut fields = numbers_of(answer);
        let number = fields.next().unwrap_or_default();
        if profile == Profile::D {
            *self.methods_d.entry((letter, number)).or_default() += 1;
            return;
        }
        *self.methods.entry(letter).or_default() += 1;
        *self.method_numbers.entry(number).or_default() += 1;
        self.method_two_grants += (fields.nth(1) == Some(2)) as u64;
    }

    /// Counts a line by a writer by its answer: number, next place if it is 0,
    /// the bytes lent.
    fn count_writer(&mut self, answer: &[u8]) {
        let mut fields = numbers_of(answer);
        let number = fields.next().unwrap_or_default();
        *self.writers.entry((answer[0], number)).or_default() += 1;
        if number == 0 {
            let next = fields.next().unwrap_or_default();
            self.writer_fits += (next as usize == fields.count()) as u64;
        }
    }

    /// Puts a case of one call with so many bytes lent, and counts it.
    fn close_lent(&mut self, cases: &mut Cases, room: u16, script: &[u8]) {
        cases::put_lent(&mut cases.input, room, script);
        let number = numbers_of(cases.close()).next().unwrap_or_default();
        *self.lent.entry(number).or_default() += 1;
    }

    /// Puts a case of a log, counts it, and gives how many lines it has up to where
    /// it stops.
    fn close_log(&mut self, cases: &mut Cases, kind: logs::Kind, log: &[u8]) -> u64 {
        cases::put_log(&mut cases.input, log);
        let mut fields = numbers_of(cases.close());
        let number = fields.next().unwrap_or_default();
        *self.log_numbers.entry(number).or_default() += 1;
        *self.log_kinds.entry(format!("{kind:?}")).or_default() += 1;
        // The steps of an accepted log are answered, without its header.
        let mut lines = fields.next().unwrap_or_default() as u64;
        lines += (number == 0) as u64;
        self.log_lines += lines;
        if let Some(field) = fields.next() {
            *self.log_fields.entry(field).or_default() += 1;
        }
        lines
    }
}

/// How many counts are in range: of cores, and of units of the two classes.
const COUNTS: u64 = 32 * 8 * 9;
/// The same in D.
const COUNTS_D: u64 = 32 * 8;

/// The longest header and the longest line of a step, with their ends.
const HEADER_MOST: usize = 15;
const LINE_MOST: usize = 29;

/// Bytes to lend for a script with these answers: what is set aside for it, which
/// has to be enough; just as many as they have, one less, or any number.
fn any_room(rng: &mut Rng, answers: &[u8]) -> u16 {
    let lines: Vec<&[u8]> = answers.split_inclusive(|b| *b == b'\n').collect();
    let kept = lines.iter().filter(|line| line[0] != b'X');
    let (count, length) = kept.fold((0, 0), |(n, l), line| (n + 1, l + line.len()));
    let aside = HEADER_MOST + LINE_MOST * usize::saturating_sub(count, 1);
    assert!(length <= aside, "{count} lines have {length} bytes");
    let room = match rng.below(4) {
        0 => aside,
        1 => length,
        2 => length.saturating_sub(1),
        _ => rng.below(length as u64 + 1) as usize,
    };
    room.min(65_535) as u16
}

/// The numbers after an answer's letter.
fn numbers_of(answer: &[u8]) -> impl Iterator<Item = u32> + '_ {
    let line = answer.strip_suffix(b"\n").unwrap_or(answer);
    let fields = line.split(|b| *b == b'\t').skip(1);
    fields.map(|field| field.iter().fold(0, |n, b| n * 10 + (b - b'0') as u32))
}

/// How a script reaches the first implementation, or a log, which goes by cases.
#[derive(Clone, Copy, PartialEq, Debug)]
enum Way {
    Translator { piece: usize },
    Cases,
    Log,
}

/// The first case that the two answer differently.
struct Difference {
    batch: Batch,
    what: Case,
    note: String,
    /// Everything the process was given.
    input: Vec<u8>,
}

enum Case {
    Script {
        script: Vec<u8>,
        way: Way,
    },
    Other {
        case: Vec<u8>,
        ours: Vec<u8>,
        second: Vec<u8>,
    },
}

struct Comparison<'a> {
    options: &'a Options,
    /// A difference has been found: no further batch is begun.
    stop: AtomicBool,
    /// Every worker has ended, and the difference is looked into.
    shrinking: AtomicBool,
}

fn second_answers(script: &[u8]) -> Vec<u8> {
    let mut answers = Vec::new();
    translate(script, &mut answers).expect("memory does not fail");
    answers
}

/// The answers to a script, or the one to a log.
fn second_answers_by(script: &[u8], way: Way) -> Vec<u8> {
    if way != Way::Log {
        return second_answers(script);
    }
    let (mut case, mut answer) = (Vec::new(), Vec::new());
    cases::put_log(&mut case, script);
    cases::answer_to(&case, &mut answer);
    answer
}

/// Cases one after the other, with the end of each and of its answer.
#[derive(Default)]
struct Cases {
    input: Vec<u8>,
    answers: Vec<u8>,
    ends: Vec<(usize, usize)>,
}

impl Cases {
    /// Closes the case that was put to `input`, and gives its answer.
    fn close(&mut self) -> &[u8] {
        let (start, answer) = self.ends.last().copied().unwrap_or_default();
        cases::answer_to(&self.input[start..], &mut self.answers);
        self.ends.push((self.input.len(), self.answers.len()));
        &self.answers[answer..]
    }
}

/// The note on how a program ended, if not as it should.
fn bad_end(ran: &Ran) -> Option<String> {
    if !ran.in_time {
        Some("ours took too long and was ended".to_string())
    } else if !ran.status.success() {
        Some(format!("ours ended with {}", ran.status))
    } else {
        None
    }
}

impl Comparison<'_> {
    fn ours(&self, program: &str, input: &[u8], piece: usize, expected: usize) -> Ran {
        let mut seconds = self.options.limit;
        if self.shrinking.load(Ordering::Relaxed) {
            // Many small runs, some of which may hang.
            seconds = seconds.min(10 + input.len() as u64 / 50_000);
        }
        let most = expected as u64 + 65_536;
        let limit = Duration::from_secs(seconds);
        let mut command = Command::new(&self.options.starter);
        match program::run(command.arg(program), input, piece, most, limit) {
            Ok(ran) => ran,
            Err(error) => {
                eprintln!("compare: {}: {error}", self.options.starter);
                std::process::exit(2);
            }
        }
    }

    fn run_batch(&self, batch: Batch, tally: &mut Tally) -> Result<(), Box<Difference>> {
        let seed = self.options.seed;
        let profiles = self.options.profiles;
        match batch {
            Batch::Long { stream, steps, end } => {
                let mut rng = Rng::new(seed, stream);
                // Long scripts are few: the first is of D, and then every second.
                let maker_rng = Rng::new(rng.draw(), 0);
                let maker = if profiles == Profiles::Both && stream % 2 == 1 {
                    Maker::any_roomy(maker_rng)
                } else {
                    Maker::any_in(Profile::T, maker_rng)
                };
                let mut maker = maker.stretching();
                let mut script = Vec::new();
                maker.put_script(&mut script, steps);
                let more = match end {
                    End::Nothing => 0,
                    End::Steps => 1,
                    End::Any => rng.below(6),
                };
                match more {
                    1 => (0..3).for_each(|_| maker.put_step(&mut script)),
                    2 => script.extend_from_slice(b"R\t0"),
                    3 => script.extend_from_slice(b"\n"),
                    4 => {
                        script.pop();
                    }
                    5 => script.extend_from_slice(b"01234567890123"),
                    _ => {}
                }
                tally.seen.add(&maker.seen);
                let piece = rng.pick(&[1 << 16, 1 << 20, 4_096, 4_095, 1_000]);
                self.one_script(batch, script, piece, tally)
            }
            Batch::Short { stream, steps } => {
                let mut rng = Rng::new(seed, stream);
                let mut cases = Cases::default();
                let mut left = steps;
                let mut script = Vec::new();
                let mut number = stream.wrapping_mul(80);
                while left > 0 {
                    let most = match rng.below(100) {
                        0..=39 => 30,
                        40..=79 => 300,
                        80..=97 => 2_000,
                        _ => 8_000,
                    };
                    let length = rng.within(0, most).min(left);
                    number += 1;
                    // Every second script takes the next of all possible counts.
                    let maker_rng = Rng::new(rng.draw(), 0);
                    let mut maker = if number % 2 == 0 {
                        let n = (number / 2 % COUNTS) as u16;
                        let counts = [1 + n % 32, 1 + n / 32 % 8, n / 256];
                        let profile = profiles.any(&mut rng);
                        Maker::new_in(profile, maker_rng, counts, edge_counter(&mut rng))
                    } else {
                        Maker::any(maker_rng, profiles)
                    };
                    script.clear();
                    maker.put_header(&mut script);
                    for _ in 0..length {
                        if script.len() > 65_500 {
                            break;
                        }
                        maker.put_step(&mut script);
                        left -= 1;
                    }
                    tally.seen.add(&maker.seen);
                    cases::put_script(&mut cases.input, &script);
                    let answers = cases.close();
                    let answers = &answers[..answers.len() - 3];
                    tally.count_script(&script, answers);
                    let room = any_room(&mut rng, answers);
                    if rng.chance(20) {
                        tally.close_lent(&mut cases, room, &script);
                    }
                }
                self.many(batch, cases)
            }
            Batch::Damaged {
                stream,
                first,
                count,
            } => {
                let mut rng = Rng::new(seed, stream);
                let mut cases = Cases::default();
                for number in first..first + count {
                    let most = if rng.chance(5) { 200 } else { 12 };
                    let (kind, script) = damage::listed(number as usize, profiles)
                        .unwrap_or_else(|| damage::any(&mut rng, most, profiles));
                    *tally.kinds.entry(format!("{kind:?}")).or_default() += 1;
                    tally.damaged += 1;
                    cases::put_script(&mut cases.input, &script);
                    let answers = cases.close();
                    let answers = &answers[..answers.len() - 3];
                    tally.count_script(&script, answers);
                    let room = any_room(&mut rng, answers);
                    tally.close_lent(&mut cases, room, &script);
                }
                self.many(batch, cases)
            }
            Batch::Singles { stream, count } => {
                let mut rng = Rng::new(seed, stream);
                for _ in 0..count {
                    let most = rng.pick(&[3, 12, 12, 100, 3_000]);
                    let (kind, script) = damage::any(&mut rng, most, profiles);
                    *tally.kinds.entry(format!("{kind:?}")).or_default() += 1;
                    tally.damaged += 1;
                    tally.singles += 1;
                    let piece = rng.pick(&[1, 5, 15, 100, 1_000, 1 << 16]);
                    self.one_script(batch, script, piece, tally)?;
                    if self.stop.load(Ordering::Relaxed) {
                        break;
                    }
                }
                Ok(())
            }
            Batch::Others { stream, count } => {
                let mut rng = Rng::new(seed, stream);
                let mut cases = Cases::default();
                for _ in 0..count {
                    let kinds = &mut tally.lines;
                    let letter = tables::put_any(&mut rng, &mut cases.input, kinds, profiles);
                    *tally.others.entry(letter).or_default() += 1;
                    let answer = cases.close();
                    let sound: [&[u8]; 2] = [b"S\t1\n", b"s\t1\n"];
                    tally.sound += sound.contains(&answer) as u64;
                }
                self.many(batch, cases)
            }
            Batch::Methods { stream, count } => {
                let mut rng = Rng::new(seed, stream);
                let mut cases = Cases::default();
                for _ in 0..count {
                    let kinds = &mut tally.lines;
                    let (profile, step) =
                        tables::put_method(&mut rng, &mut cases.input, kinds, profiles);
                    let letter = cases::KINDS.iter().position(|kind| *kind == step.kind);
                    let letter = LETTERS[letter.expect("all kinds are listed")];
                    tally.count_method(profile, letter, cases.close());
                }
                self.many(batch, cases)
            }
            Batch::Writers {
                stream,
                first,
                count,
            } => {
                let mut rng = Rng::new(seed, stream);
                let mut cases = Cases::default();
                for number in first..first + count {
                    let letters = writers::letters(profiles);
                    let letter = letters[number as usize % letters.len()];
                    writers::put_any(&mut rng, &mut cases.input, letter);
                    tally.count_writer(cases.close());
                }
                self.many(batch, cases)
            }
            Batch::Logs {
                stream,
                first,
                lines,
            } => {
                let mut rng = Rng::new(seed, stream);
                let mut cases = Cases::default();
                let mut left = lines;
                let small = |lines: u64| lines * LOGS_SMALL / 100;
                for number in small(first)..small(first + lines) {
                    // Every third is the next of the list, as long as that goes.
                    let next = (number % 3 == 0).then_some(number as usize / 3);
                    let (kind, log) = next
                        .and_then(|next| logs::listed(next, profiles))
                        .unwrap_or_else(|| logs::small(&mut rng, profiles));
                    left = left.saturating_sub(tally.close_log(&mut cases, kind, &log));
                }
                while left > 0 {
                    let (kind, log) = logs::long(&mut rng, left, profiles);
                    left = left.saturating_sub(tally.close_log(&mut cases, kind, &log));
                }
                self.many(batch, cases)
            }
        }
    }

    /// One script to a process of its own.
    fn one_script(
        &self,
        batch: Batch,
        script: Vec<u8>,
        piece: usize,
        tally: &mut Tally,
    ) -> Result<(), Box<Difference>> {
        let second = second_answers(&script);
        tally.count_script(&script, &second);
        let ran = self.ours("translator", &script, piece, second.len());
        let ended = bad_end(&ran);
        if ran.output == second && ended.is_none() {
            return Ok(());
        }
        let input = script.clone();
        let what = Case::Script {
            script,
            way: Way::Translator { piece },
        };
        Err(Box::new(Difference {
            batch,
            what,
            note: ended.unwrap_or_default(),
            input,
        }))
    }

    /// Many cases to one process.
    fn many(&self, batch: Batch, cases: Cases) -> Result<(), Box<Difference>> {
        let ran = self.ours("cases", &cases.input, 1 << 16, cases.answers.len());
        let Some(at) = self.differing_case(&cases, &ran) else {
            return Ok(());
        };
        let ended = bad_end(&ran);
        let (start, answer) = if at == 0 { (0, 0) } else { cases.ends[at - 1] };
        let case = cases.input[start..cases.ends[at].0].to_vec();
        let what = if matches!(case[0], b'T' | b'G') {
            let way = match case[0] {
                b'T' => Way::Cases,
                _ => Way::Log,
            };
            Case::Script {
                script: case[3..].to_vec(),
                way,
            }
        } else {
            let rest = &ran.output[answer.min(ran.output.len())..];
            let length = rest
                .iter()
                .position(|b| *b == b'\n')
                .map_or(rest.len(), |at| at + 1);
            Case::Other {
                case,
                ours: rest[..length].to_vec(),
                second: cases.answers[answer..cases.ends[at].1].to_vec(),
            }
        };
        Err(Box::new(Difference {
            batch,
            what,
            note: ended.unwrap_or_default(),
            input: cases.input,
        }))
    }

    /// The first case that the two answer differently. Where ours wrote more
    /// than all the answers, it is the last case.
    fn differing_case(&self, cases: &Cases, ran: &Ran) -> Option<usize> {
        let bad = bad_end(ran).is_some();
        if ran.output == cases.answers && !bad {
            return None;
        }
        let pairs = ran.output.iter().zip(&cases.answers);
        let same = pairs.take_while(|(a, b)| a == b).count();
        let at = cases.ends.iter().position(|(_, end)| same < *end);
        let at = at.unwrap_or(cases.ends.len() - 1);
        // Only a missing answer may be due to a later case.
        let missing = same == ran.output.len();
        Some(if bad && missing {
            self.culprit(cases, at)
        } else {
            at
        })
    }

    /// A program that ends badly may take answers with it that it had not yet
    /// written: the case it ended at is the last of the shortest run, from the
    /// first one that lacks its answer, that ends badly too.
    fn culprit(&self, cases: &Cases, first: usize) -> usize {
        let start = if first == 0 {
            0
        } else {
            cases.ends[first - 1].0
        };
        let (mut low, mut high) = (first, cases.ends.len() - 1);
        while low < high {
            let middle = (low + high) / 2;
            let (end, answers) = cases.ends[middle];
            let ran = self.ours("cases", &cases.input[start..end], 1 << 16, answers);
            if bad_end(&ran).is_some() {
                high = middle;
            } else {
                low = middle + 1;
            }
        }
        low
    }

    /// The first of the scripts that the two answer differently.
    fn first_differing(&self, scripts: &[Vec<u8>], way: Way) -> Option<usize> {
        match way {
            Way::Translator { piece } => scripts.iter().position(|script| {
                let second = second_answers(script);
                let ran = self.ours("translator", script, piece, second.len());
                ran.output != second || bad_end(&ran).is_some()
            }),
            Way::Cases | Way::Log => {
                let mut cases = Cases::default();
                for script in scripts {
                    match way {
                        Way::Log => cases::put_log(&mut cases.input, script),
                        _ => cases::put_script(&mut cases.input, script),
                    }
                    cases.close();
                }
                let ran = self.ours("cases", &cases.input, 1 << 16, cases.answers.len());
                self.differing_case(&cases, &ran)
            }
        }
    }

    /// A shorter script with a difference: lines dropped, then lines shortened.
    /// Says too whether it was done before the time was up.
    fn shrink(&self, mut script: Vec<u8>, mut way: Way) -> (Vec<u8>, Way, bool) {
        let until = Instant::now() + Duration::from_secs(self.options.shrink_seconds);
        loop {
            self.drop_tail(&mut script, way);
            // Many candidates go to one process, once a case can take the script.
            if matches!(way, Way::Translator { .. })
                && script.len() < 65_536
                && self
                    .first_differing(&[script.clone()], Way::Cases)
                    .is_some()
            {
                way = Way::Cases;
            }
            let before = script.clone();
            self.drop_lines(&mut script, way, until);
            self.shorten(&mut script, way, until);
            let in_time = Instant::now() < until;
            if script == before || !in_time {
                self.drop_tail(&mut script, way);
                return (script, way, in_time);
            }
        }
    }

    /// Drops the lines after the one that is answered differently. A log has one
    /// answer, which does not show that line.
    fn drop_tail(&self, script: &mut Vec<u8>, way: Way) {
        if way == Way::Log {
            return;
        }
        let second = second_answers(script);
        let ran = self.answers(script, way, second.len());
        let same = ran
            .output
            .iter()
            .zip(&second)
            .take_while(|(a, b)| a == b)
            .count();
        let answered = second[..same].iter().filter(|b| **b == b'\n').count();
        let shorter = first_lines(script, answered + 1);
        if shorter.len() < script.len()
            && self
                .first_differing(std::slice::from_ref(&shorter), way)
                .is_some()
        {
            *script = shorter;
        }
    }

    /// Our answers to one script, without the line that ends a case.
    fn answers(&self, script: &[u8], way: Way, expected: usize) -> Ran {
        match way {
            Way::Translator { piece } => self.ours("translator", script, piece, expected),
            Way::Cases => {
                let mut case = Vec::new();
                cases::put_script(&mut case, script);
                let mut ran = self.ours("cases", &case, 1 << 16, expected);
                if ran.output.ends_with(b"--\n") {
                    ran.output.truncate(ran.output.len() - 3);
                }
                ran
            }
            Way::Log => {
                let mut case = Vec::new();
                cases::put_log(&mut case, script);
                self.ours("cases", &case, 1 << 16, expected)
            }
        }
    }

    /// Replaces the script by the first candidate that still differs, and gives
    /// the number of that candidate.
    fn try_each(
        &self,
        script: &mut Vec<u8>,
        way: Way,
        until: Instant,
        candidates: impl Iterator<Item = Vec<u8>>,
    ) -> Option<usize> {
        let mut candidates = candidates.peekable();
        let mut tried = 0;
        while candidates.peek().is_some() && Instant::now() < until {
            let mut group = Vec::new();
            let mut size = 0;
            let one = matches!(way, Way::Translator { .. });
            let most = if one { 0 } else { 1 << 20 };
            for candidate in candidates.by_ref() {
                size += candidate.len() + 64;
                group.push(candidate);
                if size > most || group.len() == 300 {
                    break;
                }
            }
            if let Some(at) = self.first_differing(&group, way) {
                *script = group.swap_remove(at);
                return Some(tried + at);
            }
            tried += group.len();
        }
        None
    }

    /// Drops runs of lines, shorter and shorter ones.
    fn drop_lines(&self, script: &mut Vec<u8>, way: Way, until: Instant) {
        let mut size = lines_of(script).len().div_ceil(2);
        while size > 0 {
            let mut from = 0;
            loop {
                let lines: Vec<Vec<u8>> = lines_of(script).iter().map(|l| l.to_vec()).collect();
                let candidates = (from..lines.len()).step_by(size).map(|from| {
                    let to = (from + size).min(lines.len());
                    [&lines[..from], &lines[to..]].concat().concat()
                });
                match self.try_each(script, way, until, candidates) {
                    Some(number) => from += number * size,
                    None => break,
                }
            }
            size /= 2;
        }
    }

    /// Drops single bytes and puts smaller digits for greater ones.
    fn shorten(&self, script: &mut Vec<u8>, way: Way, until: Instant) {
        loop {
            if script.len() > 20_000 {
                return;
            }
            let now = script.clone();
            let mut made: Vec<Vec<u8>> = Vec::new();
            for at in 0..now.len() {
                let mut candidate = now.clone();
                candidate.remove(at);
                made.push(candidate);
            }
            for at in 0..now.len() {
                for digit in b'0'..now[at] {
                    if now[at].is_ascii_digit() {
                        let mut candidate = now.clone();
                        candidate[at] = digit;
                        made.push(candidate);
                    }
                }
            }
            if self
                .try_each(script, way, until, made.into_iter())
                .is_none()
            {
                return;
            }
        }
    }

    fn report(&self, difference: &Difference) {
        println!(
            "DIFFERENCE, seed {}, in {:?}",
            self.options.seed, difference.batch
        );
        match &difference.what {
            Case::Other { case, ours, second } => {
                println!("{}", cases::described(case));
                println!("ours:   {}", shown(ours));
                println!("second: {}", shown(second));
            }
            Case::Script { script, way } => {
                let from = (lines_of(script).len(), script.len());
                let (script, way) = (script.clone(), *way);
                let text = if way == Way::Log { "log" } else { "script" };
                let differs = |script: &Vec<u8>| {
                    self.first_differing(std::slice::from_ref(script), way)
                        .is_some()
                };
                let (script, way, whole) = if differs(&script) {
                    self.shrink(script, way)
                } else {
                    println!(
                        "alone, this {text} makes no difference: it lies with what came before"
                    );
                    save("input of the process", &difference.input);
                    (script, way, false)
                };
                println!(
                    "{text} of {} lines, {} bytes (shrunk from {} lines, {} bytes{}), by {way:?}:",
                    lines_of(&script).len(),
                    script.len(),
                    from.0,
                    from.1,
                    if whole { "" } else { ", not to the end" },
                );
                show_lines(&script);
                let second = second_answers_by(&script, way);
                println!("second answers:");
                show_lines(&second);
                println!("ours answers:");
                let ran = self.answers(&script, way, second.len());
                show_lines(&ran.output);
                if let Some(ended) = bad_end(&ran) {
                    println!("{ended}");
                }
                if lines_of(&script).len() > SHOWN {
                    save(text, &script);
                }
            }
        }
        if !difference.note.is_empty() {
            println!("at first: {}", difference.note);
        }
    }
}

/// Lines with their ends; the last may have none.
fn lines_of(bytes: &[u8]) -> Vec<&[u8]> {
    bytes.split_inclusive(|b| *b == b'\n').collect()
}

/// Keeps what is too long to print.
fn save(what: &str, bytes: &[u8]) {
    let path = std::env::temp_dir().join(format!("second-compare-{}", std::process::id()));
    match std::fs::write(&path, bytes) {
        Ok(()) => println!("the whole {what}: {}", path.display()),
        Err(error) => println!("the whole {what} was not kept: {error}"),
    }
}

fn first_lines(script: &[u8], count: usize) -> Vec<u8> {
    script
        .split_inclusive(|b| *b == b'\n')
        .take(count)
        .flatten()
        .copied()
        .collect()
}

fn shown(line: &[u8]) -> String {
    line.escape_ascii().to_string()
}

/// Most lines printed of one script or its answers.
const SHOWN: usize = 60;

fn show_lines(bytes: &[u8]) {
    let lines = lines_of(bytes);
    let hidden = lines.len().saturating_sub(SHOWN);
    for (at, line) in lines.iter().enumerate() {
        if hidden == 0 || at < SHOWN / 2 || at >= lines.len() - SHOWN / 2 {
            println!("  {}", shown(line));
        } else if at == SHOWN / 2 {
            println!("  ... {hidden} lines ...");
        }
    }
}

fn listed<K, F: Fn(&K) -> String>(counts: &BTreeMap<K, u64>, name: F) -> String {
    let parts: Vec<String> = counts
        .iter()
        .map(|(key, n)| format!("{} {n}", name(key)))
        .collect();
    parts.join(", ")
}

/// Gives the exit status: 0 no difference, 1 a difference or a number not met.
pub fn compare(options: &Options) -> i32 {
    let began = Instant::now();
    let comparison = Comparison {
        options,
        stop: AtomicBool::new(false),
        shrinking: AtomicBool::new(false),
    };
    let plan = plan(options);
    let next = AtomicUsize::new(0);
    let total = Mutex::new(Tally::default());
    let found: Mutex<Option<(usize, Box<Difference>)>> = Mutex::new(None);
    thread::scope(|scope| {
        for _ in 0..options.jobs {
            scope.spawn(|| loop {
                let at = next.fetch_add(1, Ordering::Relaxed);
                if at >= plan.len() || comparison.stop.load(Ordering::Relaxed) {
                    return;
                }
                let mut tally = Tally::default();
                let result = comparison.run_batch(plan[at], &mut tally);
                total.lock().expect("no worker panics").add(tally);
                if let Err(difference) = result {
                    comparison.stop.store(true, Ordering::Relaxed);
                    let mut found = found.lock().expect("no worker panics");
                    if found.as_ref().map_or(true, |(before, _)| at < *before) {
                        *found = Some((at, difference));
                    }
                }
            });
        }
    });
    let tally = total.into_inner().expect("no worker panics");
    if let Some((_, mut difference)) = found.into_inner().expect("no worker panics") {
        comparison.shrinking.store(true, Ordering::Relaxed);
        // A fault met in a long script is easier to see in a short one.
        if matches!(difference.batch, Batch::Long { .. }) {
            let short = plan
                .iter()
                .filter(|batch| matches!(batch, Batch::Short { .. }))
                .take(10);
            let found = short.map(|batch| comparison.run_batch(*batch, &mut Tally::default()));
            if let Some(shorter) = found.filter_map(Result::err).next() {
                difference = shorter;
            }
        }
        comparison.report(&difference);
        return 1;
    }

    let seen = &tally.seen;
    println!(
        "steps by letter: {}",
        listed(&tally.letters, |letter| (*letter as char).to_string())
    );
    println!(
        "answers by number: {}",
        listed(&tally.numbers, |number| format!("{number}:"))
    );
    println!(
        "in good scripts: second-stage waits {}, inherited {}, given back {}, granted by an inherited ticket {}, \
         second-stage interrupts {}, interrupts of an unpolled flag {}, returns {}, two grants {}, 15 in T {}",
        seen.second_stage_waits,
        seen.inherited,
        seen.given_back,
        seen.granted_by_inherited,
        seen.second_stage_interrupts,
        seen.unpolled_interrupts,
        seen.returns,
        seen.two_grants,
        seen.stretched,
    );
    let dequeueing: Vec<String> = (seen.dequeueing.iter())
        .map(|(name, count)| format!("{name} {count}"))
        .collect();
    let both = options.profiles == Profiles::Both;
    if both {
        println!("in good scripts of D: {}", dequeueing.join(", "));
    }
    println!(
        "headers with different counts: {} of {}",
        tally.headers.len(),
        COUNTS + if both { COUNTS_D } else { 0 }
    );
    println!("damage: {}", listed(&tally.kinds, |kind| kind.clone()));
    println!(
        "other cases: {} (S: {} sound)",
        listed(&tally.others, |letter| (*letter as char).to_string()),
        tally.sound
    );
    println!(
        "steps by method: {}; answers {}; two grants {}",
        listed(&tally.methods, |letter| (*letter as char).to_string()),
        listed(&tally.method_numbers, |number| format!("{number}:")),
        tally.method_two_grants
    );
    if both {
        println!(
            "steps by method in D: {}",
            listed(&tally.methods_d, |(letter, number)| format!(
                "{} {number}:",
                *letter as char
            ))
        );
    }
    println!(
        "next in line: {}",
        listed(&tally.lines, |kind| format!("{kind}:"))
    );
    println!(
        "lines by the writers: {}; to the last byte lent {}",
        listed(&tally.writers, |(letter, number)| format!(
            "{} {number}:",
            *letter as char
        )),
        tally.writer_fits
    );
    println!(
        "calls with so many bytes lent: {}",
        listed(&tally.lent, |number| format!("{number}:"))
    );
    println!(
        "logs by number: {}; 40 by field: {}; damage: {}",
        listed(&tally.log_numbers, |number| format!("{number}:")),
        listed(&tally.log_fields, |field| format!("{field}:")),
        listed(&tally.log_kinds, |kind| kind.clone())
    );
    let missing: Vec<String> = NUMBERS
        .iter()
        .filter(|number| !tally.numbers.contains_key(number))
        .map(|number| number.to_string())
        .collect();
    if !missing.is_empty() {
        println!("never answered: {}", missing.join(", "));
        if options.steps > STEPS_MAX as u64 && options.damaged > 0 {
            println!("a run of this size has to meet every number");
            return 1;
        }
    }
    if options.steps > STEPS_MAX as u64 && seen.stretched == 0 {
        println!("a run of this size has to meet 15 in T");
        return 1;
    }
    let unmet: Vec<&str> = DEQUEUEING
        .into_iter()
        .filter(|name| !seen.dequeueing.contains_key(name))
        .collect();
    if both && options.steps > STEPS_MAX as u64 && !unmet.is_empty() {
        println!(
            "a run of this size has to meet all of D: {}",
            unmet.join(", ")
        );
        return 1;
    }
    let mut unmet = METHOD_NUMBERS
        .iter()
        .any(|number| !tally.method_numbers.contains_key(number));
    if both {
        unmet |= METHOD_NUMBERS
            .iter()
            .any(|number| tally.methods_d.keys().all(|(_, met)| met != number));
        unmet |= !tally.methods_d.contains_key(&(b'C', 15));
    }
    if unmet && options.methods >= METHODS_ENOUGH {
        println!("so many steps by methods have to meet every answer");
        return 1;
    }
    let unmet: Vec<String> = lines::needed(options.profiles)
        .into_iter()
        .filter(|kind| !tally.lines.contains_key(kind))
        .collect();
    let enough = options.methods >= METHODS_ENOUGH && options.others >= OTHERS_ENOUGH;
    if enough && !unmet.is_empty() {
        println!(
            "so many tables and images have to meet every kind of next in line: {}",
            unmet.join(", ")
        );
        return 1;
    }
    let mut unmet = WRITER_NUMBERS
        .iter()
        .any(|answer| !tally.writers.contains_key(answer));
    unmet |= both
        && WRITER_NUMBERS_D
            .iter()
            .any(|answer| !tally.writers.contains_key(answer));
    if unmet && options.writers >= WRITERS_ENOUGH {
        println!("so many lines by the writers have to meet every answer");
        return 1;
    }
    if options.damaged >= LENT_ENOUGH && LENT_NUMBERS.iter().any(|n| !tally.lent.contains_key(n)) {
        println!("so many calls have to meet every stop");
        return 1;
    }
    let numbers = LOG_NUMBERS
        .iter()
        .any(|n| !tally.log_numbers.contains_key(n));
    let fields = LOG_FIELDS
        .iter()
        .any(|field| !tally.log_fields.contains_key(field));
    if options.logs >= LOGS_ENOUGH && (numbers || fields) {
        println!("so many lines of logs have to meet every stop, and every field that can be off");
        return 1;
    }
    println!(
        "no difference: {} scripts, {} steps, {} damaged scripts ({} with a process of their own), \
         {} table, word and image cases, {} steps by methods, {} lines by the writers, {} calls with so many bytes lent, \
         {} logs, {} log lines, seed {}, {:.1} seconds",
        tally.scripts,
        tally.steps,
        tally.damaged,
        tally.singles,
        tally.others.values().sum::<u64>(),
        tally.methods.values().sum::<u64>() + tally.methods_d.values().sum::<u64>(),
        tally.writers.values().sum::<u64>(),
        tally.lent.values().sum::<u64>(),
        tally.log_numbers.values().sum::<u64>(),
        tally.log_lines,
        options.seed,
        began.elapsed().as_secs_f64(),
    );
    std::io::stdout().flush().ok();
    0
}
