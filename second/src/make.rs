//! Seeded scripts. The maker keeps a table of its own, so that most steps it
//! chooses are allowed ones and waits, inheriting and interrupts happen often.

use std::collections::BTreeMap;

use crate::rng::Rng;
use crate::script::{put_header, put_step, read_header};
use crate::table::{older, Core, Kind, Outcome, Profile, State, Step, Table};

/// Which profiles are made.
#[derive(Clone, Copy, PartialEq, Eq, Debug)]
pub enum Profiles {
    /// T alone.
    T,
    /// Each half the time.
    Both,
}

impl Profiles {
    /// Draws nothing where there is no choice.
    pub fn any(self, rng: &mut Rng) -> Profile {
        match self {
            Profiles::Both if rng.chance(50) => Profile::D,
            _ => Profile::T,
        }
    }

    /// A header that damage has made one of another profile is made one of T again.
    pub fn keep(self, script: &mut [u8]) {
        let other = |table: &Table| table.profile != Profile::T;
        if self == Profiles::T && read_header(script).is_ok_and(|(table, _)| other(&table)) {
            script[0] = b'T';
        }
    }
}

/// What happened in made scripts, beyond letters and answers.
#[derive(Clone, Default, Debug)]
pub struct Seen {
    pub inherited: u64,
    /// Polls after which a core carries a younger ticket than before.
    pub given_back: u64,
    /// Second unit granted to a core that carries another's ticket.
    pub granted_by_inherited: u64,
    pub second_stage_waits: u64,
    pub second_stage_interrupts: u64,
    /// Interrupts of a core whose flag was set but not polled.
    pub unpolled_interrupts: u64,
    pub returns: u64,
    pub two_grants: u64,
    /// Requests refused with 15 in T.
    pub stretched: u64,
    /// What profile D alone has, by the names of `DEQUEUEING`.
    pub dequeueing: BTreeMap<&'static str, u64>,
}

/// What happens in scripts of profile D, all of which a long run has to meet.
pub const DEQUEUEING: [&str; 12] = [
    "one dropped",
    "two dropped",
    "more dropped",
    "dropped before a grant",
    "dropped and no grant",
    "dropped past the wrap",
    "interrupts in line",
    "interrupts with the flag",
    "back in line",
    "back with a new ticket",
    "15 at C",
    "15 at R",
];

impl Seen {
    pub fn add(&mut self, other: &Seen) {
        self.inherited += other.inherited;
        self.given_back += other.given_back;
        self.granted_by_inherited += other.granted_by_inherited;
        self.second_stage_waits += other.second_stage_waits;
        self.second_stage_interrupts += other.second_stage_interrupts;
        self.unpolled_interrupts += other.unpolled_interrupts;
        self.returns += other.returns;
        self.two_grants += other.two_grants;
        self.stretched += other.stretched;
        for (name, count) in &other.dequeueing {
            *self.dequeueing.entry(name).or_default() += count;
        }
    }

    /// One step of a script in D, made by this core.
    fn count_dequeueing(&mut self, step: Step, outcome: &Outcome, before: &Table, after: &Table) {
        let mut count = |name| *self.dequeueing.entry(name).or_default() += 1;
        match (step.kind, outcome.answer) {
            (Kind::Request, 15) => count("15 at R"),
            (Kind::Continue, 15) => count("15 at C"),
            _ => {}
        }
        if outcome.answer > 2 {
            return;
        }
        let c = step.core as usize;
        match step.kind {
            Kind::Interrupt if after.live(c) => count("interrupts in line"),
            Kind::Interrupt => count("interrupts with the flag"),
            Kind::Continue if before.live(c) => count("back in line"),
            Kind::Continue => count("back with a new ticket"),
            _ => {}
        }
        if !matches!(step.kind, Kind::Interrupt | Kind::Leave) {
            return;
        }
        let cores = (0..before.cores as usize).filter(|d| *d != c);
        let dropped = cores.filter(|d| before.live(*d) && !after.live(*d));
        let dropped: Vec<u16> = dropped.map(|d| before.core[d].own).collect();
        match dropped.len() {
            0 => return,
            1 => count("one dropped"),
            2 => count("two dropped"),
            _ => count("more dropped"),
        }
        if outcome.granted > 0 {
            count("dropped before a grant");
        } else {
            count("dropped and no grant");
        }
        if dropped.iter().any(|ticket| *ticket > before.counter) {
            count("dropped past the wrap");
        }
    }
}

/// One core is left alone while another moves the counter on.
struct Stretch {
    core: usize,
    /// How far behind the counter a ticket shall come to lie.
    distance: u16,
    /// Steps still to make once one lies there.
    patience: u64,
    /// The core that requests, polls and releases in turn, and its unit, which
    /// the other cores leave alone.
    runner: usize,
    unit: u16,
    /// In D: cores that are dropped come back only once a ticket lies there.
    dropped_stay: bool,
}

/// Percentages that part scripts from each other.
struct Habits {
    /// Steps of any letter and numbers, allowed or not.
    wild: u64,
    interrupt: u64,
    /// Requests for one and the same unit of each class.
    crowd: u64,
    /// Nested requests of a core that holds a first-class unit.
    nest: u64,
    /// Steps towards an inherited ticket, where one is in reach.
    aim: u64,
    /// Turns of an idle core at which it stays idle.
    rest: u64,
    /// Turns of a core that is away at which it comes back.
    back: u64,
}

pub struct Maker {
    rng: Rng,
    pub table: Table,
    start: u16,
    habits: Habits,
    stretch: Option<Stretch>,
    /// Steps until the next stretch may begin; None: never.
    calm: Option<u64>,
    pub seen: Seen,
}

/// Counters at and near the places where comparing or counting turns over.
pub fn edge_counter(rng: &mut Rng) -> u16 {
    let near = rng.pick(&[0u16, 32_767, 32_768, 65_535]);
    match rng.below(4) {
        0 => near,
        1 => near.wrapping_sub(rng.below(12) as u16),
        2 => near.wrapping_add(rng.below(4) as u16),
        _ => rng.draw() as u16,
    }
}

/// Cores in range, from `least` on: up to eight mostly, and those that have two
/// digits, the last of them often.
fn any_cores(rng: &mut Rng, least: u64) -> u16 {
    (match rng.below(10) {
        0..=5 => rng.within(least, 8),
        6 => rng.pick(&[9, 10, 11, 16, 31]),
        7 => 32,
        _ => rng.within(9, 32),
    }) as u16
}

/// Counts in range, small ones often, so that cores meet.
pub fn any_counts(rng: &mut Rng) -> [u16; 3] {
    if rng.chance(50) {
        [
            any_cores(rng, 3),
            rng.within(1, 2) as u16,
            rng.within(1, 2) as u16,
        ]
    } else {
        [
            any_cores(rng, 1),
            rng.within(1, 8) as u16,
            rng.within(0, 8) as u16,
        ]
    }
}

impl Maker {
    /// A script of profile T for these counts, which have to be in range.
    pub fn new(rng: Rng, counts: [u16; 3], counter: u16) -> Maker {
        Maker::new_in(Profile::T, rng, counts, counter)
    }

    /// In D the second-class units are left out.
    pub fn new_in(profile: Profile, mut rng: Rng, mut counts: [u16; 3], counter: u16) -> Maker {
        let mut habits = Habits {
            wild: rng.pick(&[0, 2, 2, 5, 10, 40]),
            interrupt: rng.pick(&[3, 10, 20, 40]),
            crowd: rng.pick(&[0, 30, 60, 90]),
            nest: rng.pick(&[40, 80, 95]),
            aim: rng.pick(&[0, 30, 60]),
            rest: 0,
            back: 60,
        };
        if profile == Profile::D {
            counts[2] = 0;
            habits.back = rng.pick(&[60, 30, 10, 3]);
        }
        Maker {
            rng,
            table: Table::fresh_in(profile, counts, counter).expect("counts in range"),
            start: counter,
            habits,
            stretch: None,
            calm: None,
            seen: Seen::default(),
        }
    }

    pub fn any(mut rng: Rng, profiles: Profiles) -> Maker {
        let profile = profiles.any(&mut rng);
        Maker::any_in(profile, rng)
    }

    pub fn any_in(profile: Profile, mut rng: Rng) -> Maker {
        let counts = any_counts(&mut rng);
        let mut counter = edge_counter(&mut rng);
        if profile == Profile::D && rng.chance(40) {
            // Tickets on both sides of the wrap stand in one line.
            counter = 65_535 - rng.below(40) as u16;
        }
        Maker::new_in(profile, rng, counts, counter)
    }

    /// A script of D with units and cores enough for a stretch beside a line: in D a
    /// core that has a ticket stands at some unit.
    pub fn any_roomy(mut rng: Rng) -> Maker {
        let [cores, first_class, _] = any_counts(&mut rng);
        let counts = [cores.max(5), first_class.max(3), 0];
        let counter = edge_counter(&mut rng);
        Maker::new_in(Profile::D, rng, counts, counter)
    }

    /// Habits that do not follow from the seed: a mix of all steps, few refused.
    pub fn steady(mut self) -> Maker {
        self.habits = Habits {
            wild: 2,
            interrupt: 8,
            crowd: 30,
            nest: 80,
            aim: 20,
            rest: 0,
            back: match self.table.profile {
                Profile::T => 60,
                Profile::D => 25,
            },
        };
        self
    }

    /// Requests come seldom and for any unit, so that lines stay short.
    pub fn few(mut self) -> Maker {
        self.habits.crowd = 0;
        self.habits.rest = 90;
        self
    }

    /// Holds single tickets for half the counter's circle now and then.
    pub fn stretching(mut self) -> Maker {
        self.calm = Some(self.rng.below(3_000));
        self
    }

    pub fn put_header(&self, script: &mut Vec<u8>) {
        let table = &self.table;
        put_header(
            script,
            table.profile.letter(),
            [
                table.cores,
                table.first_class,
                table.second_class,
                self.start,
            ],
        );
    }

    /// Makes one step and puts its line.
    pub fn put_step(&mut self, script: &mut Vec<u8>) {
        let step = self.next_step();
        put_step(script, step);
    }

    /// The whole script of so many steps.
    pub fn put_script(&mut self, script: &mut Vec<u8>, steps: u64) {
        self.put_header(script);
        for _ in 0..steps {
            self.put_step(script);
        }
    }

    pub fn next_step(&mut self) -> Step {
        self.watch_stretch();
        let step = match self.stretch.take() {
            Some(stretch) => {
                let step = self.stretch_step(&stretch);
                self.stretch = Some(stretch);
                step
            }
            None => self.free_step(),
        };
        self.make(step);
        step
    }

    fn free_step(&mut self) -> Step {
        if self.rng.chance(self.habits.wild) {
            return self.wild_step();
        }
        if self.rng.chance(self.habits.aim) {
            let aimed = match self.table.profile {
                Profile::T => self.aimed_step(),
                Profile::D => self.dropping_step(),
            };
            if let Some(step) = aimed {
                return step;
            }
        }
        self.usual_step()
    }

    /// Makes this step on the maker's table.
    pub fn make(&mut self, step: Step) {
        let c = step.core as usize;
        let before = self.table.core.get(c).copied().unwrap_or_default();
        let flagged =
            before.state == State::Waiting && self.table.unit[before.first as usize][c].flag;
        let outcome = if self.table.profile == Profile::D {
            let whole = self.table.clone();
            let outcome = self.table.step(step);
            let seen = &mut self.seen;
            seen.count_dequeueing(step, &outcome, &whole, &self.table);
            outcome
        } else {
            let outcome = self.table.step(step);
            self.seen.stretched += (outcome.answer == 15) as u64;
            outcome
        };
        let Outcome {
            answer, granted, ..
        } = outcome;
        if answer > 2 {
            return;
        }
        let after = self.table.core[c];
        let seen = &mut self.seen;
        seen.two_grants += (granted == 2) as u64;
        match step.kind {
            Kind::Nest => seen.second_stage_waits += 1,
            Kind::Continue => seen.returns += 1,
            Kind::Interrupt => {
                seen.second_stage_interrupts += (before.state == State::WaitingSecond) as u64;
                seen.unpolled_interrupts += flagged as u64;
            }
            Kind::Poll if answer == 2 => {
                seen.inherited += older(after.carried, before.carried) as u64;
                seen.given_back += older(before.carried, after.carried) as u64;
            }
            Kind::Poll => seen.granted_by_inherited += (after.carried != after.own) as u64,
            _ => {}
        }
    }

    fn any_core(&mut self) -> usize {
        self.rng.below(self.table.cores as u64) as usize
    }

    fn first_class_unit(&mut self) -> u16 {
        if self.rng.chance(self.habits.crowd) {
            0
        } else {
            self.rng.below(self.table.first_class as u64) as u16
        }
    }

    /// There has to be one.
    fn second_class_unit(&mut self) -> u16 {
        let number = if self.rng.chance(self.habits.crowd) {
            0
        } else {
            self.rng.below(self.table.second_class as u64) as u16
        };
        self.table.first_class + number
    }

    /// An allowed step of some core.
    fn usual_step(&mut self) -> Step {
        loop {
            let c = self.any_core();
            let (step, fitting) = self.step_of(c);
            if fitting {
                return step;
            }
        }
    }

    /// The next step on the way to an inherited ticket: an older core that
    /// returns to the unit held first by one that waits at its second. Half the
    /// time, where one is carried, the next on the way back: its giver goes away,
    /// and the heir polls.
    fn aimed_step(&mut self) -> Option<Step> {
        let table = &self.table;
        let cores = table.cores as usize;
        let step = |kind, c: usize, unit| {
            Some(Step {
                kind,
                core: c as u16,
                unit,
            })
        };
        let flag = |unit: u16, c: usize| table.unit[unit as usize][c].flag;
        let offset = self.rng.index(cores);
        let back = self.rng.chance(50);
        let mut away = None;
        let mut nest = None;
        let mut oust = None;
        for a in (0..cores).map(|c| (c + offset) % cores) {
            let core = table.core[a];
            let older_here = |state| {
                (0..cores).find(|b| {
                    let other = table.core[*b];
                    *b != a
                        && other.state == state
                        && other.first == core.first
                        && older(other.own, core.carried)
                })
            };
            match core.state {
                State::WaitingSecond if !flag(core.second, a) => {
                    if older_here(State::Waiting).is_some() {
                        return step(Kind::Poll, a, 0);
                    }
                    if back && core.carried != core.own {
                        let lent = |c: &Core| c.state != State::Idle && c.own == core.carried;
                        match (0..cores).find(|b| lent(&table.core[*b])) {
                            Some(b) if table.core[b].state == State::Waiting => {
                                return step(Kind::Interrupt, b, 0)
                            }
                            _ => return step(Kind::Poll, a, 0),
                        }
                    }
                    away = away.or(older_here(State::Away));
                }
                State::Holding if core.first < table.first_class && table.second_class > 0 => {
                    nest = older_here(State::Away).map(|_| a).or(nest);
                }
                State::Waiting if core.first < table.first_class && flag(core.first, a) => {
                    let crowded = table.unit[core.first as usize]
                        .registers
                        .iter()
                        .filter(|r| r.valid)
                        .count();
                    if crowded > 1 {
                        oust = Some(a);
                    }
                }
                _ => {}
            }
        }
        if let Some(b) = away {
            return step(Kind::Continue, b, 0);
        }
        if let Some(a) = nest {
            // A unit that another core has, where there is one.
            let seconds = table.first_class..table.units();
            let taken = seconds
                .clone()
                .find(|u| table.unit[*u as usize].registers.iter().any(|r| r.flag));
            let unit = taken.unwrap_or(seconds.start);
            return step(Kind::Nest, a, unit);
        }
        oust.and_then(|a| step(Kind::Interrupt, a, 0))
    }

    /// The next step on the way to cores that are dropped at some unit: the oldest in
    /// line that is not away goes away, until some number of them are; then the core
    /// that has the unit gives it up.
    fn dropping_step(&mut self) -> Option<Step> {
        let table = &self.table;
        let units = table.units() as usize;
        let offset = self.rng.index(units);
        let mut shown = (0..units).map(|u| &table.unit[(u + offset) % units]);
        let unit = shown.find(|unit| unit.next.valid)?;
        let cores = 0..table.cores as usize;
        let mut line: Vec<usize> = cores.clone().filter(|c| unit[*c].waits()).collect();
        line.sort_by_key(|c| u16::MAX - table.counter.wrapping_sub(unit[*c].ticket));
        let is_away = |c: &&usize| table.core[**c].state.is_away();
        let away = line.iter().take_while(is_away).count();
        let wanted = self.rng.pick(&[1, 2, 2, 3, 4, line.len()]).min(line.len());
        let (kind, c) = if away < wanted {
            (Kind::Interrupt, line[away])
        } else {
            let holder = cores.clone().find(|c| unit[*c].flag)?;
            match table.core[holder].state {
                State::Holding => (Kind::Leave, holder),
                _ => (self.rng.pick(&[Kind::Interrupt, Kind::Poll]), holder),
            }
        };
        Some(Step {
            kind,
            core: c as u16,
            unit: 0,
        })
    }

    /// An allowed step of this core, and whether to make it rather than let the
    /// core stay longer where it is.
    fn step_of(&mut self, c: usize) -> (Step, bool) {
        let core = self.table.core[c];
        let nests = self.table.second_class > 0 && core.first < self.table.first_class;
        let mut unit = 0;
        let (kind, fitting) = match core.state {
            State::Idle => {
                unit = if self.table.second_class > 0 && self.rng.chance(25) {
                    self.second_class_unit()
                } else {
                    self.first_class_unit()
                };
                let rest = self.habits.rest;
                (Kind::Request, rest == 0 || !self.rng.chance(rest))
            }
            State::Waiting | State::WaitingSecond => {
                let second = core.state == State::WaitingSecond;
                let unit = if second { core.second } else { core.first };
                // A poll that gets nothing is of less use at the first stage.
                let useful = second || self.table.unit[unit as usize][c].flag;
                if self.rng.chance(self.habits.interrupt) {
                    (Kind::Interrupt, true)
                } else {
                    (Kind::Poll, useful || self.rng.chance(25))
                }
            }
            State::Holding if nests && self.rng.chance(self.habits.nest) => {
                unit = self.second_class_unit();
                (Kind::Nest, true)
            }
            State::Holding => (Kind::Leave, true),
            State::HoldingBoth => (Kind::Leave, self.rng.chance(60)),
            State::Away | State::Marked | State::Dropped => {
                (Kind::Continue, self.rng.chance(self.habits.back))
            }
        };
        (
            Step {
                kind,
                core: c as u16,
                unit,
            },
            fitting,
        )
    }

    /// Any letter; numbers mostly near the table's, some far out.
    fn wild_step(&mut self) -> Step {
        use Kind::*;
        let kind = self
            .rng
            .pick(&[Request, Nest, Poll, Interrupt, Continue, Leave]);
        // With cores of two digits, also the last of those and the ones past it.
        let mut far = vec![7, 8, 15, 16, 17, 255, 256, 32_767, 32_768, 65_534, 65_535];
        if self.table.cores > 8 {
            far.extend([31, 32, 33]);
        }
        let mut number = |count: u16| match self.rng.below(12) {
            0 => count,
            1 => count + self.rng.below(3) as u16,
            2 => self.rng.pick(&far),
            3 if self.rng.chance(30) => self.rng.draw() as u16,
            _ => self.rng.below(count as u64) as u16,
        };
        Step {
            kind,
            core: number(self.table.cores),
            unit: number(self.table.units()),
        }
    }

    /// How far the furthest live ticket lies behind the counter.
    fn span(&self) -> u16 {
        let table = &self.table;
        let live = (0..table.cores as usize).filter(|c| table.live(*c));
        live.map(|c| table.counter.wrapping_sub(table.core[c].own))
            .max()
            .unwrap_or(0)
    }

    /// Begins and ends stretches.
    fn watch_stretch(&mut self) {
        let span = if self.stretch.is_some() {
            self.span()
        } else {
            0
        };
        if let Some(stretch) = &mut self.stretch {
            // In D a core that is left alone may be dropped.
            let live = self.table.live(stretch.core);
            if live && span < stretch.distance {
                return;
            }
            if live && stretch.patience > 0 {
                stretch.patience -= 1;
                return;
            }
            self.stretch = None;
            self.calm = Some(self.rng.pick(&[500, 5_000, 50_000]));
            return;
        }
        match &mut self.calm {
            Some(0) => {}
            Some(calm) => {
                *calm -= 1;
                return;
            }
            None => return,
        }
        let (core, runner) = (self.any_core(), self.any_core());
        let unit = self.rng.below(self.table.units() as u64) as u16;
        let free = self.table.unit[unit as usize]
            .registers
            .iter()
            .all(|register| !register.valid);
        let idle = self.table.core[runner].state == State::Idle;
        if self.table.live(core) && idle && free {
            let to_the_end = self.rng.chance(60);
            let dropped_stay = self.table.profile == Profile::D && self.rng.chance(80);
            self.stretch = Some(Stretch {
                core,
                distance: if to_the_end {
                    32_768
                } else {
                    self.rng.within(32_756, 32_767) as u16
                },
                patience: if to_the_end {
                    self.rng.within(10, 300)
                } else {
                    0
                },
                runner,
                unit,
                dropped_stay,
            });
        }
    }

    /// Mostly request, poll, release by the runner; now and then a step of
    /// another core that leaves the stretched one, the runner and its unit alone.
    fn stretch_step(&mut self, stretch: &Stretch) -> Step {
        let reached = self.span() >= stretch.distance;
        if !reached && stretch.dropped_stay && self.rng.chance(2) {
            // One that has a flag and has not polled, so that some core is dropped.
            let table = &self.table;
            let fits = |c: &usize| {
                let core = &table.core[*c];
                *c != stretch.core
                    && *c != stretch.runner
                    && core.state == State::Waiting
                    && table.unit[core.first as usize][*c].flag
            };
            if let Some(c) = (0..table.cores as usize).find(fits) {
                return Step {
                    kind: Kind::Interrupt,
                    core: c as u16,
                    unit: 0,
                };
            }
        }
        if reached && stretch.dropped_stay && self.rng.chance(20) {
            let table = &self.table;
            let fits = |c: &usize| {
                let core = &table.core[*c];
                core.state == State::Dropped && core.first != stretch.unit
            };
            if let Some(c) = (0..table.cores as usize).find(fits) {
                return Step {
                    kind: Kind::Continue,
                    core: c as u16,
                    unit: 0,
                };
            }
        }
        if self.rng.chance(if reached { 50 } else { 4 }) {
            for _ in 0..8 {
                let step = self.free_step();
                let c = step.core as usize;
                let dropped = c < self.table.cores as usize && !self.table.live(c);
                let back = step.kind == Kind::Continue && dropped;
                if stretch.dropped_stay && !reached && back {
                    continue;
                }
                let enters = match step.kind {
                    Kind::Request | Kind::Nest => step.unit,
                    Kind::Continue => self.table.core.get(c).map_or(0, |core| core.first),
                    _ => stretch.unit.wrapping_add(1),
                };
                if c != stretch.core && c != stretch.runner && enters != stretch.unit {
                    return step;
                }
            }
        }
        let kind = match self.table.core[stretch.runner].state {
            State::Waiting => Kind::Poll,
            State::Holding => Kind::Leave,
            _ => Kind::Request,
        };
        Step {
            kind,
            core: stretch.runner as u16,
            unit: stretch.unit,
        }
    }
}

#[cfg(test)]
mod tests {
    use super::*;
    use crate::translate::translate;

    /// Every table reached is sound, and settling the touched units alone
    /// leaves no unit with a valid register and no flag.
    #[test]
    fn reached_tables_are_sound() {
        for stream in 0..300 {
            for profile in Profile::BOTH {
                let mut maker = Maker::any_in(profile, Rng::new(1, stream));
                for _ in 0..300 {
                    maker.next_step();
                    assert!(maker.table.sound(), "{:?}", maker.table);
                }
            }
        }
    }

    #[test]
    fn what_matters_happens() {
        let mut seen = Seen::default();
        for stream in 0..200 {
            let mut maker = Maker::any(Rng::new(2, stream), Profiles::T);
            for _ in 0..500 {
                maker.next_step();
            }
            seen.add(&maker.seen);
        }
        assert!(seen.inherited > 500);
        assert!(seen.given_back > 100);
        assert!(seen.granted_by_inherited > 50);
        assert!(seen.second_stage_interrupts > 500);
        assert!(seen.unpolled_interrupts > 500);
        assert!(seen.two_grants > 500);
    }

    #[test]
    fn stretches_reach_refusal_15() {
        let mut maker = Maker::new(Rng::new(3, 0), [3, 2, 1], 65_000).stretching();
        let mut script = Vec::new();
        maker.put_script(&mut script, 400_000);
        let mut out = Vec::new();
        translate(&script[..], &mut out).unwrap();
        let text = String::from_utf8(out).unwrap();
        assert!(text
            .lines()
            .any(|line| line.split('\t').nth(1) == Some("15")));
        assert_eq!(text.lines().count(), 400_001);
    }

    /// Half the scripts are of D, and all that D alone has is in them.
    #[test]
    fn dequeueing_happens() {
        let mut seen = Seen::default();
        let mut scripts = 0;
        for stream in 0..400 {
            let mut maker = Maker::any(Rng::new(2, stream), Profiles::Both);
            scripts += (maker.table.profile == Profile::D) as u32;
            for _ in 0..500 {
                maker.next_step();
            }
            seen.add(&maker.seen);
        }
        assert!((150..250).contains(&scripts));
        for name in &DEQUEUEING[..10] {
            let count = seen.dequeueing.get(name).copied().unwrap_or_default();
            assert!(count > 10, "{name}: {count}");
        }
    }

    #[test]
    fn stretches_reach_refusal_15_in_both_ways_of_d() {
        let counts = [8, 4, 0];
        let maker = Maker::new_in(Profile::D, Rng::new(3, 0), counts, 65_000);
        let mut maker = maker.steady().stretching();
        let (mut script, mut out) = (Vec::new(), Vec::new());
        maker.put_script(&mut script, 800_000);
        translate(&script[..], &mut out).unwrap();
        assert!(out.starts_with(b"F\t8\t4\t0\t65000\n"));
        for name in DEQUEUEING {
            let count = maker.seen.dequeueing.get(name).copied();
            assert!(count > Some(3), "{name}: {count:?}");
        }
    }

    /// In D whoever has a unit's flag has an earlier ticket than all in line. So a core
    /// that is not granted at its entry, by R or C, is passed by fewer cores than
    /// earlier tickets were live then: by one less at most, which is met.
    #[test]
    fn passed() {
        let (mut most_met, mut by_return) = (0, 0);
        for stream in 0..300 {
            let mut maker = Maker::any_in(Profile::D, Rng::new(7, stream));
            // By core: the number of its ticket among all issued; earlier ones live at
            // its entry, grants of its unit since, and whether it entered by C.
            let mut issued = vec![0u32; maker.table.cores as usize];
            let mut open: Vec<Option<(u32, u32, bool)>> = vec![None; issued.len()];
            let mut count = 0;
            for _ in 0..400 {
                let counter = maker.table.counter;
                let before = maker.table.clone();
                let step = maker.next_step();
                let table = &maker.table;
                let c = step.core as usize;
                if table.counter != counter {
                    count += 1;
                    issued[c] = count;
                }
                for (u, unit) in table.unit.iter().enumerate() {
                    let granted = |d: &usize| unit[*d].flag && !before.unit[u][*d].flag;
                    let Some(d) = (0..issued.len()).find(granted) else {
                        continue;
                    };
                    if let Some((earlier, passed, by_c)) = open[d].take() {
                        assert!(passed < earlier);
                        most_met += (passed + 1 == earlier && passed > 1) as u32;
                        by_return += (passed + 1 == earlier && by_c) as u32;
                    }
                    for e in 0..issued.len() {
                        if let Some((earlier, passed, _)) = &mut open[e] {
                            if table.core[e].first as usize == u {
                                assert!(issued[d] < issued[e]);
                                *passed += 1;
                                assert!(*passed < *earlier);
                            }
                        }
                    }
                }
                if c >= issued.len() || before == *table {
                    continue;
                }
                match step.kind {
                    Kind::Interrupt => open[c] = None,
                    Kind::Request | Kind::Continue
                        if !table.unit[table.core[c].first as usize][c].flag =>
                    {
                        let live = (0..issued.len()).filter(|d| table.live(*d));
                        let earlier = live.filter(|d| issued[*d] < issued[c]).count();
                        open[c] = Some((earlier as u32, 0, step.kind == Kind::Continue));
                    }
                    _ => {}
                }
            }
        }
        assert!(most_met > 50 && by_return > 50, "{most_met} {by_return}");
    }

    #[test]
    fn kept_to_t() {
        for (text, kept) in [
            ("D\t1\t1\t0\t0\nP\t0\n", b'T'),
            ("D\t1\t1\t1\t0\n", b'D'),
            ("T\t1\t1\t0\t0\n", b'T'),
        ] {
            let mut script = text.as_bytes().to_vec();
            Profiles::Both.keep(&mut script);
            assert_eq!(script, text.as_bytes());
            Profiles::T.keep(&mut script);
            assert_eq!(script[0], kept);
            assert_eq!(script[1..], text.as_bytes()[1..]);
        }
    }
}
