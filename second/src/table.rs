//! The table of cores, units and the ticket counter, the six steps on it in either
//! profile, and the judgement whether a table is sound.

use std::ops::{Index, IndexMut};

pub const MAX_CORES: usize = 32;
pub const MAX_UNITS: usize = 16;

/// What the two profiles differ in is said at `interrupt`, `come_back`, `settle` and
/// at what soundness asks of a core that is away.
#[derive(Clone, Copy, PartialEq, Eq, Debug, Default)]
pub enum Profile {
    #[default]
    T,
    /// The dequeueing profile: no second-class units; who is away stays in line until
    /// its turn comes.
    D,
}

impl Profile {
    pub const BOTH: [Profile; 2] = [Profile::T, Profile::D];

    /// The letter of a script's header.
    pub fn letter(self) -> u8 {
        match self {
            Profile::T => b'T',
            Profile::D => b'D',
        }
    }

    /// The letter that opens the answers.
    pub fn output_letter(self) -> u8 {
        match self {
            Profile::T => b'E',
            Profile::D => b'F',
        }
    }

    pub fn of_letter(letter: u8) -> Option<Profile> {
        Profile::BOTH.into_iter().find(|p| p.letter() == letter)
    }

    pub fn counts_in_range(self, cores: u16, first_class: u16, second_class: u16) -> bool {
        counts_in_range(cores, first_class, second_class)
            && (self == Profile::T || second_class == 0)
    }
}

#[derive(Clone, Copy, PartialEq, Eq, Debug, Default)]
pub enum State {
    #[default]
    Idle,
    /// Waiting at its first unit.
    Waiting,
    /// Holding its first unit.
    Holding,
    /// Holding its first unit and waiting at its second.
    WaitingSecond,
    HoldingBoth,
    /// In a handler, in T: it stands at no unit, and keeps its ticket and its first unit.
    Away,
    /// In a handler, in D: it keeps its place in line with its ticket.
    Marked,
    /// In a handler, in D: it stands nowhere and has no ticket, but names its first unit.
    Dropped,
}

impl State {
    #[inline]
    pub fn is_away(self) -> bool {
        matches!(self, State::Away | State::Marked | State::Dropped)
    }
}

/// What the state does not speak of is 0.
#[derive(Clone, Copy, PartialEq, Eq, Debug, Default)]
pub struct Core {
    pub state: State,
    pub own: u16,
    pub carried: u16,
    pub first: u16,
    pub second: u16,
}

impl Core {
    /// Away from this unit, without a ticket.
    pub fn dropped(first: u16) -> Core {
        Core {
            state: State::Dropped,
            first,
            ..Core::default()
        }
    }
}

#[derive(Clone, Copy, PartialEq, Eq, Debug, Default)]
pub struct Register {
    pub ticket: u16,
    pub valid: bool,
    pub flag: bool,
}

impl Register {
    #[inline]
    pub fn waits(&self) -> bool {
        self.valid && !self.flag
    }
}

/// Who is next in line at a unit, and whether some flag is set there. Ticket and
/// core are 0 where nobody is next.
#[derive(Clone, Copy, PartialEq, Eq, Debug, Default)]
pub struct Next {
    pub ticket: u16,
    pub core: u16,
    pub valid: bool,
    pub held: bool,
}

impl Next {
    /// The next in line of any registers: the one without a flag that is older than
    /// each other without. Tickets need not lie within half the circle, so that
    /// there may be none.
    pub fn of(registers: &[Register]) -> Next {
        let next = Next::passed(registers);
        let beaten = |(c, register): (usize, &Register)| {
            c != next.core as usize && register.waits() && !older(next.ticket, register.ticket)
        };
        if next.valid && registers.iter().enumerate().any(beaten) {
            return Next {
                held: next.held,
                ..Next::default()
            };
        }
        next
    }

    /// Whoever is older than each other is left at the end: it takes the place of
    /// any that stands before it, and gives it to none after it. Tickets that lie
    /// within half the circle and differ, as in a sound table, have such a one.
    #[inline]
    fn passed(registers: &[Register]) -> Next {
        let mut next = Next::default();
        for (c, register) in registers.iter().enumerate() {
            next.held |= register.flag;
            if register.waits() && !(next.valid && older(next.ticket, register.ticket)) {
                next.ticket = register.ticket;
                next.core = c as u16;
                next.valid = true;
            }
        }
        next
    }
}

/// A register for each core, by whose number a unit is indexed, and its next in line.
#[derive(Clone, Copy, PartialEq, Eq, Debug, Default)]
pub struct Unit {
    pub registers: [Register; MAX_CORES],
    pub next: Next,
}

impl Index<usize> for Unit {
    type Output = Register;

    #[inline]
    fn index(&self, core: usize) -> &Register {
        &self.registers[core]
    }
}

impl IndexMut<usize> for Unit {
    #[inline]
    fn index_mut(&mut self, core: usize) -> &mut Register {
        &mut self.registers[core]
    }
}

#[derive(Clone, PartialEq, Eq, Debug)]
pub struct Table {
    pub profile: Profile,
    pub cores: u16,
    pub first_class: u16,
    pub second_class: u16,
    pub counter: u16,
    pub core: [Core; MAX_CORES],
    pub unit: [Unit; MAX_UNITS],
}

#[derive(Clone, Copy, PartialEq, Eq, Debug)]
pub enum Kind {
    Request,
    Nest,
    Poll,
    Interrupt,
    Continue,
    Leave,
}

/// `unit` is read for `Request` and `Nest` alone.
#[derive(Clone, Copy, PartialEq, Eq, Debug)]
pub struct Step {
    pub kind: Kind,
    pub core: u16,
    pub unit: u16,
}

/// The first `granted` entries of `grants` are (unit, core), by rising unit.
#[derive(Clone, Copy, PartialEq, Eq, Debug)]
pub struct Outcome {
    pub answer: u8,
    pub ticket: u16,
    pub granted: usize,
    pub grants: [(u16, u16); 2],
}

impl Outcome {
    fn of(answer: u8, ticket: u16) -> Outcome {
        Outcome {
            answer,
            ticket,
            granted: 0,
            grants: [(0, 0); 2],
        }
    }

    fn grant(&mut self, unit: u16, core: u16) {
        self.grants[self.granted] = (unit, core);
        self.granted += 1;
    }

    fn refused(answer: u8) -> Outcome {
        Outcome::of(answer, 0)
    }
}

/// What one ticket is, seen from another.
#[derive(Clone, Copy, PartialEq, Eq, Debug)]
pub enum Comparison {
    Older,
    Younger,
    Same,
    /// Exactly half the circle apart.
    Opposite,
}

impl Comparison {
    pub fn word(self) -> &'static str {
        match self {
            Comparison::Older => "older",
            Comparison::Younger => "younger",
            Comparison::Same => "same",
            Comparison::Opposite => "opposite",
        }
    }
}

/// What `a` is, seen from `b`: the wrapped difference read as a signed number, of
/// which the least has no counterpart.
#[inline]
pub fn compare(a: u16, b: u16) -> Comparison {
    match a.wrapping_sub(b) as i16 {
        0 => Comparison::Same,
        i16::MIN => Comparison::Opposite,
        i16::MIN..=-1 => Comparison::Older,
        1..=i16::MAX => Comparison::Younger,
    }
}

#[inline]
pub fn older(a: u16, b: u16) -> bool {
    compare(a, b) == Comparison::Older
}

pub fn counts_in_range(cores: u16, first_class: u16, second_class: u16) -> bool {
    (1..=32).contains(&cores) && (1..=8).contains(&first_class) && second_class <= 8
}

impl Table {
    /// One of profile T. None when the counts are out of range.
    pub fn fresh(cores: u16, first_class: u16, second_class: u16, counter: u16) -> Option<Table> {
        Table::fresh_in(Profile::T, [cores, first_class, second_class], counter)
    }

    /// None when the counts are out of the profile's range.
    pub fn fresh_in(profile: Profile, counts: [u16; 3], counter: u16) -> Option<Table> {
        let [cores, first_class, second_class] = counts;
        if !profile.counts_in_range(cores, first_class, second_class) {
            return None;
        }
        Some(Table {
            profile,
            cores,
            first_class,
            second_class,
            counter,
            core: Default::default(),
            unit: Default::default(),
        })
    }

    #[inline]
    pub fn units(&self) -> u16 {
        self.first_class + self.second_class
    }

    /// Makes the step on a sound table. A refused step leaves the table as it was.
    #[inline]
    pub fn step(&mut self, step: Step) -> Outcome {
        if step.core >= self.cores {
            return Outcome::refused(10);
        }
        let c = step.core as usize;
        match step.kind {
            Kind::Request => self.request(c, step.unit),
            Kind::Nest => self.nest(c, step.unit),
            Kind::Poll => self.poll(c),
            Kind::Interrupt => self.interrupt(c),
            Kind::Continue => self.come_back(c),
            Kind::Leave => self.release(c),
        }
    }

    /// Makes the step on any table: 16 where it is not sound.
    pub fn step_any(&mut self, step: Step) -> Outcome {
        if !self.sound() {
            return Outcome::refused(16);
        }
        self.step(step)
    }

    fn request(&mut self, c: usize, unit: u16) -> Outcome {
        if unit >= self.units() {
            return Outcome::refused(11);
        }
        if self.core[c].state != State::Idle {
            return Outcome::refused(12);
        }
        self.join(c, unit)
    }

    /// Whether the core has a ticket: it is not idle, and if it is away in D, it stands
    /// in line. That its state says the same is asked by `sound`.
    pub fn live(&self, c: usize) -> bool {
        let core = &self.core[c];
        if self.profile == Profile::D && core.state.is_away() {
            let unit = self.unit.get(core.first as usize);
            return unit.is_some_and(|unit| unit[c].valid);
        }
        core.state != State::Idle
    }

    /// Takes a new ticket and enters the unit with it; 15 where a live ticket lies too
    /// far behind.
    fn join(&mut self, c: usize, unit: u16) -> Outcome {
        let ticket = self.counter;
        let far = |core: &Core| {
            core.state != State::Idle
                && match compare(core.own, ticket) {
                    // 32,768 behind, and further.
                    Comparison::Opposite | Comparison::Younger => true,
                    Comparison::Older | Comparison::Same => false,
                }
        };
        // Few tables have one that is far: whether it is live is asked then.
        if self.core.iter().any(far) {
            let mut cores = self.core.iter().enumerate();
            if cores.any(|(d, core)| far(core) && self.live(d)) {
                return Outcome::refused(15);
            }
        }
        self.counter = ticket.wrapping_add(1);
        self.core[c] = Core {
            state: State::Waiting,
            own: ticket,
            carried: ticket,
            first: unit,
            second: 0,
        };
        self.enter(unit, c, ticket, Outcome::of(0, ticket))
    }

    fn nest(&mut self, c: usize, unit: u16) -> Outcome {
        if unit >= self.units() {
            return Outcome::refused(11);
        }
        let core = self.core[c];
        if core.state != State::Holding {
            return Outcome::refused(12);
        }
        if unit < self.first_class || core.first >= self.first_class {
            return Outcome::refused(13);
        }
        self.core[c].state = State::WaitingSecond;
        self.core[c].second = unit;
        self.enter(unit, c, core.own, Outcome::of(0, core.carried))
    }

    /// A poll makes no register invalid, so nothing is left to settle after it.
    fn poll(&mut self, c: usize) -> Outcome {
        let core = self.core[c];
        match core.state {
            State::Waiting => {
                if self.unit[core.first as usize][c].flag {
                    self.core[c].state = State::Holding;
                    Outcome::of(1, core.carried)
                } else {
                    Outcome::of(2, core.carried)
                }
            }
            State::WaitingSecond => {
                if self.unit[core.second as usize][c].flag {
                    self.core[c].state = State::HoldingBoth;
                    Outcome::of(1, core.carried)
                } else {
                    Outcome::of(2, self.inherit(c))
                }
            }
            _ => Outcome::refused(12),
        }
    }

    /// Sets the carried ticket to the oldest of the own one and those that wait
    /// at the first unit now, and gives it. What was carried before is let go.
    fn inherit(&mut self, c: usize) -> u16 {
        let core = self.core[c];
        let next = self.unit[core.first as usize].next;
        let carried = if next.valid && older(next.ticket, core.own) {
            next.ticket
        } else {
            core.own
        };
        if carried != core.carried {
            self.core[c].carried = carried;
            let cores = self.cores as usize;
            let unit = &mut self.unit[core.second as usize];
            unit[c].ticket = carried;
            unit.next = Next::passed(&unit.registers[..cores]);
        }
        carried
    }

    fn interrupt(&mut self, c: usize) -> Outcome {
        let core = self.core[c];
        let two = match core.state {
            State::Waiting => false,
            State::WaitingSecond => true,
            State::Holding | State::HoldingBoth => return Outcome::refused(14),
            _ => return Outcome::refused(12),
        };
        match self.profile {
            Profile::T => {
                self.core[c] = Core {
                    state: State::Away,
                    carried: core.own,
                    second: 0,
                    ..core
                }
            }
            Profile::D if self.unit[core.first as usize][c].flag => {
                self.core[c] = Core::dropped(core.first);
            }
            Profile::D => {
                // It stays in line, and nothing is left to settle.
                self.core[c].state = State::Marked;
                return Outcome::of(0, core.own);
            }
        }
        self.give_up(c, &core, two, core.own)
    }

    fn come_back(&mut self, c: usize) -> Outcome {
        let core = self.core[c];
        if !core.state.is_away() {
            return Outcome::refused(12);
        }
        if self.profile == Profile::D {
            if !self.live(c) {
                return self.join(c, core.first);
            }
            // In line all the while: the unit is another core's, so nothing settles.
            self.core[c].state = State::Waiting;
            return Outcome::of(0, core.own);
        }
        self.core[c].state = State::Waiting;
        self.enter(core.first, c, core.own, Outcome::of(0, core.own))
    }

    fn release(&mut self, c: usize) -> Outcome {
        let core = self.core[c];
        let two = match core.state {
            State::Holding => false,
            State::HoldingBoth => true,
            _ => return Outcome::refused(12),
        };
        self.core[c] = Core::default();
        self.give_up(c, &core, two, core.own)
    }

    /// Only the unit that is entered may have something to grant: nobody waits at one
    /// that no one has, so that who enters such a one has it at once.
    fn enter(&mut self, unit: u16, c: usize, ticket: u16, mut outcome: Outcome) -> Outcome {
        let entered = &mut self.unit[unit as usize];
        let next = entered.next;
        entered[c] = Register {
            ticket,
            valid: true,
            flag: !next.held,
        };
        if !next.held {
            entered.next.held = true;
            outcome.grant(unit, c as u16);
        } else if !next.valid || older(ticket, next.ticket) {
            entered.next = Next {
                ticket,
                core: c as u16,
                valid: true,
                held: true,
            };
        }
        outcome
    }

    /// Frees what `core` stood at, both units before settling. A second unit
    /// has the higher number, so the grants come by rising unit.
    fn give_up(&mut self, c: usize, core: &Core, two: bool, ticket: u16) -> Outcome {
        let mut outcome = Outcome::of(0, ticket);
        self.unit[core.first as usize][c] = Register::default();
        if two {
            self.unit[core.second as usize][c] = Register::default();
        }
        self.settle(core.first, &mut outcome);
        if two {
            self.settle(core.second, &mut outcome);
        }
        outcome
    }

    /// Sees from the registers who is next at the unit, and grants it to that one
    /// where nobody has it. Only the units that were left need this: the others were
    /// settled before. Whoever is away when its turn comes is dropped, which happens in
    /// D alone: in T nobody is in line and away.
    fn settle(&mut self, unit: u16, outcome: &mut Outcome) {
        let cores = self.cores as usize;
        let touched = &mut self.unit[unit as usize];
        let mut next = Next::passed(&touched.registers[..cores]);
        while next.valid && !next.held && self.core[next.core as usize].state.is_away() {
            self.core[next.core as usize] = Core::dropped(unit);
            touched[next.core as usize] = Register::default();
            next = Next::passed(&touched.registers[..cores]);
        }
        if next.valid && !next.held {
            touched[next.core as usize].flag = true;
            outcome.grant(unit, next.core);
            next = Next::passed(&touched.registers[..cores]);
        }
        touched.next = next;
    }

    pub fn sound(&self) -> bool {
        let (first_class, second_class) = (self.first_class, self.second_class);
        if !(self.profile).counts_in_range(self.cores, first_class, second_class) {
            return false;
        }
        let cores = self.cores as usize;
        let units = self.units() as usize;
        let blank_core = Core::default();
        let blank = Register::default();
        self.core[cores..].iter().all(|core| *core == blank_core)
            && self.unit[units..]
                .iter()
                .flat_map(|unit| &unit.registers)
                .all(|register| *register == blank)
            && (0..cores).all(|c| self.core_sound(c))
            && (0..units).all(|u| self.unit_sound(u))
            && self
                .unit
                .iter()
                .all(|unit| unit.next == Next::of(&unit.registers))
    }

    /// Ticket, names of units and class of one core.
    fn core_sound(&self, c: usize) -> bool {
        let core = &self.core[c];
        if core.state == State::Idle {
            return *core == Core::default();
        }
        if !self.live(c) {
            // Nothing is left of it but the unit it names.
            return *core == Core::dropped(core.first) && core.first < self.units();
        }
        let of_profile = match core.state {
            State::Away => self.profile == Profile::T,
            State::Marked => self.profile == Profile::D,
            State::Dropped => false,
            _ => true,
        };
        if !of_profile {
            return false;
        }
        let recent = match compare(core.own, self.counter) {
            // 1 to 32,767 behind, and 32,768.
            Comparison::Older | Comparison::Opposite => true,
            Comparison::Younger | Comparison::Same => false,
        };
        if !recent || core.first >= self.units() {
            return false;
        }
        let mut others = self.core.iter().enumerate().filter(|(d, _)| *d != c);
        if others
            .clone()
            .any(|(d, o)| o.own == core.own && self.live(d))
        {
            return false;
        }
        match core.state {
            State::WaitingSecond | State::HoldingBoth => {
                core.first < self.first_class
                    && core.second >= self.first_class
                    && core.second < self.units()
                    && (core.carried == core.own
                        || older(core.carried, core.own)
                            && others.any(|(_, o)| {
                                matches!(o.state, State::Waiting | State::Away)
                                    && o.own == core.carried
                                    && o.first == core.first
                            }))
            }
            _ => core.second == 0 && core.carried == core.own,
        }
    }

    /// Registers against the cores' states, and the number of flags.
    fn unit_sound(&self, u: usize) -> bool {
        let mut valid = 0;
        let mut flags = 0;
        for (register, core) in self.unit[u].registers.iter().zip(&self.core) {
            let at_first = core.first as usize == u;
            let at_second = core.second as usize == u;
            // The ticket to show and whether the flag has to be set.
            let due = match core.state {
                State::Waiting if at_first => Some((core.own, false)),
                State::Holding | State::WaitingSecond | State::HoldingBoth if at_first => {
                    Some((core.own, true))
                }
                State::WaitingSecond if at_second => Some((core.carried, false)),
                State::HoldingBoth if at_second => Some((core.carried, true)),
                State::Marked if at_first => Some((core.own, false)),
                _ => None,
            };
            if core.state == State::Marked && register.flag {
                return false;
            }
            let agrees = match due {
                Some((ticket, held)) => {
                    register.valid && register.ticket == ticket && (register.flag || !held)
                }
                None => *register == Register::default(),
            };
            if !agrees {
                return false;
            }
            valid += register.valid as u32;
            flags += register.flag as u32;
        }
        flags == (valid > 0) as u32
    }
}

#[cfg(test)]
mod tests {
    use super::*;
    use Kind::*;

    fn make(table: &mut Table, kind: Kind, core: u16, unit: u16) -> (u8, u16, Vec<(u16, u16)>) {
        let outcome = table.step(Step { kind, core, unit });
        assert!(table.sound(), "{table:?}");
        (
            outcome.answer,
            outcome.ticket,
            outcome.grants[..outcome.granted].to_vec(),
        )
    }

    #[test]
    fn compared_as_listed() {
        for (a, b, expected) in [
            (65535, 0, "older"),
            (0, 65535, "younger"),
            (0, 32767, "older"),
            (32767, 0, "younger"),
            (0, 32768, "opposite"),
            (32768, 0, "opposite"),
            (7, 7, "same"),
        ] {
            assert_eq!(compare(a, b).word(), expected, "{a} {b}");
        }
    }

    /// Every difference, from tickets on both sides of a wrap.
    #[test]
    fn compared_by_the_difference() {
        for b in [0u16, 1, 7, 32_767, 32_768, 65_535] {
            for d in 0..=65_535u16 {
                let expected = if d == 0 {
                    Comparison::Same
                } else if d < 32_768 {
                    Comparison::Younger
                } else if d == 32_768 {
                    Comparison::Opposite
                } else {
                    Comparison::Older
                };
                assert_eq!(compare(b.wrapping_add(d), b), expected, "{d} on from {b}");
            }
        }
    }

    /// Ticket 0 held by core 0, and the counter moved on to `counter`.
    fn ticket_0_live(counter: u16) -> Table {
        let mut table = Table::fresh(2, 2, 0, 0).unwrap();
        assert_eq!(make(&mut table, Request, 0, 0), (0, 0, vec![(0, 0)]));
        for _ in 1..counter {
            make(&mut table, Request, 1, 1);
            make(&mut table, Poll, 1, 0);
            make(&mut table, Leave, 1, 0);
        }
        assert_eq!(table.counter, counter);
        table
    }

    #[test]
    fn a_request_half_the_circle_on() {
        let mut table = ticket_0_live(32_767);
        assert_eq!(make(&mut table, Request, 1, 0), (0, 32_767, vec![]));
        let mut table = ticket_0_live(32_768);
        let before = table.clone();
        assert_eq!(make(&mut table, Request, 1, 0), (15, 0, vec![]));
        assert_eq!(table, before);
        // Also while the core of ticket 0 is away; no longer once it has ended.
        make(&mut table, Interrupt, 0, 0);
        assert_eq!(make(&mut table, Request, 1, 0).0, 15);
        make(&mut table, Continue, 0, 0);
        make(&mut table, Poll, 0, 0);
        make(&mut table, Leave, 0, 0);
        assert_eq!(make(&mut table, Request, 1, 0), (0, 32_768, vec![(0, 1)]));
    }

    #[test]
    fn refusals_in_order() {
        let mut table = Table::fresh(2, 1, 1, 9).unwrap();
        for (kind, core, unit, answer) in [
            (Request, 2, 2, 10),
            (Nest, 65_535, 0, 10),
            (Request, 0, 2, 11),
            (Nest, 0, 2, 11),
            (Nest, 0, 0, 12),
            (Poll, 0, 0, 12),
            (Interrupt, 0, 0, 12),
            (Continue, 0, 0, 12),
            (Leave, 0, 0, 12),
        ] {
            let before = table.clone();
            assert_eq!(make(&mut table, kind, core, unit), (answer, 0, vec![]));
            assert_eq!(table, before);
        }
        make(&mut table, Request, 0, 0);
        assert_eq!(make(&mut table, Request, 0, 0).0, 12);
        assert_eq!(make(&mut table, Request, 0, 2).0, 11);
        assert_eq!(make(&mut table, Leave, 0, 0).0, 12);
        make(&mut table, Poll, 0, 0);
        assert_eq!(make(&mut table, Interrupt, 0, 0).0, 14);
        assert_eq!(make(&mut table, Nest, 0, 0).0, 13);
        make(&mut table, Nest, 0, 1);
        assert_eq!(make(&mut table, Leave, 0, 0).0, 12);
        assert_eq!(make(&mut table, Nest, 0, 1).0, 12);
        make(&mut table, Poll, 0, 0);
        assert_eq!(make(&mut table, Interrupt, 0, 0).0, 14);
        // Held second-class: nothing to nest in.
        make(&mut table, Leave, 0, 0);
        make(&mut table, Request, 0, 1);
        make(&mut table, Poll, 0, 0);
        assert_eq!(make(&mut table, Nest, 0, 1).0, 13);
    }

    #[test]
    fn inherits_from_the_first_unit_and_gives_it_back() {
        let mut table = Table::fresh(4, 1, 1, 65_534).unwrap();
        make(&mut table, Request, 3, 1); // 65534 keeps the second unit
        make(&mut table, Poll, 3, 0);
        make(&mut table, Request, 0, 0); // 65535
        make(&mut table, Interrupt, 0, 0);
        make(&mut table, Request, 1, 0); // 0
        make(&mut table, Poll, 1, 0);
        assert_eq!(make(&mut table, Nest, 1, 1), (0, 0, vec![]));
        assert_eq!(make(&mut table, Poll, 1, 0), (2, 0, vec![]));
        // The same ticket as before on the return, and it is the older one.
        assert_eq!(make(&mut table, Continue, 0, 0), (0, 65_535, vec![]));
        assert_eq!(make(&mut table, Poll, 1, 0), (2, 65_535, vec![]));
        assert_eq!(table.unit[1][1].ticket, 65_535);
        // Its giver goes away: it stands until the next poll, which gives it back.
        make(&mut table, Interrupt, 0, 0);
        assert_eq!(table.unit[1][1].ticket, 65_535);
        assert_eq!(make(&mut table, Poll, 1, 0), (2, 0, vec![]));
        assert_eq!((table.core[1].carried, table.unit[1][1].ticket), (0, 0));
        // Back again, it gives again; an interrupt of the heir drops it too.
        make(&mut table, Continue, 0, 0);
        assert_eq!(make(&mut table, Poll, 1, 0), (2, 65_535, vec![]));
        make(&mut table, Interrupt, 0, 0);
        assert_eq!(make(&mut table, Interrupt, 1, 0), (0, 0, vec![]));
        assert_eq!(make(&mut table, Continue, 1, 0), (0, 0, vec![(0, 1)]));
        // A flag nobody polled does not mask the interrupt.
        assert_eq!(make(&mut table, Interrupt, 1, 0), (0, 0, vec![]));
    }

    #[test]
    fn two_grants_by_rising_unit() {
        let mut table = Table::fresh(3, 1, 1, 0).unwrap();
        make(&mut table, Request, 0, 0);
        make(&mut table, Poll, 0, 0);
        make(&mut table, Nest, 0, 1);
        make(&mut table, Poll, 0, 0);
        make(&mut table, Request, 2, 1);
        make(&mut table, Request, 1, 0);
        assert_eq!(make(&mut table, Leave, 0, 0), (0, 0, vec![(0, 1), (1, 2)]));
    }

    fn nobody(held: bool) -> Next {
        Next {
            held,
            ..Next::default()
        }
    }

    /// Behind a holder.
    fn waits(ticket: u16, core: u16) -> Next {
        Next {
            ticket,
            core,
            valid: true,
            held: true,
        }
    }

    /// Document 01's run, and who is next at its two units after each step.
    #[test]
    fn next_through_the_run() {
        let mut table = Table::fresh(3, 1, 1, 65_535).unwrap();
        assert_eq!(table.unit, [Unit::default(); MAX_UNITS]);
        for (kind, core, unit, answer, first, second) in [
            (Request, 0, 1, 0, nobody(false), nobody(true)),
            (Poll, 0, 0, 1, nobody(false), nobody(true)),
            (Request, 2, 0, 0, nobody(true), nobody(true)),
            (Request, 1, 0, 0, waits(1, 1), nobody(true)),
            // Core 2 had the flag: core 1 has it now.
            (Interrupt, 2, 0, 0, nobody(true), nobody(true)),
            (Poll, 1, 0, 1, nobody(true), nobody(true)),
            (Nest, 1, 1, 0, nobody(true), waits(1, 1)),
            (Continue, 2, 0, 0, waits(0, 2), waits(1, 1)),
            // Inherits 0.
            (Poll, 1, 0, 2, waits(0, 2), waits(0, 1)),
            (Interrupt, 0, 0, 14, waits(0, 2), waits(0, 1)),
            (Leave, 0, 0, 0, waits(0, 2), nobody(true)),
            (Poll, 1, 0, 1, waits(0, 2), nobody(true)),
            (Leave, 1, 0, 0, nobody(true), nobody(false)),
        ] {
            assert_eq!(make(&mut table, kind, core, unit).0, answer);
            let next = [table.unit[0].next, table.unit[1].next];
            assert_eq!(next, [first, second], "{kind:?} {core}");
            assert_eq!(table.unit[2..], [Unit::default(); 14]);
        }
    }

    /// One unit, at which cores go and come in all ways. Tickets 65534, 65535, 0, 1.
    #[test]
    fn next_at_one_unit() {
        let mut table = Table::fresh(4, 1, 0, 65_534).unwrap();
        for (kind, core, next) in [
            (Request, 3, nobody(true)),
            (Request, 1, waits(65_535, 1)),
            // Younger ones change nothing.
            (Request, 0, waits(65_535, 1)),
            (Request, 2, waits(65_535, 1)),
            // One that is not next goes away, and comes back.
            (Interrupt, 0, waits(65_535, 1)),
            (Continue, 0, waits(65_535, 1)),
            // The next one goes, and then the one next after it.
            (Interrupt, 1, waits(0, 0)),
            (Interrupt, 0, waits(1, 2)),
            (Continue, 0, waits(0, 0)),
            (Continue, 1, waits(65_535, 1)),
            // The flag goes to the next one, and to the one next after it.
            (Interrupt, 3, waits(0, 0)),
            (Continue, 3, waits(65_534, 3)),
            (Poll, 1, waits(65_534, 3)),
            (Leave, 1, waits(0, 0)),
            (Poll, 3, waits(0, 0)),
            (Leave, 3, waits(1, 2)),
            (Interrupt, 2, nobody(true)),
            (Interrupt, 0, nobody(false)),
            (Continue, 2, nobody(true)),
        ] {
            make(&mut table, kind, core, 0);
            assert_eq!(table.unit[0].next, next, "{kind:?} {core}");
        }
    }

    /// What a core carries makes it next at its second unit, and no longer once it
    /// is given back. Core 3 holds unit 2; cores 0 and 1 hold units 0 and 1.
    #[test]
    fn next_by_an_inherited_ticket() {
        let mut table = Table::fresh(5, 2, 1, 10).unwrap();
        make(&mut table, Request, 2, 1); // 10
        make(&mut table, Interrupt, 2, 0);
        for (core, unit) in [(3, 2), (0, 0), (1, 1)] {
            make(&mut table, Request, core, unit); // 11, 12, 13
            make(&mut table, Poll, core, 0);
        }
        make(&mut table, Nest, 1, 2);
        assert_eq!(table.unit[2].next, waits(13, 1));
        make(&mut table, Nest, 0, 2);
        assert_eq!(table.unit[2].next, waits(12, 0));
        make(&mut table, Continue, 2, 0);
        assert_eq!(table.unit[1].next, waits(10, 2));
        assert_eq!(table.unit[2].next, waits(12, 0));
        make(&mut table, Poll, 1, 0);
        assert_eq!(table.unit[2].next, waits(10, 1));
        make(&mut table, Interrupt, 2, 0);
        assert_eq!(table.unit[1].next, nobody(true));
        assert_eq!(table.unit[2].next, waits(10, 1));
        make(&mut table, Poll, 1, 0);
        assert_eq!(table.unit[2].next, waits(12, 0));
        // Both units of a release: core 4 stands behind core 0 at the first.
        make(&mut table, Request, 4, 0); // 14
        assert_eq!(make(&mut table, Leave, 3, 0).2, [(2, 0)]);
        assert_eq!(table.unit[2].next, waits(13, 1));
        make(&mut table, Poll, 0, 0);
        assert_eq!(make(&mut table, Leave, 0, 0).2, [(0, 4), (2, 1)]);
        assert_eq!(table.unit[0].next, nobody(true));
        assert_eq!(table.unit[2].next, nobody(true));
    }

    /// Core 0 holds unit 0 with 5, cores 1 and 2 wait with 6 and 7; core 1 is next.
    #[test]
    fn another_next_is_16() {
        let mut table = Table::fresh(3, 1, 1, 5).unwrap();
        for core in 0..3 {
            make(&mut table, Request, core, 0);
        }
        make(&mut table, Poll, 0, 0);
        assert_eq!(table.unit[0].next, waits(6, 1));
        for (unit, next) in [
            (0, waits(7, 1)),
            (0, waits(6, 2)),
            (0, waits(6, 65_535)),
            (
                0,
                Next {
                    valid: false,
                    ..waits(6, 1)
                },
            ),
            (
                0,
                Next {
                    held: false,
                    ..waits(6, 1)
                },
            ),
            (0, nobody(true)),
            (0, nobody(false)),
            (0, waits(5, 0)),
            (0, waits(7, 2)),
            (1, nobody(true)),
            (1, waits(6, 1)),
            (
                1,
                Next {
                    valid: true,
                    ..nobody(false)
                },
            ),
            (
                1,
                Next {
                    ticket: 6,
                    ..nobody(false)
                },
            ),
            (
                1,
                Next {
                    core: 1,
                    ..nobody(false)
                },
            ),
            (2, nobody(true)),
            (
                15,
                Next {
                    core: 1,
                    ..nobody(false)
                },
            ),
        ] {
            let mut wrong = table.clone();
            wrong.unit[unit].next = next;
            for kind in [Request, Nest, Poll, Interrupt, Continue, Leave] {
                let mut left = wrong.clone();
                let core = 9;
                let outcome = left.step_any(Step {
                    kind,
                    core,
                    unit: 0,
                });
                assert_eq!(outcome, Outcome::refused(16), "{unit} {next:?}");
                assert_eq!(left, wrong);
            }
        }
    }

    /// The registers of one unit, by ticket and flag, and who is next by them.
    #[test]
    fn next_of_any_registers() {
        let register = |(ticket, flag)| Register {
            ticket,
            valid: true,
            flag,
        };
        for (line, next) in [
            (vec![], nobody(false)),
            (vec![(5, true)], nobody(true)),
            (
                vec![(5, false)],
                Next {
                    held: false,
                    ..waits(5, 0)
                },
            ),
            (vec![(5, true), (7, false), (6, false)], waits(6, 2)),
            (
                vec![(0, true), (1, false), (65_535, false)],
                waits(65_535, 2),
            ),
            (vec![(7, true), (5, false), (5, false)], nobody(true)),
            (
                vec![(7, true), (5, false), (4, false), (5, false)],
                waits(4, 2),
            ),
            (vec![(7, true), (5, false), (32_773, false)], nobody(true)),
            (vec![(7, true), (5, false), (32_772, false)], waits(5, 1)),
            (
                vec![(7, true), (5, false), (32_774, false)],
                waits(32_774, 2),
            ),
            (
                vec![(0, false), (21_845, false), (43_690, false)],
                nobody(false),
            ),
            (
                vec![(43_690, false), (7, true), (21_845, false), (0, false)],
                nobody(true),
            ),
            (
                vec![(0, true), (21_845, false), (43_690, false)],
                waits(21_845, 1),
            ),
        ] {
            let registers: Vec<Register> = line.into_iter().map(register).collect();
            assert_eq!(Next::of(&registers), next, "{registers:?}");
        }
    }

    #[test]
    fn soundness_at_the_window() {
        let mut table = Table::fresh(1, 1, 0, 100).unwrap();
        make(&mut table, Request, 0, 0);
        for (ahead, expected) in [(0, false), (1, true), (32_768, true), (32_769, false)] {
            table.counter = 100u16.wrapping_add(ahead);
            assert_eq!(table.sound(), expected, "{ahead}");
        }
    }

    fn dequeueing(cores: u16, first_class: u16, counter: u16) -> Table {
        Table::fresh_in(Profile::D, [cores, first_class, 0], counter).unwrap()
    }

    /// Away with no ticket, naming this unit still.
    fn dropped(first: u16) -> Core {
        Core {
            state: State::Dropped,
            own: 0,
            carried: 0,
            first,
            second: 0,
        }
    }

    /// Makes the steps one by one: each with its answer, ticket and grants, and who is
    /// next in line at unit 0 then.
    type Made = (Kind, u16, u16, u8, u16, &'static [(u16, u16)], Next);

    fn make_all(table: &mut Table, steps: &[Made]) {
        for (number, (kind, core, unit, answer, ticket, grants, next)) in steps.iter().enumerate() {
            let before = table.clone();
            let made = make(table, *kind, *core, *unit);
            let expected = (*answer, *ticket, grants.to_vec());
            assert_eq!(made, expected, "step {number}: {kind:?} {core}");
            assert_eq!(table.unit[0].next, *next, "step {number}: {kind:?} {core}");
            assert!(*answer < 10 || *table == before, "step {number}");
        }
    }

    #[test]
    fn d_has_no_second_class() {
        for (second, good) in [(0, true), (1, false), (8, false), (9, false)] {
            let table = Table::fresh_in(Profile::D, [1, 1, second], 0);
            assert_eq!(table.is_some(), good);
        }
        for counts in [[0, 1, 0], [33, 1, 0], [1, 0, 0], [1, 9, 0]] {
            assert_eq!(Table::fresh_in(Profile::D, counts, 0), None);
        }
        let mut table = dequeueing(1, 2, 0);
        assert!(table.sound());
        table.second_class = 1;
        assert!(!table.sound());
        // N meets the refusals of T, in their order.
        let mut table = dequeueing(1, 2, 0);
        assert_eq!(make(&mut table, Nest, 1, 2).0, 10);
        assert_eq!(make(&mut table, Nest, 0, 2).0, 11);
        assert_eq!(make(&mut table, Nest, 0, 1).0, 12);
        make(&mut table, Request, 0, 0);
        assert_eq!(make(&mut table, Nest, 0, 1).0, 12);
        make(&mut table, Poll, 0, 0);
        assert_eq!(make(&mut table, Nest, 0, 2).0, 11);
        assert_eq!(make(&mut table, Nest, 0, 1).0, 13);
    }

    /// Cores 1 and 2 are away in line when core 0 releases: both are dropped, and core
    /// 3 is granted. They come back with new tickets, in the order of their return.
    #[test]
    fn two_dropped_in_one_release() {
        let mut table = dequeueing(4, 2, 10);
        make_all(
            &mut table,
            &[
                (Request, 0, 0, 0, 10, &[(0, 0)], nobody(true)),
                (Poll, 0, 0, 1, 10, &[], nobody(true)),
                (Request, 1, 0, 0, 11, &[], waits(11, 1)),
                (Request, 2, 0, 0, 12, &[], waits(11, 1)),
                (Request, 3, 0, 0, 13, &[], waits(11, 1)),
                // The next in line is shown, away or not.
                (Interrupt, 1, 0, 0, 11, &[], waits(11, 1)),
                (Interrupt, 2, 0, 0, 12, &[], waits(11, 1)),
                (Interrupt, 2, 0, 12, 0, &[], waits(11, 1)),
                (Poll, 1, 0, 12, 0, &[], waits(11, 1)),
                (Leave, 1, 0, 12, 0, &[], waits(11, 1)),
                (Request, 1, 1, 12, 0, &[], waits(11, 1)),
                (Leave, 0, 0, 0, 10, &[(0, 3)], nobody(true)),
            ],
        );
        assert_eq!(table.counter, 14);
        assert_eq!(table.core[0], Core::default());
        assert_eq!(table.core[1..3], [dropped(0); 2]);
        assert_eq!(table.core[3].state, State::Waiting);
        let valid: Vec<bool> = table.unit[0].registers.iter().map(|r| r.valid).collect();
        assert_eq!(valid[..4], [false, false, false, true]);
        make_all(
            &mut table,
            &[
                (Interrupt, 1, 0, 12, 0, &[], nobody(true)),
                (Request, 1, 1, 12, 0, &[], nobody(true)),
                (Continue, 2, 0, 0, 14, &[], waits(14, 2)),
                (Continue, 1, 0, 0, 15, &[], waits(14, 2)),
                (Continue, 1, 0, 12, 0, &[], waits(14, 2)),
                (Poll, 3, 0, 1, 13, &[], waits(14, 2)),
                (Interrupt, 3, 0, 14, 0, &[], waits(14, 2)),
                // One of the two is away: it is passed over, and dropped again.
                (Interrupt, 2, 0, 0, 14, &[], waits(14, 2)),
                (Leave, 3, 0, 0, 13, &[(0, 1)], nobody(true)),
            ],
        );
        assert_eq!(table.core[2], dropped(0));
    }

    /// Nobody is left to grant to: all in line are dropped, and the unit is free.
    #[test]
    fn all_in_line_dropped() {
        let mut table = dequeueing(4, 1, 65_534);
        make_all(
            &mut table,
            &[
                (Request, 2, 0, 0, 65_534, &[(0, 2)], nobody(true)),
                (Request, 3, 0, 0, 65_535, &[], waits(65_535, 3)),
                (Request, 0, 0, 0, 0, &[], waits(65_535, 3)),
                (Request, 1, 0, 0, 1, &[], waits(65_535, 3)),
                (Interrupt, 0, 0, 0, 0, &[], waits(65_535, 3)),
                (Interrupt, 1, 0, 0, 1, &[], waits(65_535, 3)),
                (Interrupt, 3, 0, 0, 65_535, &[], waits(65_535, 3)),
                (Poll, 2, 0, 1, 65_534, &[], waits(65_535, 3)),
                (Leave, 2, 0, 0, 65_534, &[], nobody(false)),
            ],
        );
        assert_eq!(table.unit, [Unit::default(); MAX_UNITS]);
        assert_eq!(table.core[..2], [dropped(0); 2]);
        assert_eq!(table.core[3], dropped(0));
        make_all(
            &mut table,
            &[
                (Continue, 1, 0, 0, 2, &[(0, 1)], nobody(true)),
                (Continue, 0, 0, 0, 3, &[], waits(3, 0)),
            ],
        );
    }

    /// A younger one that is away stays in line behind the one that is granted, and
    /// comes back with its ticket and its place.
    #[test]
    fn back_in_line() {
        let mut table = dequeueing(4, 1, 65_535);
        make_all(
            &mut table,
            &[
                (Request, 0, 0, 0, 65_535, &[(0, 0)], nobody(true)),
                (Request, 1, 0, 0, 0, &[], waits(0, 1)),
                (Request, 2, 0, 0, 1, &[], waits(0, 1)),
                (Request, 3, 0, 0, 2, &[], waits(0, 1)),
                (Interrupt, 2, 0, 0, 1, &[], waits(0, 1)),
                (Poll, 0, 0, 1, 65_535, &[], waits(0, 1)),
                (Leave, 0, 0, 0, 65_535, &[(0, 1)], waits(1, 2)),
                (Continue, 2, 0, 0, 1, &[], waits(1, 2)),
                (Poll, 2, 0, 2, 1, &[], waits(1, 2)),
                (Interrupt, 2, 0, 0, 1, &[], waits(1, 2)),
                (Continue, 2, 0, 0, 1, &[], waits(1, 2)),
                (Poll, 1, 0, 1, 0, &[], waits(1, 2)),
                (Leave, 1, 0, 0, 0, &[(0, 2)], waits(2, 3)),
            ],
        );
        assert_eq!(table.counter, 3);
    }

    /// With its flag set and not polled: it gives the unit up, its ticket is reported
    /// and ended, and it comes back behind the others. Ticket 0 among them.
    #[test]
    fn interrupted_with_the_flag() {
        let mut table = dequeueing(3, 2, 0);
        make_all(
            &mut table,
            &[
                (Request, 0, 1, 0, 0, &[(1, 0)], nobody(false)),
                (Interrupt, 0, 0, 0, 0, &[], nobody(false)),
            ],
        );
        assert_eq!(table.core[0], dropped(1));
        assert_eq!(table.unit, [Unit::default(); MAX_UNITS]);
        make_all(
            &mut table,
            &[
                (Continue, 0, 0, 0, 1, &[(1, 0)], nobody(false)),
                (Request, 1, 1, 0, 2, &[], nobody(false)),
                (Request, 2, 1, 0, 3, &[], nobody(false)),
                (Interrupt, 1, 0, 0, 2, &[], nobody(false)),
                // Core 1 is dropped on the way to core 2.
                (Interrupt, 0, 0, 0, 1, &[(1, 2)], nobody(false)),
            ],
        );
        assert_eq!(table.core[..2], [dropped(1); 2]);
        assert_eq!(table.unit[1].next, nobody(true));
        assert_eq!(make(&mut table, Continue, 0, 0), (0, 4, vec![]));
        assert_eq!(table.unit[1].next, waits(4, 0));
    }

    /// Core 3 enters when 65534, 65535 and 0 are live and earlier, two of them of cores
    /// that are away in line. These come back, and both are granted before it; the third
    /// had the flag at its entry. More is not to be had: see `passed` in `make`.
    #[test]
    fn passed_as_often_as_can_be_across_the_wrap() {
        let mut table = dequeueing(4, 1, 65_534);
        make_all(
            &mut table,
            &[
                (Request, 0, 0, 0, 65_534, &[(0, 0)], nobody(true)),
                (Request, 1, 0, 0, 65_535, &[], waits(65_535, 1)),
                (Request, 2, 0, 0, 0, &[], waits(65_535, 1)),
                (Interrupt, 1, 0, 0, 65_535, &[], waits(65_535, 1)),
                (Interrupt, 2, 0, 0, 0, &[], waits(65_535, 1)),
                (Request, 3, 0, 0, 1, &[], waits(65_535, 1)),
                (Continue, 2, 0, 0, 0, &[], waits(65_535, 1)),
                (Continue, 1, 0, 0, 65_535, &[], waits(65_535, 1)),
                (Interrupt, 0, 0, 0, 65_534, &[(0, 1)], waits(0, 2)),
                (Continue, 0, 0, 0, 2, &[], waits(0, 2)),
                (Poll, 1, 0, 1, 65_535, &[], waits(0, 2)),
                (Leave, 1, 0, 0, 65_535, &[(0, 2)], waits(1, 3)),
                (Poll, 3, 0, 2, 1, &[], waits(1, 3)),
                (Poll, 2, 0, 1, 0, &[], waits(1, 3)),
                (Leave, 2, 0, 0, 0, &[(0, 3)], waits(2, 0)),
                (Poll, 3, 0, 1, 1, &[], waits(2, 0)),
            ],
        );
    }

    /// Core 0 holds unit 0 with ticket 0, core 1 was dropped from unit 1, core 2 moves
    /// the counter on. 15 for R and for C alike, once 0 lies 32,768 behind; not for C of
    /// one that is in line.
    #[test]
    fn coming_back_half_the_circle_on() {
        for (counter, answer) in [(32_767, 0), (32_768, 15)] {
            let mut table = dequeueing(5, 3, 0);
            make(&mut table, Request, 0, 0); // 0
            make(&mut table, Poll, 0, 0);
            make(&mut table, Request, 3, 0); // 1
            make(&mut table, Interrupt, 3, 0);
            make(&mut table, Request, 1, 1); // 2
            assert_eq!(make(&mut table, Interrupt, 1, 0), (0, 2, vec![]));
            while table.counter != counter {
                make(&mut table, Request, 2, 2);
                make(&mut table, Poll, 2, 0);
                make(&mut table, Leave, 2, 0);
            }
            let before = table.clone();
            let refused = (15, 0, vec![]);
            if answer == 15 {
                assert_eq!(make(&mut table, Continue, 1, 0), refused);
                assert_eq!(make(&mut table, Request, 4, 2), refused);
                // 12 comes first.
                assert_eq!(make(&mut table, Continue, 4, 0).0, 12);
                assert_eq!(table, before);
                assert_eq!(make(&mut table, Continue, 3, 0), (0, 1, vec![]));
                make(&mut table, Interrupt, 3, 0);
                // Ticket 0 ends, and 1 with it: core 3 is dropped.
                assert_eq!(make(&mut table, Leave, 0, 0), (0, 0, vec![]));
                assert_eq!(table.core[3], dropped(0));
                let made = make(&mut table, Continue, 1, 0);
                assert_eq!(made, (0, 32_768, vec![(1, 1)]));
                // The blank 0 of the one that was dropped is no ticket: 15 and the
                // window pass over it.
                assert_eq!(make(&mut table, Request, 4, 2), (0, 32_769, vec![(2, 4)]));
            } else {
                let made = make(&mut table, Continue, 1, 0);
                assert_eq!(made, (0, 32_767, vec![(1, 1)]));
            }
        }
    }

    /// Core 0 holds unit 0 with 5, core 1 is away in line with 6, core 2 waits with 7,
    /// core 3 was dropped from unit 1; core 4 is idle.
    #[test]
    fn sound_in_d() {
        let mut table = dequeueing(5, 2, 4);
        make(&mut table, Request, 3, 1); // 4
        make(&mut table, Interrupt, 3, 0);
        for core in 0..3 {
            make(&mut table, Request, core, 0);
        }
        make(&mut table, Poll, 0, 0);
        make(&mut table, Interrupt, 1, 0);
        assert_eq!(table.unit[0].next, waits(6, 1));
        type Change = (&'static str, fn(&mut Table), bool);
        let changes: [Change; 26] = [
            (
                "marked as T has it",
                |t| t.core[1].state = State::Away,
                false,
            ),
            (
                "dropped as T has it",
                |t| t.core[3].state = State::Away,
                false,
            ),
            (
                "marked, called dropped",
                |t| t.core[1].state = State::Dropped,
                false,
            ),
            (
                "dropped, called marked",
                |t| t.core[3].state = State::Marked,
                false,
            ),
            (
                "waiting, called marked",
                |t| t.core[2].state = State::Marked,
                true,
            ),
            (
                "holding, called marked",
                |t| t.core[0].state = State::Marked,
                false,
            ),
            (
                "idle, called dropped",
                |t| t.core[4].state = State::Dropped,
                true,
            ),
            ("of T", |t| t.profile = Profile::T, false),
            ("own ticket kept", |t| t.core[3].own = 4, false),
            ("carried ticket kept", |t| t.core[3].carried = 4, false),
            ("a second unit", |t| t.core[3].second = 1, false),
            ("a unit past the table", |t| t.core[3].first = 2, false),
            ("another unit named", |t| t.core[3].first = 0, true),
            ("a unit past all", |t| t.core[3].first = 65_535, false),
            ("the flag", |t| t.unit[0][1].flag = true, false),
            (
                "the flag for the holder's",
                |t| {
                    t.unit[0][1].flag = true;
                    t.unit[0][0].flag = false;
                },
                false,
            ),
            (
                "out of line with its ticket",
                |t| t.unit[0][1] = Register::default(),
                false,
            ),
            (
                "out of line without",
                |t| {
                    t.unit[0][1] = Register::default();
                    t.core[1] = dropped(0);
                },
                true,
            ),
            ("another ticket in line", |t| t.unit[0][1].ticket = 4, false),
            ("another own ticket", |t| t.core[1].own = 4, false),
            ("carries another", |t| t.core[1].carried = 5, false),
            ("names another unit", |t| t.core[1].first = 1, false),
            ("in line at two", |t| t.unit[1][1] = t.unit[0][1], false),
            (
                "ticket 0 in line",
                |t| {
                    (t.core[1].own, t.core[1].carried) = (0, 0);
                    t.unit[0][1].ticket = 0;
                },
                true,
            ),
            (
                "nobody there who is not away",
                |t| {
                    t.unit[0][0] = Register::default();
                    t.unit[0][2] = Register::default();
                    (t.core[0], t.core[2]) = (Core::default(), Core::default());
                },
                false,
            ),
            (
                "waits at a second",
                |t| (t.core[0].state, t.core[0].second) = (State::WaitingSecond, 1),
                false,
            ),
        ];
        for (name, change, sound) in changes {
            let mut changed = table.clone();
            change(&mut changed);
            for unit in &mut changed.unit {
                unit.next = Next::of(&unit.registers);
            }
            assert_eq!(changed.sound(), sound, "{name}");
            if !sound {
                let before = changed.clone();
                let step = Step {
                    kind: Continue,
                    core: 9,
                    unit: 0,
                };
                assert_eq!(changed.step_any(step), Outcome::refused(16), "{name}");
                assert_eq!(changed, before);
            }
        }
        // The next in line may not pass over the one that is away.
        table.unit[0].next = waits(7, 2);
        assert!(!table.sound());
        // In T an away core's 0 is a ticket.
        let mut table = Table::fresh(1, 1, 0, 1).unwrap();
        make(&mut table, Request, 0, 0);
        table.core[0].own = 0;
        table.core[0].carried = 0;
        table.counter = 1;
        table.core[0].state = State::Away;
        table.unit[0] = Unit::default();
        assert!(table.sound());
        table.counter = 0;
        assert!(!table.sound());
        // In D nobody is away so; a dropped core's 0 is no ticket.
        table.profile = Profile::D;
        assert!(!table.sound());
        table.core[0].state = State::Dropped;
        assert!(table.sound());
        // In T nobody is dropped, and nobody marked.
        for counter in [0, 1] {
            table.counter = counter;
            assert!(table.sound());
            table.profile = Profile::T;
            assert!(!table.sound());
            table.core[0].state = State::Marked;
            assert!(!table.sound());
            table.core[0].state = State::Dropped;
            table.profile = Profile::D;
        }
    }
}
