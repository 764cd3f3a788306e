//! Cases that are no scripts: sound and broken tables, steps on them, words,
//! registers, images.

use crate::cases;
use crate::lines::{self, Kinds};
use crate::make::{any_counts, edge_counter, Maker, Profiles};
use crate::rng::Rng;
use crate::table::{
    older, Core, Kind, Next, Profile, Register, State, Step, Table, Unit, MAX_CORES, MAX_UNITS,
};
use crate::words;

const STATES: [State; 8] = [
    State::Idle,
    State::Waiting,
    State::Holding,
    State::WaitingSecond,
    State::HoldingBoth,
    State::Away,
    State::Marked,
    State::Dropped,
];
/// Those of T. In D a core that is away is one of the two others.
const STATES_T: usize = 6;

/// A table reached by a run; those with an inherited ticket are preferred.
/// In D, those in which cores are away.
fn reached(rng: &mut Rng, profiles: Profiles) -> Table {
    let wanted = rng.chance(60);
    let mut maker = Maker::any(Rng::new(rng.draw(), 0), profiles);
    for _ in 0..rng.within(0, 300) {
        maker.next_step();
        let fits = |c: &Core| match maker.table.profile {
            Profile::T => c.carried != c.own,
            Profile::D => c.state.is_away(),
        };
        if wanted && rng.chance(30) && maker.table.core.iter().any(fits) {
            break;
        }
    }
    maker.table
}

/// A sound table put together, reached by a run or not.
fn built(rng: &mut Rng, profiles: Profiles) -> Table {
    let profile = profiles.any(rng);
    let [cores, first_class, mut second_class] = any_counts(rng);
    if profile == Profile::D {
        second_class = 0;
    }
    let counter = edge_counter(rng);
    let counts = [cores, first_class, second_class];
    let mut table = Table::fresh_in(profile, counts, counter).expect("in range");
    let mut held = [false; MAX_UNITS];
    let mut distances: Vec<u16> = Vec::new();
    for c in 0..cores as usize {
        let mut state = rng.pick(&STATES[..STATES_T]);
        if state == State::Idle {
            continue;
        }
        let distance = loop {
            let distance = match rng.below(3) {
                0 => rng.within(1, 12),
                1 => rng.within(32_756, 32_768),
                _ => rng.within(1, 32_768),
            } as u16;
            if !distances.contains(&distance) {
                break distance;
            }
        };
        distances.push(distance);
        let two = |state| matches!(state, State::WaitingSecond | State::HoldingBoth);
        if two(state) && second_class == 0 {
            state = State::Holding;
        }
        let units = if two(state) {
            first_class
        } else {
            first_class + second_class
        };
        let first = rng.below(units as u64) as u16;
        let mut second = 0;
        if !matches!(state, State::Waiting | State::Away) {
            if held[first as usize] {
                state = rng.pick(&[State::Waiting, State::Away]);
            } else {
                held[first as usize] = true;
                if two(state) {
                    second = first_class + rng.below(second_class as u64) as u16;
                    if state == State::HoldingBoth {
                        if held[second as usize] {
                            state = State::WaitingSecond;
                        }
                        held[second as usize] = true;
                    }
                }
            }
        }
        let own = counter.wrapping_sub(distance);
        table.core[c] = Core {
            state,
            own,
            carried: own,
            first,
            second,
        };
    }
    for c in 0..cores as usize {
        let core = table.core[c];
        if matches!(core.state, State::WaitingSecond | State::HoldingBoth) {
            for other in table.core {
                if matches!(other.state, State::Waiting | State::Away)
                    && other.first == core.first
                    && older(other.own, core.own)
                    && rng.chance(50)
                {
                    table.core[c].carried = other.own;
                }
            }
        }
    }
    if profile == Profile::D {
        place_away(rng, &mut table);
    }
    stand(&mut table);
    fix_flags(rng, &mut table);
    lines::set_right(&mut table);
    table
}

/// In D: cores that are away stand in line where another may have the unit, and are
/// dropped elsewhere; some are dropped anyway.
fn place_away(rng: &mut Rng, table: &mut Table) {
    let present = |core: &Core| matches!(core.state, State::Waiting | State::Holding);
    for c in 0..table.cores as usize {
        let core = table.core[c];
        if core.state != State::Away {
            continue;
        }
        let had = |other: &Core| present(other) && other.first == core.first;
        table.core[c] = if table.core.iter().any(had) && rng.chance(70) {
            Core {
                state: State::Marked,
                ..core
            }
        } else {
            Core::dropped(core.first)
        };
    }
}

/// Sets every register of every core as its state says, flags of holders only.
/// Nobody is next in line then, whoever waits.
fn stand(table: &mut Table) {
    table.unit = [Unit::default(); MAX_UNITS];
    for (c, core) in table.core.iter().enumerate() {
        let (first, second) = match core.state {
            State::Idle | State::Away | State::Dropped => (None, None),
            State::Waiting | State::Marked => (Some(false), None),
            State::Holding => (Some(true), None),
            State::WaitingSecond => (Some(true), Some(false)),
            State::HoldingBoth => (Some(true), Some(true)),
        };
        let places = [
            (first, core.first, core.own),
            (second, core.second, core.carried),
        ];
        for (flag, unit, ticket) in places {
            if let (Some(flag), Some(unit)) = (flag, table.unit.get_mut(unit as usize)) {
                unit[c] = Register {
                    ticket,
                    valid: true,
                    flag,
                };
            }
        }
    }
}

/// Gives a flag to some valid register of each unit that has none set, but to none of a
/// marked core.
fn fix_flags(rng: &mut Rng, table: &mut Table) {
    let core = &table.core;
    for unit in &mut table.unit {
        let fits = |c: &usize| unit[*c].valid && core[*c].state != State::Marked;
        let valid: Vec<usize> = (0..MAX_CORES).filter(fits).collect();
        if !valid.is_empty() && unit.registers.iter().all(|register| !register.flag) {
            unit[rng.pick(&valid)].flag = true;
        }
    }
}

/// Gives the core another own ticket, everywhere it shows.
fn reticket(table: &mut Table, c: usize, own: u16) {
    let old = table.core[c].own;
    table.core[c].own = own;
    for d in 0..MAX_CORES {
        let core = table.core[d];
        if core.state == State::Idle {
            continue;
        }
        for (u, unit) in table.unit.iter_mut().enumerate() {
            let carried_here = core.second as usize == u && core.carried == old;
            let own_here = d == c && core.first as usize == u;
            if unit[d].valid && unit[d].ticket == old && (carried_here || own_here) {
                unit[d].ticket = own;
            }
        }
        if core.carried == old {
            table.core[d].carried = own;
        }
    }
}

fn any_ticket(rng: &mut Rng, table: &Table) -> u16 {
    let own = table.core[rng.index(MAX_CORES)].own;
    match rng.below(6) {
        0 => own,
        1 => own.wrapping_add(1),
        2 => own.wrapping_sub(1),
        3 => table
            .counter
            .wrapping_sub(rng.pick(&[0, 1, 2, 32_767, 32_768, 32_769])),
        4 => rng.pick(&[0, 1, 32_767, 32_768, 65_535]),
        _ => rng.draw() as u16,
    }
}

/// Index of some core for which `fits` holds.
fn some_core(rng: &mut Rng, table: &Table, fits: impl Fn(usize, &Core) -> bool) -> Option<usize> {
    let found: Vec<usize> = (0..MAX_CORES)
        .filter(|c| fits(*c, &table.core[*c]))
        .collect();
    (!found.is_empty()).then(|| rng.pick(&found))
}

fn some_register<'a>(
    rng: &mut Rng,
    table: &'a mut Table,
    fits: impl Fn(usize, usize, &Register) -> bool,
) -> Option<&'a mut Register> {
    let mut found = Vec::new();
    for (u, unit) in table.unit.iter().enumerate() {
        found.extend(
            (0..MAX_CORES)
                .filter(|c| fits(u, *c, &unit[*c]))
                .map(|c| (u, c)),
        );
    }
    if found.is_empty() {
        return None;
    }
    let (u, c) = rng.pick(&found);
    Some(&mut table.unit[u][c])
}

fn unblank(rng: &mut Rng, register: &mut Register) {
    match rng.below(4) {
        0 => register.ticket = rng.pick(&[1, 2, 255, 256, 32_768, 65_535]),
        1 => register.flag = true,
        2 => register.valid = true,
        _ => {
            let ticket = rng.draw() as u16;
            *register = Register {
                ticket,
                valid: rng.chance(50),
                flag: rng.chance(50),
            };
        }
    }
}

/// Number of ways to break a table: of those that leave the next in line aside, then
/// those that make one wrong, and last those that leave it without an oldest.
const ASIDE: u64 = 26;
const DISORDER: u64 = ASIDE + lines::WRONG;
pub const WAYS: u64 = DISORDER + lines::DISORDERS.len() as u64;
/// Beyond these: two that put what is sound in the one profile to the other; and those
/// that only D has.
const SWITCHED: u64 = WAYS;
const ONLY_D: u64 = SWITCHED + 2;
pub const WAYS_D: u64 = ONLY_D + 8;

/// The ways to break this table.
fn ways(table: &Table, profiles: Profiles) -> u64 {
    match (profiles, table.profile) {
        (Profiles::T, _) => WAYS,
        (Profiles::Both, Profile::T) => ONLY_D,
        (Profiles::Both, Profile::D) => WAYS_D,
    }
}

/// Breaks one clause of soundness where the table has a place for it. Some
/// changes leave it sound, so that both sides of an edge are met.
fn break_table(rng: &mut Rng, table: &mut Table, way: u64) -> Option<()> {
    if way < ASIDE {
        break_aside(rng, table, way)?;
        // The registers are others now: mostly that shall break no other clause.
        if rng.chance(85) {
            lines::set_right(table);
        }
        return Some(());
    }
    if way >= SWITCHED {
        break_dequeueing(rng, table, way - SWITCHED)?;
        if rng.chance(85) {
            lines::set_right(table);
        }
        return Some(());
    }
    if way >= DISORDER {
        return disorder(rng, table, lines::DISORDERS[(way - DISORDER) as usize]);
    }
    let mut places: Vec<(usize, Next)> = Vec::new();
    for (u, unit) in table.unit.iter().enumerate() {
        let next = lines::wrong(rng, &unit.registers, way - ASIDE);
        places.extend(next.map(|next| (u, next)));
    }
    if places.is_empty() {
        return None;
    }
    let (u, next) = rng.pick(&places);
    table.unit[u].next = next;
    Some(())
}

/// Gives cores that wait at one unit tickets of which none need be the oldest, in
/// their registers as well. Nobody is next then, or one of them.
fn disorder(rng: &mut Rng, table: &mut Table, kind: &str) -> Option<()> {
    let waiting =
        |unit: &Unit| -> Vec<usize> { (0..MAX_CORES).filter(|c| unit[*c].waits()).collect() };
    let places: Vec<usize> = (0..MAX_UNITS)
        .filter(|u| waiting(&table.unit[*u]).len() > 1)
        .collect();
    if places.is_empty() {
        return None;
    }
    let u = rng.pick(&places);
    let cores = waiting(&table.unit[u]);
    let base = any_ticket(rng, table);
    for (c, ticket) in cores.iter().zip(lines::disorder(rng, base, kind)) {
        table.unit[u][*c].ticket = ticket;
        if table.core[*c].first as usize == u {
            table.core[*c].own = ticket;
        }
        table.core[*c].carried = ticket;
    }
    lines::set_right(table);
    if rng.chance(50) {
        let core = rng.pick(&cores);
        let unit = &mut table.unit[u];
        unit.next = Next {
            ticket: unit[core].ticket,
            core: core as u16,
            valid: true,
            held: unit.next.held,
        };
    }
    Some(())
}

/// Breaks a clause that D has, or puts what is sound in the one profile to the other.
fn break_dequeueing(rng: &mut Rng, table: &mut Table, way: u64) -> Option<()> {
    let units = table.units();
    let mut some_away =
        |table: &Table, state: State| some_core(rng, table, |_, core| core.state == state);
    match way {
        0 => {
            // Of the other profile; who is away may have a state of that one, and what
            // this state asks for.
            let (profile, states) = match table.profile {
                Profile::T => (Profile::D, [State::Away, State::Marked, State::Dropped]),
                Profile::D => (Profile::T, [State::Marked, State::Dropped, State::Away]),
            };
            table.profile = profile;
            let state = rng.pick(&states);
            let blank = rng.chance(50);
            for core in table.core.iter_mut().filter(|core| core.state.is_away()) {
                if rng.chance(90) {
                    core.state = state;
                }
                if state == State::Dropped && blank {
                    *core = Core::dropped(core.first);
                }
            }
            if rng.chance(50) {
                table.second_class = 0;
            }
            if rng.chance(70) {
                stand(table);
                fix_flags(rng, table);
            }
        }
        1 => {
            // Away in another of the three ways, with the ticket and the register of
            // the one or of the other.
            let c = some_core(rng, table, |_, core| core.state.is_away())?;
            let state = rng.pick(&[State::Away, State::Marked, State::Dropped]);
            if state == table.core[c].state {
                return None;
            }
            let own = any_ticket(rng, table);
            let core = &mut table.core[c];
            core.state = state;
            match rng.below(4) {
                0 => (core.own, core.carried) = (0, 0),
                1 => (core.own, core.carried) = (own, own),
                _ => {}
            }
            let core = *core;
            let first = core.first as usize;
            match rng.below(3) {
                0 => table.unit[first][c] = Register::default(),
                1 => {
                    table.unit[first][c] = Register {
                        ticket: core.own,
                        valid: true,
                        flag: false,
                    };
                }
                _ => {}
            }
        }
        2 => {
            // Dropped, with something left of it.
            let c = some_away(table, State::Dropped)?;
            let ticket = any_ticket(rng, table);
            let core = &mut table.core[c];
            match rng.below(5) {
                0 => core.own = ticket,
                1 => core.carried = ticket,
                2 => (core.own, core.carried) = (ticket, ticket),
                3 => core.second = rng.pick(&[1, units, 256, 65_535]),
                _ => core.first = rng.pick(&[units, units + 1, 15, 16, 65_535]),
            }
        }
        3 => {
            // No longer in line: dropped whole, or but for its state or its tickets.
            let c = some_away(table, State::Marked)?;
            let first = table.core[c].first as usize;
            table.unit[first][c] = Register::default();
            if rng.chance(70) {
                table.core[c].state = State::Dropped;
            }
            match rng.below(4) {
                0 => {}
                1 => table.core[c].own = 0,
                2 => table.core[c].carried = 0,
                _ => (table.core[c].own, table.core[c].carried) = (0, 0),
            }
        }
        4 => {
            // Marked, with the flag.
            let c = some_away(table, State::Marked)?;
            let unit = &mut table.unit[table.core[c].first as usize];
            if rng.chance(70) {
                let holder = unit.registers.iter().position(|r| r.flag)?;
                unit[holder].flag = false;
            }
            unit[c].flag = true;
        }
        5 => {
            // Dropped, and yet in line: with ticket 0, or with another. Where it is
            // marked, with this ticket as its own, that may be sound.
            let c = some_away(table, State::Dropped)?;
            let first = table.core[c].first as usize;
            let any = any_ticket(rng, table);
            let ticket = rng.pick(&[0, 0, any]);
            table.unit[first][c] = Register {
                ticket,
                valid: true,
                flag: false,
            };
            if rng.chance(50) {
                (table.core[c].own, table.core[c].carried) = (ticket, ticket);
            }
            if rng.chance(60) {
                table.core[c].state = State::Marked;
            }
            if rng.chance(50) {
                table.counter = ticket.wrapping_add(rng.pick(&[0, 1, 32_767, 32_768, 32_769]));
            }
        }
        6 => {
            // In line elsewhere, instead or too.
            let c = some_away(table, State::Marked)?;
            let first = table.core[c].first as usize;
            let other = rng.index(units as usize);
            table.unit[other][c] = table.unit[first][c];
            if other != first && rng.chance(50) {
                table.unit[first][c] = Register::default();
            }
        }
        7 => table.second_class = rng.within(1, 8) as u16,
        8 => {
            // Whoever has the unit, and all that are not away, are gone from it.
            let c = some_away(table, State::Marked)?;
            let first = table.core[c].first;
            for d in 0..MAX_CORES {
                let core = table.core[d];
                if core.state != State::Idle && !core.state.is_away() && core.first == first {
                    table.core[d] = Core::default();
                    table.unit[first as usize][d] = Register::default();
                }
            }
        }
        _ => {
            // In line with a ticket that is not its own, or carries another.
            let c = some_away(table, State::Marked)?;
            let ticket = any_ticket(rng, table);
            let first = table.core[c].first as usize;
            match rng.below(4) {
                0 => table.core[c].own = ticket,
                1 => table.core[c].carried = ticket,
                2 => table.unit[first][c].ticket = ticket,
                _ => {
                    (table.core[c].own, table.core[c].carried) = (ticket, ticket);
                    table.unit[first][c].ticket = ticket;
                }
            }
        }
    }
    Some(())
}

/// Breaks a clause that is not about the next in line, which is left as it was.
fn break_aside(rng: &mut Rng, table: &mut Table, way: u64) -> Option<()> {
    let cores = table.cores as usize;
    let units = table.units() as usize;
    let first_class = table.first_class;
    let two = |core: &Core| matches!(core.state, State::WaitingSecond | State::HoldingBoth);
    let busy = |core: &Core| core.state != State::Idle;
    match way {
        // Counts.
        0 => {
            let number = rng.pick(&[0, 9, 10, 16, 33, 34, 255, 256, 257, 65_535]);
            match rng.below(3) {
                0 => table.cores = number,
                1 => table.first_class = number,
                _ => table.second_class = number,
            }
        }
        1 => {
            let down = rng.chance(70);
            let count = match rng.below(3) {
                0 => &mut table.cores,
                1 => &mut table.first_class,
                _ => &mut table.second_class,
            };
            *count = if down {
                count.wrapping_sub(1)
            } else {
                count.wrapping_add(1)
            };
        }
        // Past the counts.
        2 => {
            let c = some_core(rng, table, |c, _| c >= cores)?;
            let core = &mut table.core[c];
            let number = rng.pick(&[1, 2, 65_535, 256]);
            match rng.below(5) {
                0 => core.own = number,
                1 => core.carried = number,
                2 => core.first = number,
                3 => core.second = number,
                _ => core.state = rng.pick(&STATES[1..]),
            }
        }
        3 => {
            let register = some_register(rng, table, |u, _, _| u >= units)?;
            unblank(rng, register);
        }
        4 => {
            let register = some_register(rng, table, |u, c, _| u < units && c >= cores)?;
            unblank(rng, register);
        }
        // Idle, and what a state does not speak of.
        5 => {
            let c = some_core(rng, table, |c, core| c < cores && !busy(core))?;
            let core = &mut table.core[c];
            let number = rng.pick(&[1, 2, 256, 65_535]);
            match rng.below(5) {
                0 => core.own = number,
                1 => core.carried = number,
                2 => core.first = number,
                3 => core.second = number,
                _ => (core.own, core.carried) = (number, number),
            }
        }
        6 => {
            let c = some_core(rng, table, |_, core| busy(core) && !two(core))?;
            table.core[c].second = rng.pick(&[1, first_class, first_class + 1, 256, 65_535]);
        }
        // Units named.
        7 => {
            let past = rng.pick(&[units as u16, units as u16 + 1, 15, 16, 255, 256, 65_535]);
            let c = some_core(rng, table, |_, core| busy(core))?;
            if two(&table.core[c]) && rng.chance(50) {
                table.core[c].second = past;
            } else {
                table.core[c].first = past;
            }
            if rng.chance(70) {
                stand(table);
                fix_flags(rng, table);
            }
        }
        // Registers and flags.
        8 => {
            let register = some_register(rng, table, |u, c, r| u < units && c < cores && !r.valid)?;
            unblank(rng, register);
        }
        9 => {
            let c = some_core(rng, table, |_, core| busy(core))?;
            let u = rng.index(units);
            let valid = !table.unit[u][c].valid;
            let ticket = if valid { table.core[c].own } else { 0 };
            table.unit[u][c] = Register {
                ticket,
                valid,
                flag: false,
            };
            fix_flags(rng, table);
        }
        10 => {
            // The flag goes to another core at the same unit.
            let u = rng.index(units);
            let from = table.unit[u].registers.iter().position(|r| r.flag)?;
            let to = some_core(rng, table, |c, _| c != from && table.unit[u][c].valid)?;
            table.unit[u][from].flag = false;
            table.unit[u][to].flag = true;
        }
        11 => {
            let register = some_register(rng, table, |_, _, r| r.valid)?;
            register.flag = !register.flag;
        }
        12 => {
            let register = some_register(rng, table, |_, _, r| r.flag)?;
            register.flag = false;
        }
        // Classes: the second unit, then the first, moved with its register.
        13 => {
            let c = some_core(rng, table, |_, core| two(core))?;
            table.core[c].second = rng.below(units as u64) as u16;
            stand(table);
            fix_flags(rng, table);
        }
        14 => {
            let c = some_core(rng, table, |_, core| busy(core))?;
            table.core[c].first = rng.below(units as u64) as u16;
            if rng.chance(60) {
                stand(table);
                fix_flags(rng, table);
            }
        }
        // Own tickets.
        15 => {
            let c = some_core(rng, table, |_, core| busy(core))?;
            let d = some_core(rng, table, |d, core| d != c && busy(core))?;
            reticket(table, c, table.core[d].own);
        }
        16 => {
            let c = some_core(rng, table, |_, core| busy(core))?;
            let behind = rng.pick(&[0, 1, 2, 32_767, 32_768, 32_769, 65_535]);
            reticket(table, c, table.counter.wrapping_sub(behind));
        }
        17 => {
            let c = some_core(rng, table, |_, core| busy(core))?;
            let ahead = rng.pick(&[0, 1, 32_767, 32_768, 32_769, 65_535]);
            table.counter = table.core[c].own.wrapping_add(ahead);
        }
        // Carried tickets.
        18 => {
            let c = some_core(rng, table, |_, core| two(core))?;
            let carried = any_ticket(rng, table);
            table.core[c].carried = carried;
            let second = table.core[c].second as usize;
            table.unit[second][c].ticket = carried;
        }
        19 => {
            let c = some_core(rng, table, |_, core| busy(core) && !two(core))?;
            table.core[c].carried = any_ticket(rng, table);
        }
        20 => {
            // Whose ticket is carried goes elsewhere, or ends.
            let carrier = some_core(rng, table, |_, core| core.carried != core.own)?;
            let carried = table.core[carrier].carried;
            let c = some_core(rng, table, |_, core| busy(core) && core.own == carried)?;
            match rng.below(4) {
                0 => table.core[c] = Core::default(),
                1 => table.core[c].first = rng.below(units as u64) as u16,
                2 => table.core[c].state = State::Away,
                _ => {
                    table.core[c].state = State::Holding;
                    table.core[c].first = rng.below(units as u64) as u16;
                }
            }
            stand(table);
            fix_flags(rng, table);
        }
        21 => {
            // The carried ticket reads younger than the own one.
            let c = some_core(rng, table, |_, core| core.carried != core.own)?;
            let d = some_core(rng, table, |d, core| {
                d != c && busy(core) && core.own == table.core[c].carried
            })?;
            let (mine, other) = (table.core[c].own, table.core[d].own);
            table.core[c].own = other;
            table.core[c].carried = mine;
            table.core[d].own = mine;
            table.core[d].carried = mine;
            stand(table);
            fix_flags(rng, table);
        }
        22 => {
            // The carried ticket lies half the circle from the own one, or just beside.
            let c = some_core(rng, table, |_, core| core.carried != core.own)?;
            let d = some_core(rng, table, |d, core| {
                d != c && busy(core) && core.own == table.core[c].carried
            })?;
            let away = rng.pick(&[32_767, 32_768, 32_768, 32_769]);
            reticket(table, d, table.core[c].own.wrapping_add(away));
            if rng.chance(50) {
                let lender = table.core[d].own;
                table.counter = lender.wrapping_add(rng.pick(&[1, 32_767, 32_768]));
            }
        }
        // Tickets shown.
        23 => {
            let ticket = any_ticket(rng, table);
            some_register(rng, table, |_, _, r| r.valid)?.ticket = ticket;
        }
        // States.
        24 => {
            let c = some_core(rng, table, |c, _| c < cores)?;
            table.core[c].state = rng.pick(&STATES);
            if rng.chance(30) {
                stand(table);
                fix_flags(rng, table);
            }
        }
        // One bit or more, anywhere.
        _ => {
            for _ in 0..rng.pick(&[1, 1, 1, 2, 4]) {
                flip(rng, table);
            }
        }
    }
    Some(())
}

fn flip(rng: &mut Rng, table: &mut Table) {
    let bit = 1 << rng.below(16);
    match rng.below(4) {
        0 => {
            let at = rng.below(4);
            let number = match at {
                0 => &mut table.cores,
                1 => &mut table.first_class,
                2 => &mut table.second_class,
                _ => &mut table.counter,
            };
            *number ^= bit;
        }
        1 => {
            let core = &mut table.core[rng.index(MAX_CORES)];
            match rng.below(5) {
                0 => core.own ^= bit,
                1 => core.carried ^= bit,
                2 => core.first ^= bit,
                3 => core.second ^= bit,
                _ => core.state = rng.pick(&STATES),
            }
        }
        2 => {
            let next = &mut table.unit[rng.index(MAX_UNITS)].next;
            match rng.below(4) {
                0 => next.ticket ^= bit,
                1 => next.core ^= bit,
                2 => next.valid = !next.valid,
                _ => next.held = !next.held,
            }
        }
        _ => {
            let register = &mut table.unit[rng.index(MAX_UNITS)][rng.index(MAX_CORES)];
            match rng.below(3) {
                0 => register.ticket ^= bit,
                1 => register.valid = !register.valid,
                _ => register.flag = !register.flag,
            }
        }
    }
}

/// A table that is sound, or broken in one way or in two.
pub fn any_table(rng: &mut Rng, profiles: Profiles) -> Table {
    let mut table = if rng.chance(50) {
        reached(rng, profiles)
    } else {
        built(rng, profiles)
    };
    if rng.chance(25) {
        return table;
    }
    for _ in 0..rng.pick(&[1, 1, 1, 2]) {
        // A way without a place in this table is made up for by another.
        for _ in 0..10 {
            let way = rng.below(ways(&table, profiles));
            if table.sound() && break_table(rng, &mut table, way).is_some() {
                break;
            }
        }
    }
    table
}

fn good_register(rng: &mut Rng) -> Register {
    if rng.chance(30) {
        return Register::default();
    }
    let ticket = if rng.chance(30) {
        rng.pick(&[0, 1, 65_535, 32_768])
    } else {
        rng.draw() as u16
    };
    Register {
        ticket,
        valid: true,
        flag: rng.chance(40),
    }
}

fn any_register(rng: &mut Rng) -> Register {
    let mut register = good_register(rng);
    if rng.chance(40) {
        register.valid = rng.chance(50);
        register.flag = rng.chance(50);
        if rng.chance(30) {
            register.ticket = rng.pick(&[0, 1, 256, 65_535]);
        }
    }
    register
}

fn good_word(rng: &mut Rng) -> u32 {
    let register = good_register(rng);
    if register.valid {
        register.ticket as u32 | 1 << 16 | (register.flag as u32) << 17
    } else {
        0
    }
}

fn any_word(rng: &mut Rng) -> u32 {
    let word = good_word(rng);
    match rng.below(6) {
        0 => word ^ 1 << rng.below(32),
        1 => word & !(1 << 16),
        2 => word | 1 << rng.within(18, 31),
        3 => rng.pick(&[
            0,
            1,
            5,
            65_535,
            65_536,
            65_537,
            131_071,
            131_072,
            131_073,
            196_607,
            196_608,
            262_143,
            262_144,
            262_145,
            327_680,
            1 << 31,
            u32::MAX,
        ]),
        4 => rng.draw() as u32,
        _ => word,
    }
}

/// Counts of a profile, mostly in range, and the number of words: right or near it, or
/// that of the registers alone.
fn extent(rng: &mut Rng, profiles: Profiles) -> (Profile, [u16; 3], u16) {
    let profile = profiles.any(rng);
    let mut counts = any_counts(rng);
    if profile == Profile::D && rng.chance(90) {
        counts[2] = 0;
    }
    if rng.chance(20) {
        counts[rng.index(3)] = rng.pick(&[0, 0, 9, 9, 10, 16, 32, 33, 33, 34, 256, 32_768, 65_535]);
    }
    let [cores, first_class, second_class] = counts.map(u64::from);
    let registers = (first_class + second_class).saturating_mul(cores);
    let right = registers + first_class + second_class;
    let number = match rng.below(12) {
        0 => right + 1,
        1 => right.saturating_sub(1),
        2 => rng.below(cases::WORDS_MAX as u64 + 1),
        3 => 528,
        4 | 5 => registers,
        _ => right,
    };
    (profile, counts, number.min(cases::WORDS_MAX as u64) as u16)
}

/// An image to read. The number of words says whether each unit has the word after
/// its cores'; now and then it stands before them.
fn any_image(rng: &mut Rng, counts: [u16; 3], number: usize) -> Vec<u32> {
    let cores = (counts[0] as usize).clamp(1, MAX_CORES);
    let units = counts[1] as usize + counts[2] as usize;
    let bare = number == units * cores;
    let before = rng.chance(8);
    let wrong = if rng.chance(50) {
        rng.index(units.clamp(1, 16))
    } else {
        usize::MAX
    };
    let mut words = Vec::new();
    for u in 0..=number / cores {
        let registers = lines::any(rng, cores, good_register);
        let due = words::next_word(&Next::of(&registers));
        let next = if u == wrong {
            lines::wrong_word(rng, &registers, due)
        } else {
            due
        };
        if before && !bare {
            words.push(next);
        }
        words.extend(registers.iter().map(|r| words::pack(*r).expect("good")));
        if !before && !bare {
            words.push(next);
        }
    }
    words.truncate(number);
    if number > 0 && rng.chance(15) {
        words[rng.index(number)] = any_word(rng);
    }
    words
}

/// Units to write. Past the counts stands anything, or nothing.
fn any_units(rng: &mut Rng, counts: [u16; 3]) -> [Unit; MAX_UNITS] {
    let cores = (counts[0] as usize).min(MAX_CORES);
    let count = (counts[1] as usize + counts[2] as usize).min(MAX_UNITS);
    let junk = rng.chance(50);
    let mut units = [Unit::default(); MAX_UNITS];
    for (u, unit) in units.iter_mut().enumerate() {
        let inside = if u < count { cores } else { 0 };
        unit.registers[..inside].copy_from_slice(&lines::any(rng, inside, good_register));
        if junk {
            unit.registers[inside..].fill_with(|| any_register(rng));
        }
        unit.next = Next::of(&unit.registers[..inside]);
        if junk && inside == 0 {
            unit.next = Next {
                ticket: rng.draw() as u16,
                core: rng.below(33) as u16,
                valid: rng.chance(50),
                held: rng.chance(50),
            };
        }
    }
    if cores > 0 && count > 0 {
        let unit = &mut units[rng.index(count)];
        match rng.below(10) {
            0..=3 => {
                let ways = (0..3)
                    .map(|_| rng.below(lines::WRONG))
                    .collect::<Vec<u64>>();
                let mut found = ways
                    .iter()
                    .filter_map(|way| lines::wrong(rng, &unit.registers[..cores], *way));
                unit.next = found.next().unwrap_or(unit.next);
            }
            4 | 5 => unit.next = Next::of(&unit.registers),
            6 => unit[rng.index(cores)] = any_register(rng),
            _ => {}
        }
    }
    units
}

/// A number of `count` cores or units, or one past them.
fn any_number(rng: &mut Rng, count: u16) -> u16 {
    match rng.below(16) {
        0 => count,
        1 => count.wrapping_add(rng.below(3) as u16),
        2 => rng.pick(&[7, 8, 15, 16, 31, 32, 33, 255, 256, 32_768, 65_535]),
        3 if rng.chance(30) => rng.draw() as u16,
        _ => rng.below(count as u64) as u16,
    }
}

/// A step, mostly of a letter that the core's state allows or half allows.
fn any_step(rng: &mut Rng, table: &Table) -> Step {
    let core = any_number(rng, table.cores);
    let unit = any_number(rng, table.first_class.wrapping_add(table.second_class));
    let kind = match table.core.get(core as usize) {
        Some(core) if rng.chance(70) => match core.state {
            State::Idle => Kind::Request,
            State::Waiting | State::WaitingSecond => rng.pick(&[Kind::Poll, Kind::Interrupt]),
            State::Holding => rng.pick(&[Kind::Nest, Kind::Nest, Kind::Leave, Kind::Interrupt]),
            State::HoldingBoth => rng.pick(&[Kind::Leave, Kind::Leave, Kind::Interrupt]),
            State::Away | State::Marked | State::Dropped => Kind::Continue,
        },
        _ => rng.pick(&cases::KINDS),
    };
    Step { kind, core, unit }
}

/// Puts one case of `M` or `m`, counts its kind, and gives its profile and step. Four
/// tables in five are sound.
pub fn put_method(
    rng: &mut Rng,
    case: &mut Vec<u8>,
    kinds: &mut Kinds,
    profiles: Profiles,
) -> (Profile, Step) {
    let table = match rng.below(12) {
        0..=3 => reached(rng, profiles),
        4..=8 => built(rng, profiles),
        _ => any_table(rng, profiles),
    };
    let step = any_step(rng, &table);
    let letter = cases::letter_in(table.profile, b'M');
    lines::count_table(kinds, letter as char, &table);
    cases::put_method(case, &table, step);
    (table.profile, step)
}

/// Puts one case of any letter but `T`, `M` and `m`, counts its kind, and gives its
/// letter.
pub fn put_any(rng: &mut Rng, case: &mut Vec<u8>, kinds: &mut Kinds, profiles: Profiles) -> u8 {
    match rng.below(12) {
        0..=4 => {
            let table = any_table(rng, profiles);
            let letter = cases::letter_in(table.profile, b'S');
            lines::count_table(kinds, letter as char, &table);
            cases::put_table(case, &table);
            letter
        }
        5 => {
            cases::put_word(case, any_word(rng));
            b'W'
        }
        6 => {
            cases::put_pack(case, &any_register(rng));
            b'P'
        }
        7..=9 => {
            let (profile, counts, number) = extent(rng, profiles);
            let words = any_image(rng, counts, number as usize);
            let letter = cases::letter_in(profile, b'I');
            if profile.counts_in_range(counts[0], counts[1], counts[2]) {
                lines::count_reading(kinds, letter as char, counts, &words);
            }
            cases::put_read_image(case, profile, counts, &words);
            letter
        }
        _ => {
            let (profile, counts, room) = extent(rng, profiles);
            let units = any_units(rng, counts);
            let letter = cases::letter_in(profile, b'O');
            if profile.counts_in_range(counts[0], counts[1], counts[2]) {
                lines::count_writing(kinds, letter as char, counts, room, &units);
            }
            cases::put_write_image(case, profile, counts, room, &units);
            letter
        }
    }
}

#[cfg(test)]
mod tests {
    use super::*;

    #[test]
    fn built_tables_are_sound() {
        let mut rng = Rng::new(4, 0);
        for _ in 0..40_000 {
            let table = built(&mut rng, Profiles::Both);
            assert!(table.sound(), "{table:?}");
        }
    }

    /// Each way finds a place, and breaks some table.
    #[test]
    fn every_way_breaks() {
        let mut rng = Rng::new(5, 0);
        for way in 0..WAYS_D {
            let profiles = if way < WAYS {
                Profiles::T
            } else {
                Profiles::Both
            };
            let (mut broken, mut placed) = (0, 0);
            for _ in 0..2_000 {
                let mut table = if rng.chance(50) {
                    reached(&mut rng, profiles)
                } else {
                    built(&mut rng, profiles)
                };
                if way >= ONLY_D && table.profile == Profile::T {
                    continue;
                }
                if break_table(&mut rng, &mut table, way).is_some() {
                    placed += 1;
                    broken += !table.sound() as u32;
                }
            }
            assert!(broken > 20, "way {way}: placed {placed}, broken {broken}");
        }
    }

    /// As many cases as the comparison asks every kind of next in line of.
    #[test]
    fn every_kind_of_next_is_put() {
        for profiles in [Profiles::T, Profiles::Both] {
            let mut rng = Rng::new(6, 0);
            let (mut case, mut kinds) = (Vec::new(), Kinds::default());
            for _ in 0..20_000 {
                put_any(&mut rng, &mut case, &mut kinds, profiles);
                put_method(&mut rng, &mut case, &mut kinds, profiles);
                case.clear();
            }
            for kind in lines::needed(profiles) {
                let count = kinds.get(&kind).copied().unwrap_or_default();
                assert!(count > 1, "{kind}: {count} of {kinds:?}");
            }
        }
    }
}
