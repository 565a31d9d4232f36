//! Between the library's watch state and the second implementation's parts. Nothing else here knows the layout of the former.

use beltcairn::packed::{numbers, word};
use beltcairn::{Arming, Holds, Machine, Plan, Queue, Report, Reports, Slots, State, Timers, Top, Watch, ROOM};
use second::{Parts, NOBODY, TIMERS};

use crate::random::Random;

/// What the library writes for nobody.
const NO_THREAD: u8 = 255;

/// How many entries a word of the library has, and the greatest number that fits one.
pub const ENTRIES: usize = 16;
pub const GREATEST: u16 = 15;

/// How many reports the library has room for.
pub const REPORTS: usize = ROOM;

/// The parts as a watch state of the library. What the parts leave open (entries behind a list's end, threads from T on, the section of a
/// thread that does not wait, the tick number of one that is not asleep, the period of a timer that is not armed, what an arming has not
/// come to, reports already given) is filled at random: no answer may rest on it.
pub fn lend(parts: &Parts, random: &mut Random) -> Watch {
    let machine = Machine {
        plan: plan(parts, random),
        tick: parts.tick as u32,
        slots: slots(&parts.conditions, random),
        wakes: wakes(parts, random),
        queue: queue(&parts.line, random),
        holds: holds(parts, random),
        waits: queue(&parts.waits, random),
        delays: queue(&parts.delays, random),
        reported: who(parts.given),
        timers: timers(parts, random),
    };
    let (due, given) = reports(&parts.due, random);
    Watch {
        state: State { machine, due, given },
        rule: parts.stored,
    }
}

/// The parts of a watch state of the library. Lists are read as far as there is room for them.
pub fn parts(watch: &Watch) -> Parts {
    let machine = &watch.state.machine;
    let threads = machine.plan.threads.min(16);
    let due = &watch.state.due.items[..watch.state.due.count.min(REPORTS)];
    Parts {
        threads: machine.plan.threads,
        sections: machine.plan.sections,
        bases: machine.plan.bases[..threads].to_vec(),
        needs: machine.plan.needs[..threads].to_vec(),
        tick: machine.tick.into(),
        conditions: conditions(machine, threads),
        line: threads_in(&machine.queue),
        holds: oldest_first(&machine.holds),
        top: top_in(&machine.holds.top),
        waits: threads_in(&machine.waits),
        delays: threads_in(&machine.delays),
        timers: expiries_and_periods(&machine.timers),
        arming: arming_in(&machine.timers.arming),
        given: named(machine.reported),
        due: due
            .iter()
            .skip(watch.state.given)
            .map(|report| (report.kind, report.operand))
            .collect(),
        stored: watch.rule,
    }
}

/// The watch state with that rule stored and nothing else changed.
pub fn with_breach(watch: &Watch, rule: u8) -> Watch {
    Watch { rule, ..*watch }
}

/// Gives one list a length that is that much beyond its room.
pub type Lengthen = fn(&mut Watch, usize);

/// Lengths that the words and the array of the state have no room for, one way at a time.
pub const LENGTHS: [(&str, Lengthen); 5] = [
    ("line longer than its word", |watch, excess| {
        watch.state.machine.queue.count = ENTRIES + excess
    }),
    ("waits longer than their word", |watch, excess| {
        watch.state.machine.waits.count = ENTRIES + excess
    }),
    ("order of Delays longer than its word", |watch, excess| {
        watch.state.machine.delays.count = ENTRIES + excess
    }),
    ("holds longer than their words", |watch, excess| {
        watch.state.machine.holds.count = ENTRIES + excess
    }),
    ("reports longer than their array", |watch, excess| {
        watch.state.due.count = REPORTS + excess;
        watch.state.given = watch.state.given.min(REPORTS);
    }),
];

fn plan(parts: &Parts, random: &mut Random) -> Plan {
    Plan {
        threads: parts.threads,
        sections: parts.sections,
        bases: std::array::from_fn(|thread| parts.bases.get(thread).copied().unwrap_or_else(|| random.byte())),
        needs: std::array::from_fn(|thread| parts.needs.get(thread).copied().unwrap_or_else(|| random.word())),
    }
}

/// A word with these entries; where there is none, any numbers, or one throughout.
fn packed(entry: impl Fn(usize) -> Option<u64>, random: &mut Random) -> u64 {
    let open = if random.one_in(2) {
        numbers(random.number())
    } else {
        [random.below(ENTRIES) as u8; ENTRIES]
    };
    word(std::array::from_fn(|place| entry(place).map_or(open[place], fitting)))
}

/// Panics at a number that would be lent as another.
fn fitting(number: u64) -> u8 {
    assert!(number <= GREATEST.into(), "{number} does not fit an entry of a word");
    number as u8
}

fn slots(conditions: &[(u8, u64)], random: &mut Random) -> Slots {
    let state = |thread| conditions.get(thread).map(|(state, _)| u64::from(*state));
    let want = |thread| match conditions.get(thread) {
        Some((3, section)) => Some(*section),
        _ => None,
    };
    Slots {
        states: packed(state, random),
        wants: packed(want, random),
    }
}

/// A thread that is not asleep may well have a number at which others wake.
fn wakes(parts: &Parts, random: &mut Random) -> [u32; 16] {
    std::array::from_fn(|thread| match parts.conditions.get(thread) {
        Some((2, until)) => *until as u32,
        _ => {
            let any = random.number() as u32;
            random.pick(&[any, 0, parts.tick as u32, (parts.tick as u32).wrapping_add(1), u32::MAX])
        }
    })
}

fn conditions(machine: &Machine, threads: usize) -> Vec<(u8, u64)> {
    let wants = numbers(machine.slots.wants);
    let condition = |(thread, state): (usize, u8)| match state {
        2 => (state, machine.wakes[thread].into()),
        3 => (state, wants[thread].into()),
        _ => (state, 0),
    };
    let states = numbers(machine.slots.states).into_iter().enumerate();
    states.take(threads).map(condition).collect()
}

fn queue(list: &[u16], random: &mut Random) -> Queue {
    Queue {
        items: packed(|place| list.get(place).map(|thread| u64::from(*thread)), random),
        count: list.len(),
    }
}

fn threads_in(queue: &Queue) -> Vec<u16> {
    numbers(queue.items).into_iter().take(queue.count).map(u16::from).collect()
}

/// The library has the latest hold first.
fn holds(parts: &Parts, random: &mut Random) -> Holds {
    let latest_first: Vec<(u16, u16)> = parts.holds.iter().rev().copied().collect();
    Holds {
        sections: packed(|place| latest_first.get(place).map(|hold| hold.0.into()), random),
        threads: packed(|place| latest_first.get(place).map(|hold| hold.1.into()), random),
        count: latest_first.len(),
        top: top(parts.top),
    }
}

fn oldest_first(holds: &Holds) -> Vec<(u16, u16)> {
    let pairs = numbers(holds.sections).into_iter().zip(numbers(holds.threads));
    let latest_first = pairs.map(|(section, thread)| (section.into(), thread.into()));
    let mut list: Vec<(u16, u16)> = latest_first.take(holds.count).collect();
    list.reverse();
    list
}

/// Panics at an owner that would be lent as another, or as nobody.
fn top(kept: second::Top) -> Top {
    let byte = |thread: usize| u8::try_from(thread).ok().filter(|owner| *owner != NO_THREAD);
    let owner = kept.owner.map(|thread| byte(thread).expect("an owner below 255"));
    Top {
        owner: owner.unwrap_or(NO_THREAD),
        ceiling: kept.ceiling,
    }
}

fn top_in(top: &Top) -> second::Top {
    second::Top {
        owner: (top.owner != NO_THREAD).then_some(top.owner.into()),
        ceiling: top.ceiling,
    }
}

/// A timer that is not armed has any period.
fn timers(parts: &Parts, random: &mut Random) -> Timers {
    Timers {
        expiries: std::array::from_fn(|timer| parts.timers[timer].0 as u32),
        periods: std::array::from_fn(|timer| match parts.timers[timer] {
            (0, _) => random.word(),
            (_, period) => period,
        }),
        arming: arming(parts.arming, random),
    }
}

/// With no arming any timer, also one that is not below 8; but after a Start any start.
fn arming((stage, timer, start): (u8, u8, u16), random: &mut Random) -> Arming {
    let any = random.byte();
    Arming {
        stage,
        timer: if stage == 0 { random.pick(&[any, any % 8]) } else { timer },
        start: if stage == 2 { start } else { random.word() },
    }
}

fn expiries_and_periods(timers: &Timers) -> [(u64, u16); TIMERS] {
    std::array::from_fn(|timer| match timers.expiries[timer] {
        0 => (0, 0),
        expiry => (expiry.into(), timers.periods[timer]),
    })
}

fn arming_in(arming: &Arming) -> (u8, u8, u16) {
    match arming.stage {
        0 => (0, 0, 0),
        1 => (1, arming.timer, 0),
        stage => (stage, arming.timer, arming.start),
    }
}

/// The reports and how many of them are given. With none due, any number from their count on says so.
fn reports(due: &[(u8, u16)], random: &mut Random) -> (Reports, usize) {
    let given = random.below(REPORTS.saturating_sub(due.len()) + 1);
    let mut items: [Report; REPORTS] = std::array::from_fn(|_| Report {
        kind: random.byte(),
        operand: random.word(),
    });
    for (place, (kind, operand)) in items[given..].iter_mut().zip(due) {
        *place = Report {
            kind: *kind,
            operand: *operand,
        };
    }
    let beyond = if due.is_empty() {
        random.pick(&[0, 0, 0, 1, 200, usize::MAX - REPORTS])
    } else {
        0
    };
    (
        Reports {
            items,
            count: given + due.len(),
        },
        given + beyond,
    )
}

fn who(thread: u16) -> u8 {
    if thread == NOBODY {
        NO_THREAD
    } else {
        thread as u8
    }
}

fn named(who: u8) -> u16 {
    if who == NO_THREAD {
        NOBODY
    } else {
        who.into()
    }
}
