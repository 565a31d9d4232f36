//! Lent states that are broken in exactly one of the ways that answer 12 lists.

use second::{Fault, Parts, LAST_EXPIRY, LAST_SLEEPER, LAST_TICK, NOBODY, TIMERS};

use crate::answer::Answer;
use crate::bytes::Numbers;
use crate::difference::Compared;
use crate::dues::{self, due_with, some_report, some_switch, within_claims};
use crate::entries::{self, beyond, listed_beyond, listed_twice, named_asleep, remove};
use crate::lent::{formed_parts, formed_under, reached_parts, some_record};
use crate::random::Random;
use crate::runs::plan_of;
use crate::sides::{refused_12, Pair};
use crate::{state, tops};

/// Breaks the state in one way; says No, with the state as it was, where the state has nothing to break so.
pub type Break = fn(&mut Parts, &mut Random) -> bool;

pub const WAYS: [(&str, Break); 61] = [
    ("plan fails 1: no thread", no_thread),
    ("plan fails 1: too many threads", too_many_threads),
    ("plan fails 1: too many sections", |p, r| {
        set(&mut p.sections, r.pick(&[17, 18, 255, 256, usize::MAX]))
    }),
    ("plan fails 3", |p, r| {
        put(&mut p.bases, r, |r| r.pick(&[0, 65, 128, 255])) && tops::keep(p)
    }),
    ("plan fails 4", needs_from_s),
    ("thread not below T in the line", |p, r| listed_beyond(&mut p.line, p.threads, r)),
    ("thread not below T in the holds", entries::holder_beyond),
    ("thread not below T in the waits", |p, r| listed_beyond(&mut p.waits, p.threads, r)),
    ("thread not below T in the order of Delays", |p, r| {
        listed_beyond(&mut p.delays, p.threads, r)
    }),
    ("thread not below T reported", |p, r| {
        let any = r.between(p.threads, 254);
        set(&mut p.given, r.pick(&[p.threads, any, 254]) as u16)
    }),
    ("thread not below T in a report", |p, r| {
        due_with(p, r, |r, t| (r.between(16, 20) as u8, out_of(r, t)))
    }),
    ("nobody in a report that is no Switch", |p, r| {
        due_with(p, r, |r, _| (r.pick(&[16, 18, 19, 20, 21]), NOBODY))
    }),
    ("section not below S in the holds", entries::section_beyond),
    ("section not below S waited for", waited_beyond),
    ("timer not below 8 in a report", |p, r| {
        due_with(p, r, |r, _| (21, out_of(r, TIMERS)))
    }),
    ("report not of the papers", |p, r| {
        due_with(p, r, |r, _| (r.pick(&[0, 1, 7, 8, 11, 15, 23, 24, 255]), 0))
    }),
    ("stored rule not of the papers", |p, r| {
        set(&mut p.stored, r.pick(&[1, 7, 12, 20, 33, 34, 255]))
    }),
    ("tick number too great", |p, r| {
        set(&mut p.tick, LAST_TICK + r.pick(&[1, 2, 65536, 294_967_295]))
    }),
    ("sleeper's tick number too great", sleeper_beyond),
    ("expiry too great", expiry_beyond),
    ("timer of an arming not below 8, after Arm", |p, r| {
        set(&mut p.arming, (1, out_of_byte(r, TIMERS), 0))
    }),
    ("timer of an arming not below 8, after Start", |p, r| {
        set(&mut p.arming, (2, out_of_byte(r, TIMERS), r.word()))
    }),
    ("arming at no stage", |p, r| {
        set(&mut p.arming, (out_of_byte(r, 3), r.below(TIMERS) as u8, r.word()))
    }),
    ("section held twice", entries::held_twice),
    ("thread twice in the line", |p, r| listed_twice(&mut p.line, r)),
    ("thread twice in the waits", |p, r| listed_twice(&mut p.waits, r)),
    ("sleeper twice in the order of Delays", |p, r| listed_twice(&mut p.delays, r)),
    ("sleeper twice in the order of Delays, another missing", entries::listed_for_another),
    ("sleeper missing from the order of Delays", |p, r| remove(&mut p.delays, r)),
    ("dormant thread in the order of Delays", |p, r| named_asleep(p, 0, r)),
    ("ready thread in the order of Delays", |p, r| named_asleep(p, 1, r)),
    ("waiting thread in the order of Delays", |p, r| named_asleep(p, 3, r)),
    ("thread in no condition: number", no_such_condition),
    ("thread in no condition: number, of a thread in a list", no_such_condition_listed),
    ("thread in no condition: ready, not in the line", |p, r| remove(&mut p.line, r)),
    ("thread in no condition: waiting, not in the waits", |p, r| remove(&mut p.waits, r)),
    ("thread in two conditions", entries::in_two),
    ("more than T + 9 due, and so in all", dues::too_many_due),
    ("a Switch due first, another report last", dues::switch_in_front),
    ("a Switch due between other reports", dues::switch_in_between),
    ("two Switches due", dues::two_switches),
    ("one more than T + 9 in all, by a report", dues::claimed_by_a_report),
    ("one more than T + 9 in all, by a sleeper", dues::claimed_by_a_sleeper),
    ("one more than T + 9 in all, by a timer armed", dues::claimed_by_a_timer),
    (
        "one more than T + 9 in all, by an armed timer no longer owed",
        dues::claimed_by_a_timer_and_a_report,
    ),
    ("nothing due, another thread reported than the chosen one", another_reported),
    ("nothing due, nobody reported though a thread is chosen", nobody_reported),
    ("nothing due, a thread reported though nobody is chosen", one_reported),
    ("owner another thread, with a section of lower ceiling", tops::owner_of_less),
    ("owner of a tie the one that took earlier", tops::owner_of_a_tie),
    ("owner a thread that holds nothing, though another does", tops::owner_of_none),
    ("owner nobody though something is held", tops::nobody_owns),
    ("owner not below T", |p, r| {
        let any = r.between(p.threads, 254);
        set(&mut p.top.owner, Some(r.pick(&[p.threads, any, 254])))
    }),
    ("greatest ceiling one more", tops::one_more),
    ("greatest ceiling one less", tops::one_less),
    ("greatest ceiling 0 though a greater one is held", tops::zero),
    ("greatest ceiling that of another held section", tops::ceiling_of_another),
    ("owner and greatest ceiling of another hold", tops::both_of_another),
    ("owner nobody, greatest ceiling 0, though something is held", tops::neither),
    ("owner though nothing is held", tops::owner_of_nothing),
    ("greatest ceiling though nothing is held", tops::ceiling_of_nothing),
];

/// A state broken in any of these ways.
pub fn in_some_way(fault: Fault, random: &mut Random) -> Compared<Vec<Answer>> {
    let (_, break_it) = random.pick(&WAYS);
    broken(fault, break_it, random)
}

/// A state with one break.
pub fn broken_parts(break_it: Break, random: &mut Random) -> Parts {
    loop {
        let mut parts = whole_parts(random);
        if break_it(&mut parts, random) {
            return parts;
        }
    }
}

/// One step on such a state: both answer 12 and change nothing.
pub fn broken(fault: Fault, break_it: Break, random: &mut Random) -> Compared<Vec<Answer>> {
    let parts = broken_parts(break_it, random);
    let record = record_for(&parts, random);
    let reply = Pair::lent(fault, &parts, random).step_refused(record)?;
    Ok(vec![reply.into()])
}

/// A state whose struct names a length that it has no room for.
pub fn beyond_the_room(break_it: state::Lengthen, random: &mut Random) -> Compared<Vec<Answer>> {
    let parts = whole_parts(random);
    let record = record_for(&parts, random);
    let mut watch = state::lend(&parts, random);
    let excess = random.pick(&[1, 2, 48, 239, 240, 256, 1 << 32, 1 << 62, usize::MAX - 300]);
    break_it(&mut watch, excess);
    Ok(vec![refused_12(watch, record)?.into()])
}

/// A state that question 12 lets pass. In many a report is due, so that a break that moves the chosen thread is still the only one.
fn whole_parts(random: &mut Random) -> Parts {
    loop {
        let mut parts = if random.one_in(3) {
            reached_parts(random)
        } else {
            formed_parts(random)
        };
        if parts.due.is_empty() && random.one_in(2) {
            let (report, switch) = (some_report(parts.threads, random), some_switch(parts.threads, random));
            parts.due.push(random.pick(&[report, report, switch]));
        }
        if parts.machine(Fault::None).is_some() {
            return parts;
        }
    }
}

/// 12 is asked first, so bad kinds and operands are among them.
fn record_for(parts: &Parts, random: &mut Random) -> Numbers {
    let mut sized = parts.clone();
    sized.sections = sized.sections.min(16);
    some_record(&sized, random)
}

fn set<T>(place: &mut T, value: T) -> bool {
    *place = value;
    true
}

fn put<T>(list: &mut [T], random: &mut Random, value: fn(&mut Random) -> T) -> bool {
    let place = random.below(list.len());
    list[place] = value(random);
    true
}

/// An operand from the bound on that is not nobody, often one whose low byte is below it.
fn out_of(random: &mut Random, bound: usize) -> u16 {
    let any = random.between(bound, 65534);
    let low = 256 + random.below(bound);
    random.pick(&[bound, low, any, 255, 65534]) as u16
}

/// A byte from the bound on.
fn out_of_byte(random: &mut Random, bound: usize) -> u8 {
    let any = random.between(bound, 255);
    random.pick(&[bound, any, 255]) as u8
}

/// With nobody in any list, so that nothing else is out of range.
fn no_thread(parts: &mut Parts, _: &mut Random) -> bool {
    let (sections, tick, stored) = (parts.sections, parts.tick, parts.stored);
    *parts = Parts {
        sections,
        tick,
        stored,
        given: NOBODY,
        timers: parts.timers,
        ..Parts::default()
    };
    true
}

/// A state of 16 threads, all of which stay as they are.
fn too_many_threads(parts: &mut Parts, random: &mut Random) -> bool {
    let plan = plan_of(random, 16, parts.sections);
    *parts = formed_under(&plan, random);
    set(&mut parts.threads, random.pick(&[17, 18, 255, 256, usize::MAX]))
}

/// A dormant thread, which stands in no list.
fn no_such_condition(parts: &mut Parts, random: &mut Random) -> bool {
    let number = random.between(4, state::GREATEST.into()) as u8;
    let unlisted = some_in(parts, &[0], random);
    unlisted.is_some_and(|condition| set(condition, (number, 0)))
}

/// A thread that is not dormant, which goes on standing in its list; often with a number whose lowest two bits are as they were.
fn no_such_condition_listed(parts: &mut Parts, random: &mut Random) -> bool {
    let any = random.between(4, state::GREATEST.into()) as u8;
    let more = random.pick(&[4, 8, 12]);
    let alike = random.one_in(2);
    let Some(condition) = some_in(parts, &[1, 2, 3], random) else {
        return false;
    };
    condition.0 = if alike { condition.0 + more } else { any };
    true
}

/// Some thread in one of these conditions.
fn some_in<'a>(parts: &'a mut Parts, states: &[u8], random: &mut Random) -> Option<&'a mut (u8, u64)> {
    let mut found: Vec<&mut (u8, u64)> = parts.conditions.iter_mut().filter(|c| states.contains(&c.0)).collect();
    if found.is_empty() {
        return None;
    }
    Some(found.swap_remove(random.below(found.len())))
}

fn needs_from_s(parts: &mut Parts, random: &mut Random) -> bool {
    if parts.sections >= 16 {
        return false;
    }
    let bit = random.between(parts.sections, 15);
    let thread = random.below(parts.threads);
    parts.needs[thread] |= 1 << bit;
    true
}

fn waited_beyond(parts: &mut Parts, random: &mut Random) -> bool {
    let Some(section) = beyond(random, parts.sections) else {
        return false;
    };
    let waiting = some_in(parts, &[3], random);
    waiting.is_some_and(|condition| set(&mut condition.1, section.into()))
}

fn sleeper_beyond(parts: &mut Parts, random: &mut Random) -> bool {
    let until = LAST_SLEEPER + random.pick(&[1, 2, 65536, 294_901_759]);
    let sleeper = some_in(parts, &[2], random);
    sleeper.is_some_and(|condition| set(&mut condition.1, until))
}

fn expiry_beyond(parts: &mut Parts, random: &mut Random) -> bool {
    let expiry = LAST_EXPIRY + random.pick(&[1, 2, 65536, 294_901_760]);
    let (timer, period) = (random.below(TIMERS), random.word());
    within_claims(parts, |changed| changed.timers[timer] = (expiry, period))
}

fn another_reported(parts: &mut Parts, random: &mut Random) -> bool {
    let chosen = parts.chosen().filter(|chosen| *chosen != NOBODY && parts.threads > 1);
    chosen.is_some_and(|chosen| {
        let other = usize::from(chosen) + random.between(1, parts.threads - 1);
        reported_with_nothing_due(parts, (other % parts.threads) as u16)
    })
}

fn nobody_reported(parts: &mut Parts, _: &mut Random) -> bool {
    parts.chosen() != Some(NOBODY) && reported_with_nothing_due(parts, NOBODY)
}

fn one_reported(parts: &mut Parts, random: &mut Random) -> bool {
    let any = random.below(parts.threads) as u16;
    parts.chosen() == Some(NOBODY) && reported_with_nothing_due(parts, any)
}

fn reported_with_nothing_due(parts: &mut Parts, thread: u16) -> bool {
    parts.due.clear();
    set(&mut parts.given, thread)
}
