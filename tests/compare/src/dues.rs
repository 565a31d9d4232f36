//! Reports due in lent states: those that question 12 lets pass, as many as there may be, and the ways in which it does not.

use second::{Parts, LAST_SLEEPER, NOBODY, TIMERS};

use crate::bytes::Numbers;
use crate::random::Random;
use crate::state;

/// The most reports due, and the most claims.
pub fn most(parts: &Parts) -> usize {
    parts.threads + 9
}

pub fn some_thread_or_nobody(threads: usize, random: &mut Random) -> u16 {
    if random.one_in(4) {
        NOBODY
    } else {
        random.below(threads) as u16
    }
}

pub fn some_switch(threads: usize, random: &mut Random) -> Numbers {
    (17, some_thread_or_nobody(threads, random))
}

/// Any report but a Switch, which stands nowhere but last.
pub fn some_report(threads: usize, random: &mut Random) -> Numbers {
    match random.pick(&[16, 18, 19, 20, 21, 22]) {
        21 => (21, random.below(TIMERS) as u16),
        22 => (22, some_count(random)),
        kind => (kind, random.below(threads) as u16),
    }
}

pub fn some_count(random: &mut Random) -> u16 {
    let any = random.word();
    random.pick(&[0, 0, 1, 2, 256, 65535, any])
}

/// Makes reports due in a state in which none is: any, and perhaps a Switch behind them. In half of the states the claims are at their
/// limit, so that a Tick can make due as many as there may be.
pub fn make_due(parts: &mut Parts, random: &mut Random) {
    let any = random.between(parts.claims(), most(parts));
    let claims = random.pick(&[any, most(parts)]);
    owe_expires(parts, random);
    fill(parts, claims, random);
    random.shuffle(&mut parts.due);
    if random.one_in(2) {
        let switch = some_switch(parts.threads, random);
        parts.due.push(switch);
    }
}

/// Some of the armed timers are owed an Expire; that is no claim more.
fn owe_expires(parts: &mut Parts, random: &mut Random) {
    for timer in 0..TIMERS {
        if parts.timers[timer].0 != 0 && random.one_in(4) {
            parts.due.push((21, timer as u16));
        }
    }
}

/// Adds reports in front, a Switch stays last, until there are so many claims.
fn fill(parts: &mut Parts, claims: usize, random: &mut Random) {
    while parts.claims() < claims {
        let report = some_report(parts.threads, random);
        parts.due.insert(0, report);
    }
}

/// Makes the change if it leaves the claims within their limit, so that nothing else is broken by it.
pub fn within_claims(parts: &mut Parts, change: impl FnOnce(&mut Parts)) -> bool {
    changed(parts, change, |changed| changed.claims() <= most(changed))
}

/// Makes the change with the claims at their limit, if that leaves them one above it and no more reports due than there may be.
fn one_claim_more(parts: &mut Parts, random: &mut Random, change: impl FnOnce(&mut Parts, &mut Random)) -> bool {
    let filled = |changed: &mut Parts| {
        fill(changed, most(changed), random);
        change(changed, random);
    };
    changed(parts, filled, |changed| {
        changed.claims() == most(changed) + 1 && changed.due.len() <= most(changed)
    })
}

fn changed(parts: &mut Parts, change: impl FnOnce(&mut Parts), keeps: fn(&Parts) -> bool) -> bool {
    let mut changed = parts.clone();
    change(&mut changed);
    let kept = keeps(&changed);
    if kept {
        *parts = changed;
    }
    kept
}

/// A report that is not allowed, alone or in the place of another; a Switch only in that of the last.
pub fn due_with(parts: &mut Parts, random: &mut Random, report: fn(&mut Random, usize) -> Numbers) -> bool {
    let report = report(random, parts.threads);
    let last = parts.due.len().saturating_sub(1);
    let place = if report.0 == 17 { last } else { random.between(0, last) };
    within_claims(parts, |changed| {
        changed.due.splice(place..changed.due.len().min(place + 1), [report]);
    })
}

pub fn switch_in_front(parts: &mut Parts, random: &mut Random) -> bool {
    !parts.due.is_empty() && switch_at(parts, 0, random)
}

pub fn switch_in_between(parts: &mut Parts, random: &mut Random) -> bool {
    let behind_the_first = parts.due.len() >= 2;
    behind_the_first && switch_at(parts, random.between(1, parts.due.len() - 1), random)
}

/// With another report last.
fn switch_at(parts: &mut Parts, place: usize, random: &mut Random) -> bool {
    let switch = some_switch(parts.threads, random);
    let other_last = parts.due.last().is_some_and(|(kind, _)| *kind != 17);
    if other_last {
        parts.due.insert(place, switch);
    }
    other_last
}

/// One of them is last, and they may name the same thread.
pub fn two_switches(parts: &mut Parts, random: &mut Random) -> bool {
    let Some((17, thread)) = parts.due.last().copied() else {
        return false;
    };
    if parts.due.len() >= most(parts) {
        return false;
    }
    let any = some_thread_or_nobody(parts.threads, random);
    let place = random.below(parts.due.len());
    parts.due.insert(place, (17, random.pick(&[any, thread])));
    true
}

pub fn claimed_by_a_report(parts: &mut Parts, random: &mut Random) -> bool {
    one_claim_more(parts, random, |parts, random| fill(parts, most(parts) + 1, random))
}

/// A thread more is asleep, whatever it was before.
pub fn claimed_by_a_sleeper(parts: &mut Parts, random: &mut Random) -> bool {
    one_claim_more(parts, random, |parts, random| {
        let thread = random.below(parts.threads);
        let awake = parts.conditions[thread].0 != 2;
        if awake {
            parts.line.retain(|other| usize::from(*other) != thread);
            parts.waits.retain(|other| usize::from(*other) != thread);
            parts.conditions[thread] = (2, random.number() % (LAST_SLEEPER + 1));
            parts.delays.insert(random.below(parts.delays.len() + 1), thread as u16);
        }
    })
}

/// A timer more is armed that is owed no Expire.
pub fn claimed_by_a_timer(parts: &mut Parts, random: &mut Random) -> bool {
    one_claim_more(parts, random, |parts, random| {
        let timer = random.below(TIMERS);
        if parts.timers[timer].0 == 0 {
            parts.timers[timer] = (parts.tick + 1, random.word());
        }
    })
}

/// An armed timer was owed an Expire; in its place stands another report.
pub fn claimed_by_a_timer_and_a_report(parts: &mut Parts, random: &mut Random) -> bool {
    one_claim_more(parts, random, |parts, random| {
        let place = random.below(parts.due.len().max(1));
        if let Some(report @ (21, _)) = parts.due.get_mut(place) {
            *report = (16, random.below(parts.threads) as u16);
        }
    })
}

/// The library's array holds T + 9 for 16 threads; more than that is among the lengths beyond the room. So many are also too many claims: a
/// Switch is but one of them.
pub fn too_many_due(parts: &mut Parts, random: &mut Random) -> bool {
    if parts.threads >= 16 {
        return false;
    }
    let (one_more, any) = (most(parts) + 1, random.between(most(parts) + 1, state::REPORTS));
    let number = random.pick(&[one_more, any]);
    parts.due = (0..number).map(|_| some_report(parts.threads, random)).collect();
    if random.one_in(2) {
        parts.due[number - 1] = some_switch(parts.threads, random);
    }
    true
}
