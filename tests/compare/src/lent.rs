//! Lent states: those that a run reaches, and well-formed ones that none does.

use second::{Fault, Parts, Plan, Reply, Top, Watch, LAST_EXPIRY, LAST_SLEEPER, LAST_TICK, NOBODY, TIMERS};

use crate::answer::Answer;
use crate::bytes::Numbers;
use crate::difference::Compared;
use crate::dues::{make_due, some_report, some_switch, some_thread_or_nobody};
use crate::random::Random;
use crate::runs::{period, plan, run, some_timer, start, Run};
use crate::sides::Pair;
use crate::{moves, tops};

/// A Period after which the count lost is the greatest that is written; no dump has so many Ticks.
pub const CUT: Answer = Answer::Showed("a count of 65535");

/// A state that 12 lets pass though another thread is chosen than the one last reported: reports are due.
pub const APART: Answer = Answer::Showed("not 12, with reports due and another thread chosen");

/// A few steps on a state that a run reaches; none of them leaves one that answers 12.
pub fn reached(fault: Fault, random: &mut Random) -> Compared<Vec<Answer>> {
    let parts = reached_parts(random);
    some_steps(fault, &parts, usize::MAX, random)
}

/// A few steps on a well-formed state, reached or not. Those behind the first may answer 12: with the last report given, the chosen thread
/// need not be the one last reported.
pub fn well_formed(fault: Fault, random: &mut Random) -> Compared<Vec<Answer>> {
    let parts = formed_parts(random);
    let mut answers = some_steps(fault, &parts, 1, random)?;
    answers.extend(is_apart(&parts).then_some(APART));
    answers.extend(moves::lent(&parts));
    Ok(answers)
}

/// A Switch that is due counts as reported.
fn is_apart(parts: &Parts) -> bool {
    let chosen = parts.chosen().expect("the state was made to pass");
    let reported = match parts.due.last() {
        Some((17, thread)) => *thread,
        _ => parts.given,
    };
    !parts.due.is_empty() && reported != chosen
}

/// So many of the steps, from the first on, are let pass by 12.
fn some_steps(fault: Fault, parts: &Parts, let_pass: usize, random: &mut Random) -> Compared<Vec<Answer>> {
    let mut pair = Pair::lent(fault, parts, random);
    let mut answers = Vec::new();
    for number in 0..random.between(1, 6) {
        let record = some_record(pair.parts(), random);
        let reply = match number < let_pass {
            true => pair.step_let_pass(record)?,
            false => pair.step(record)?,
        };
        answers.push(reply.into());
        answers.extend(pair.shown());
        let cut = matches!(reply, Reply::Clean { .. }) && pair.parts().due.first() == Some(&(22, 65535));
        answers.extend((record.0 == 10 && cut).then_some(CUT));
    }
    Ok(answers)
}

/// The state after the first records of an honest run.
pub fn reached_parts(random: &mut Random) -> Parts {
    let Run { plan, records } = run(random);
    let length = random.below(records.len().min(200) + 1);
    let mut watch = Watch::new(&plan).expect("the plan was made to pass");
    for (kind, operand) in &records[..length] {
        watch.step(*kind, *operand);
    }
    watch.parts().clone()
}

/// A state that question 12 lets pass: any conditions, with line, waits and Delays in any order, any holds with their owner and greatest
/// ceiling, any timers, an arming at any stage, any reports due as far as there is room for them. With none due the chosen thread is the last
/// reported one, with some due anyone is.
pub fn formed_parts(random: &mut Random) -> Parts {
    let plan = plan(random);
    formed_under(&plan, random)
}

pub fn formed_under(plan: &[u8], random: &mut Random) -> Parts {
    let plan = Plan::read(plan, Fault::None).expect("the plan was made to pass");
    let (threads, sections) = (plan.threads(), plan.sections());
    let tick = some_tick(random);
    let conditions = some_conditions(threads, sections, tick, random);
    let stored = if random.one_in(8) { random.between(21, 32) as u8 } else { 0 };
    let mut parts = Parts {
        threads,
        sections,
        bases: plan.bases().to_vec(),
        needs: plan.needs_bits().to_vec(),
        tick,
        line: shuffled(&conditions, 1, random),
        delays: shuffled(&conditions, 2, random),
        waits: shuffled(&conditions, 3, random),
        conditions,
        holds: some_holds(threads, sections, random),
        top: Top::default(),
        timers: std::array::from_fn(|_| timer(tick, random)),
        arming: some_arming(tick, random),
        given: some_thread_or_nobody(threads, random),
        due: Vec::new(),
        stored,
    };
    tops::keep(&mut parts);
    if random.one_in(4) {
        all_at_the_next_tick(&mut parts);
    }
    if random.one_in(2) {
        make_due(&mut parts, random);
    }
    if parts.due.is_empty() {
        parts.given = parts.chosen().expect("whoever was reported, the state is well-formed");
    }
    parts
}

/// Every sleeper wakes and every armed timer expires.
fn all_at_the_next_tick(parts: &mut Parts) {
    let next = parts.tick + 1;
    parts.conditions.iter_mut().filter(|c| c.0 == 2).for_each(|c| c.1 = next);
    parts.timers.iter_mut().filter(|t| t.0 != 0).for_each(|t| t.0 = next);
}

fn some_tick(random: &mut Random) -> u64 {
    match random.below(5) {
        0 => LAST_TICK - random.below(3) as u64,
        1 => random.number() % (LAST_TICK + 1),
        2 => 65535 + random.below(3) as u64,
        _ => random.below(10) as u64,
    }
}

/// In one state of four most threads are asleep, so that some share a tick.
fn some_conditions(threads: usize, sections: usize, tick: u64, random: &mut Random) -> Vec<(u8, u64)> {
    let asleep_of_four = random.pick(&[0, 0, 0, 3]);
    let mut condition = |_| match random.below(4) < asleep_of_four {
        true => (2, some_wake(tick, random)),
        false => some_condition(sections, tick, random),
    };
    (0..threads).map(&mut condition).collect()
}

/// Ready more often than the rest, so that somebody runs.
fn some_condition(sections: usize, tick: u64, random: &mut Random) -> (u8, u64) {
    match random.below(6) {
        0 => (0, 0),
        1 => (2, some_wake(tick, random)),
        2 | 3 if sections > 0 => (3, random.below(sections) as u64),
        _ => (1, 0),
    }
}

fn some_wake(tick: u64, random: &mut Random) -> u64 {
    match random.below(8) {
        0 => LAST_SLEEPER,
        1 => random.number() % (LAST_SLEEPER + 1),
        2 => tick.saturating_sub(random.below(3) as u64),
        _ => tick + random.between(1, 2) as u64,
    }
}

/// Its expiry and period; half of them are not armed.
fn timer(tick: u64, random: &mut Random) -> (u64, u16) {
    let expiry = match random.below(16) {
        0 => LAST_EXPIRY,
        1 => random.number() % (LAST_EXPIRY + 1),
        2 => tick.saturating_sub(random.below(3) as u64),
        3..=7 => tick + random.between(1, 2) as u64,
        _ => 0,
    };
    if expiry == 0 {
        (0, 0)
    } else {
        (expiry, period(random))
    }
}

fn some_arming(tick: u64, random: &mut Random) -> (u8, u8, u16) {
    let timer = some_timer(random) as u8;
    match random.below(10) {
        0 => (1, timer, 0),
        // No Start is 0, but 12 does not ask.
        1 if random.one_in(8) => (2, timer, 0),
        1 => {
            let close = start(tick, random);
            (2, timer, random.pick(&[1, 2, close, close]))
        }
        _ => (0, 0, 0),
    }
}

fn shuffled(conditions: &[(u8, u64)], number: u8, random: &mut Random) -> Vec<u16> {
    let mut threads: Vec<u16> = (0..conditions.len() as u16)
        .filter(|t| conditions[usize::from(*t)].0 == number)
        .collect();
    random.shuffle(&mut threads);
    threads
}

fn some_holds(threads: usize, sections: usize, random: &mut Random) -> Vec<(u16, u16)> {
    let mut held: Vec<u16> = (0..sections as u16).collect();
    random.shuffle(&mut held);
    held.truncate(random.below(sections + 1));
    held.into_iter().map(|section| (section, random.below(threads) as u16)).collect()
}

/// A record for a step: often the report that is due or the next call of an arming, a Tick, or a call with a fitting operand; now and then
/// any numbers at all.
pub fn some_record(parts: &Parts, random: &mut Random) -> Numbers {
    let threads = parts.threads.clamp(1, 16);
    match (random.below(12), parts.arming.0, parts.due.first()) {
        (0, ..) => (random.byte(), random.word()),
        (1, ..) => (
            random.between(0, 23) as u8,
            random.pick(&[0, 1, 8, threads as u16, parts.sections as u16, 256, NOBODY]),
        ),
        (2, ..) => some_report(threads, random),
        (3, ..) => some_switch(threads, random),
        (4..=6, 1, _) => (9, start(parts.tick, random)),
        (4..=6, 2, _) => (10, period(random)),
        (4..=6, _, Some(report)) => *report,
        (7..=8, _, Some(_)) => (7, 0),
        (9, _, Some((kind, operand))) => (*kind, otherwise(*operand, threads, random)),
        _ => some_call(parts, threads, random),
    }
}

/// Another operand for a report, at times alike in its low byte.
fn otherwise(operand: u16, threads: usize, random: &mut Random) -> u16 {
    if random.one_in(4) {
        operand ^ 256
    } else {
        random.below(threads) as u16
    }
}

fn some_call(parts: &Parts, threads: usize, random: &mut Random) -> Numbers {
    match random.pick(&[1, 2, 3, 4, 5, 5, 6, 6, 6, 7, 7, 8, 8, 9, 10, 11, 11]) {
        1 => (1, random.below(threads) as u16),
        2 => (2, random.pick(&[1, 1, 2, 256, 65535])),
        6 if !parts.holds.is_empty() => (6, random.pick(&parts.holds).0),
        kind @ (5 | 6) => (kind, random.below(parts.sections.max(1)) as u16),
        9 => (9, start(parts.tick, random)),
        10 => (10, period(random)),
        kind @ (8 | 11) => (kind, random.below(TIMERS) as u16),
        kind => (kind, 0),
    }
}
