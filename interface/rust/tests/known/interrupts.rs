//! Runs with a Tick between a call and its reports, worked out by hand from document 02's item 4: plan, records and verdict.

use super::sleepers::{both_ready, delayed, PLAN as EQUAL_THREADS};
use super::timers::{armed, PLAN as ONE_THREAD};
use super::{breach, clean, started, Run};
use beltcairn::kind::{CANCEL, CREATE, DELAY, END, EXPIRE, GIVE, LATE, READY, RELINQUISH, SWITCH, TAKE, TICK, WON, YIELD};
use beltcairn::NOBODY;

const TICKS: [(u8, u16); 3] = [(TICK, 0); 3];

/// The reports of one call.
fn of_calls() -> Vec<Run> {
    let (start, tick, ready) = (started(0), &TICKS[..1], both_ready(0, 1));
    let yielded = [(YIELD, 0), (SWITCH, 1)];
    vec![
        clean("Tick behind Create", &ONE_THREAD, &[&start[..1], tick], 2),
        clean("reports behind a Tick", &ONE_THREAD, &[&start[..1], tick, &start[1..]], 0),
        clean("Tick in front of Switch", &ONE_THREAD, &[&start[..2], tick, &start[2..]], 0),
        breach("Switch first", &ONE_THREAD, &[&start[..1], tick, &start[2..]], 2, 29),
        breach("another call", &ONE_THREAD, &[&start[..1], tick, &start], 2, 21),
        clean("End", &ONE_THREAD, &[&start, &[(END, 0)], tick, &[(SWITCH, NOBODY)]], 0),
        clean("Relinquish", &EQUAL_THREADS, &[&ready, &[(RELINQUISH, 0)], tick, &yielded], 0),
    ]
}

/// One thread sleeps until 2. With three Ticks that is P6; with two and no Switch its Delay is overtaken by its wake.
fn of_delays() -> Vec<Run> {
    let (start, awake, asleep) = (started(0), [(READY, 0), (SWITCH, 0)], delayed(1, NOBODY));
    let p6 = [&start[..], &asleep, &TICKS].concat();
    let overtaken = [&start[..], &[(DELAY, 1), (TICK, 0), (TICK, 0)]].concat();
    let behind = [(DELAY, 1), (TICK, 0), (SWITCH, NOBODY), (TICK, 0)];
    vec![
        clean("P6, then its reports", &ONE_THREAD, &[&p6, &awake], 0),
        breach("P6, Switch first", &ONE_THREAD, &[&p6, &awake[1..]], 8, 29),
        breach("P6, two Readys", &ONE_THREAD, &[&p6, &[(READY, 0); 2]], 9, 29),
        clean("a delay runs from its record", &ONE_THREAD, &[&start, &behind, &awake], 0),
        clean("overtaken, Ready due", &ONE_THREAD, &[&overtaken], 1),
        clean("overtaken", &ONE_THREAD, &[&overtaken, &awake[..1]], 0),
        breach("overtaken, Switch dropped", &ONE_THREAD, &[&overtaken, &[(SWITCH, NOBODY)]], 6, 29),
        breach("overtaken, Switch not due", &ONE_THREAD, &[&overtaken, &awake], 7, 28),
        clean("overtaken, runs on", &ONE_THREAD, &[&overtaken, &awake[..1], &[(RELINQUISH, 0)]], 0),
    ]
}

/// A thread wakes while reports of another are due.
fn of_two_threads() -> Vec<Run> {
    let (ready, tick) = (both_ready(1, 0), &TICKS[..1]);
    // thread 1 wakes at 2 and thread 0 at 3
    let two = [&ready[..], &delayed(1, 0), &delayed(2, NOBODY), &TICKS].concat();
    // thread 1 wakes at 2, while the Switch behind the Delay of thread 0 is due
    let next = [&ready[..], &delayed(1, 0), tick, &[(DELAY, 5)], tick].concat();
    // thread 1, the more urgent, wakes at 2, while the Won of thread 0 is due
    let taken = [&started(0)[..], &started(1), &delayed(1, 0), tick, &[(TAKE, 0)], tick].concat();
    let priorities = [2, 1, 1, 2, 1, 0, 0, 0];
    let reports = [(WON, 0), (READY, 1), (SWITCH, 1)];
    vec![
        clean("two wakes", &EQUAL_THREADS, &[&two], 3),
        clean(
            "two wakes, reports",
            &EQUAL_THREADS,
            &[&two, &[(READY, 1), (READY, 0), (SWITCH, 1)]],
            0,
        ),
        breach("two wakes, Switch between", &EQUAL_THREADS, &[&two, &reports[1..]], 13, 29),
        clean("the next one", &EQUAL_THREADS, &[&next, &reports[1..], &[(RELINQUISH, 0)]], 0),
        breach(
            "the next one, Switch dropped",
            &EQUAL_THREADS,
            &[&next, &[(SWITCH, NOBODY)]],
            10,
            29,
        ),
        clean("woken into a Take", &priorities, &[&taken, &reports], 0),
        breach("woken into a Take, Ready first", &priorities, &[&taken, &reports[1..]], 11, 29),
    ]
}

/// Expires among other reports.
fn of_timers() -> Vec<Run> {
    let (start, tick) = (started(0), &TICKS[..1]);
    let alarm = [&start[..], &armed(3, 2, 0, 0), &TICKS].concat();
    let each_tick = [&start[..], &armed(4, 1, 1, 0), &TICKS].concat();
    let expire = [(EXPIRE, 4)];
    let late = [&start[..], &armed(0, 1, 0, 0)[..3], tick].concat();
    let two = [&start[..], &armed(4, 1, 0, 0), &armed(2, 2, 0, 0), &TICKS].concat();
    vec![
        clean("alarm", &ONE_THREAD, &[&alarm], 1),
        clean("alarm, Expire behind a Tick", &ONE_THREAD, &[&alarm, &[(EXPIRE, 3)]], 0),
        clean("owed once", &ONE_THREAD, &[&each_tick], 1),
        breach("owed once, given twice", &ONE_THREAD, &[&each_tick, &expire, &expire], 11, 28),
        clean("given and owed again", &ONE_THREAD, &[&each_tick, &expire, tick, &expire], 0),
        clean("behind Late", &ONE_THREAD, &[&late, &[(LATE, 0), (EXPIRE, 0)]], 0),
        breach("in front of Late", &ONE_THREAD, &[&late, &[(EXPIRE, 0)]], 7, 29),
        clean("lower timer behind", &ONE_THREAD, &[&two, &[(EXPIRE, 4), (EXPIRE, 2)]], 0),
    ]
}

pub fn runs() -> Vec<Run> {
    [of_calls(), of_delays(), of_two_threads(), of_timers()]
        .into_iter()
        .flatten()
        .collect()
}

/// Three threads, of which 2 is the most urgent; clean. Timer 0 expires at each tick from 2 on. Thread 2 sleeps from 3 to 5, and no Switch
/// is given in that time.
pub fn run_of_interrupts() -> Vec<(u8, u16)> {
    let parts: [&[(u8, u16)]; 5] = [
        &[(CREATE, 2), (TICK, 0), (READY, 2), (SWITCH, 2)],
        &armed(0, 2, 1, 0),
        &[(CREATE, 1), (TICK, 0), (READY, 1), (TICK, 0), (EXPIRE, 0)],
        &[(DELAY, 1), (TICK, 0), (EXPIRE, 0), (TICK, 0), (EXPIRE, 0), (READY, 2)],
        &[(TAKE, 0), (TICK, 0), (WON, 2), (EXPIRE, 0), (GIVE, 0), (CANCEL, 0)],
    ];
    parts.concat()
}
