//! Runs with timers, worked out by hand from document 02's item 1: records and verdict, of one thread that records 0 to 2 start.

use super::{breach, clean, started, Run};
use beltcairn::kind::{ARM, CANCEL, DELAY, EXPIRE, LATE, PERIOD, READY, RELINQUISH, START, SWITCH, TICK};
use beltcairn::NOBODY;

pub const PLAN: [u8; 5] = [1, 0, 1, 0, 0];

/// Arm, Start and Period, and the Late behind them.
pub fn armed(timer: u16, start: u16, period: u16, late: u16) -> [(u8, u16); 4] {
    [(ARM, timer), (START, start), (PERIOD, period), (LATE, late)]
}

/// An alarm expires at tick number 2.
fn alarms() -> Vec<Run> {
    let (start, arm, cancel) = (started(0), armed(3, 2, 0, 0), [(CANCEL, 3)]);
    let (ticks, expire) = ([(TICK, 0); 2], [(EXPIRE, 3)]);
    vec![
        clean("alarm", &PLAN, &[&start, &arm, &ticks, &expire, &ticks], 0),
        clean("alarm, Expire due", &PLAN, &[&start, &arm, &ticks], 1),
        breach("alarm, no Expire", &PLAN, &[&start, &arm, &ticks, &[(RELINQUISH, 0)]], 9, 21),
        breach("alarm, a tick early", &PLAN, &[&start, &arm, &[(TICK, 0)], &expire], 8, 28),
        breach("alarm, another timer", &PLAN, &[&start, &arm, &ticks, &[(EXPIRE, 2)]], 9, 30),
        breach("alarm, unarmed", &PLAN, &[&start, &arm, &ticks, &expire, &cancel], 10, 32),
        clean("alarm, cancelled", &PLAN, &[&start, &arm, &cancel, &ticks], 0),
        breach("alarm, cancelled twice", &PLAN, &[&start, &arm, &cancel, &cancel], 8, 32),
    ]
}

/// Armings at tick number 7, which record 9 brings.
fn late() -> Vec<Run> {
    let (start, seven, three) = (started(0), [(TICK, 0); 7], [(TICK, 0); 3]);
    let (tick, expire, cancel) = ([(TICK, 0)], [(EXPIRE, 0)], [(CANCEL, 0)]);
    let by_3 = armed(0, 2, 3, 2); // 2 and 5 are lost, 8 and 11 come
    let from_1 = armed(0, 1, 3, 3); // 1, 4 and 7 are lost, 10 comes
    let alarm = armed(0, 7, 0, 1);
    vec![
        clean("late", &PLAN, &[&start, &seven, &by_3, &tick, &expire, &three, &expire], 0),
        breach("late, wrong count", &PLAN, &[&start, &seven, &armed(0, 2, 3, 3)], 13, 30),
        clean("late, 7 lost", &PLAN, &[&start, &seven, &from_1, &three, &expire], 0),
        clean("late alarm", &PLAN, &[&start, &seven, &alarm, &tick], 0),
        breach("late alarm, unarmed", &PLAN, &[&start, &seven, &alarm, &cancel], 14, 32),
        clean(
            "armed again, too late",
            &PLAN,
            &[&start, &armed(0, 10, 1, 0), &seven, &alarm, &three, &tick],
            0,
        ),
        clean(
            "armed again",
            &PLAN,
            &[&start, &armed(0, 1, 1, 0), &armed(0, 3, 0, 0), &three, &expire],
            0,
        ),
        breach("whole operands", &PLAN, &[&start, &armed(0, 1, 0, 0x0100)], 6, 30),
    ]
}

/// At tick number 2 timers 0 and 1 expire, and the thread wakes.
fn together() -> Vec<Run> {
    let asleep = [(DELAY, 1), (SWITCH, NOBODY), (TICK, 0), (TICK, 0)];
    let both = [&started(0)[..], &armed(1, 2, 0, 0), &armed(0, 2, 5, 0), &asleep].concat();
    let reports = [(EXPIRE, 0), (EXPIRE, 1), (READY, 0), (SWITCH, 0)];
    vec![
        clean("together", &PLAN, &[&both, &reports], 0),
        clean("together, due", &PLAN, &[&both], 4),
        breach("together, Ready first", &PLAN, &[&both, &reports[2..]], 15, 29),
        breach("together, higher timer first", &PLAN, &[&both, &reports[1..]], 15, 30),
    ]
}

/// Arm, Start and Period stand together in this order and nowhere else.
fn out_of_order() -> Vec<Run> {
    let (start, arm) = (started(0), armed(0, 1, 0, 0));
    let behind = |name, given: usize, record: (u8, u16)| breach(name, &PLAN, &[&start, &arm[..given], &[record]], 3 + given as u64, 31);
    vec![
        clean("ends behind Arm", &PLAN, &[&start, &arm[..1]], 0),
        clean("ends behind Start", &PLAN, &[&start, &arm[..2]], 0),
        clean("ends behind Period", &PLAN, &[&start, &arm[..3]], 1),
        behind("Start without Arm", 0, (START, 1)),
        behind("Period without Arm", 0, (PERIOD, 0)),
        behind("Arm twice", 1, (ARM, 0)),
        behind("Cancel behind Arm", 1, (CANCEL, 0)),
        behind("Period behind Arm", 1, (PERIOD, 0)),
        behind("Start twice", 2, (START, 1)),
        behind("Tick behind Start", 2, (TICK, 0)),
        behind("Late behind Start", 2, (LATE, 0)),
        behind("Period twice", 3, (PERIOD, 0)),
        breach("Start with reports due", &PLAN, &[&start[..1], &[(START, 1)]], 1, 31),
        breach("Arm with reports due", &PLAN, &[&start[..1], &arm], 1, 21),
        breach("Arm, nobody runs", &PLAN, &[&arm], 0, 22),
        breach("Cancel, nobody runs", &PLAN, &[&[(CANCEL, 0)]], 0, 22),
        breach("Cancel, not armed", &PLAN, &[&start, &[(CANCEL, 0)]], 3, 32),
    ]
}

pub fn runs() -> Vec<Run> {
    [alarms(), late(), together(), out_of_order()].into_iter().flatten().collect()
}

/// A timer that expires twice, and one that is armed late and cancelled; clean.
pub fn run_of_timers() -> Vec<(u8, u16)> {
    let expire = [(TICK, 0), (EXPIRE, 0)];
    let parts: [&[(u8, u16)]; 6] = [
        &started(0),
        &armed(0, 1, 1, 0),
        &expire,
        &armed(1, 1, 2, 1),
        &expire,
        &[(CANCEL, 1)],
    ];
    parts.concat()
}
