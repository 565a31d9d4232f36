//! A beginning of a run after which all that can be due is due at once.

use second::{Call, TIMERS};

use crate::random::Random;
use crate::runs::{Recorder, ALL};

/// The tick number by which every thread has woken and every timer has expired.
const LAST: usize = 5;

/// Every thread starts, the timers are armed, every thread delays, and Ticks then come one behind the other: T + 9 reports are due, unless
/// some are given meanwhile or the thread that is chosen is the one last reported.
pub fn crowd(recorder: &mut Recorder, random: &mut Random) {
    for thread in 0..recorder.machine.plan.threads() {
        recorder.call(Call::Create(thread));
        recorder.give(ALL);
    }
    for timer in 0..TIMERS {
        recorder.call(Call::Arm(timer));
        recorder.call(Call::Start(random.between(1, LAST) as u16));
        recorder.call(Call::Period(random.below(4) as u16));
        recorder.give(ALL);
    }
    while recorder.machine.chosen().is_some() {
        recorder.give(ALL);
        recorder.call(Call::Delay(random.between(1, LAST - 1) as u16));
    }
    let (interrupts_the_last, gives_meanwhile) = (random.one_in(2), random.one_in(3));
    if !interrupts_the_last {
        recorder.give(ALL);
    }
    for _ in 0..LAST {
        recorder.call(Call::Tick);
        if gives_meanwhile && random.one_in(3) {
            recorder.give(ALL);
        }
    }
    recorder.give_among_ticks(random.below(6), random);
}
