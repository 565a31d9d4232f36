//! The eight timers, and the three calls in a row that arm one.

use std::collections::BTreeMap;

use crate::fault::Fault;

pub const TIMERS: usize = 8;

/// An armed timer: the tick number of its next expiry, and its period, 0 for an alarm.
#[derive(Clone, Copy, Debug, PartialEq, Eq)]
pub struct Timer {
    pub expiry: u64,
    pub period: u16,
}

/// How far an arming is.
#[derive(Clone, Copy, Debug, Default, PartialEq, Eq)]
pub enum Arming {
    #[default]
    Idle,
    AfterArm(usize),
    /// The timer and its start.
    AfterStart(usize, u16),
}

#[derive(Clone, Debug, Default, PartialEq, Eq)]
pub struct Timers {
    pub armed: BTreeMap<usize, Timer>,
    pub arming: Arming,
}

impl Timers {
    pub fn arm(&mut self, timer: usize) {
        self.arming = Arming::AfterArm(timer);
    }

    pub fn start(&mut self, number: u16) {
        let Arming::AfterArm(timer) = self.arming else {
            unreachable!("rule 31 lets a Start come only behind an Arm")
        };
        self.arming = Arming::AfterStart(timer, number);
    }

    /// Ends the arming at that tick number and answers the count lost.
    pub fn period(&mut self, period: u16, tick: u64, fault: Fault) -> u64 {
        let Arming::AfterStart(timer, start) = self.arming else {
            unreachable!("rule 31 lets a Period come only behind a Start")
        };
        self.arming = Arming::Idle;
        let (expiry, count) = first_expiry(start.into(), period, tick, fault);
        match expiry {
            Some(expiry) => drop(self.armed.insert(timer, Timer { expiry, period })),
            None if fault == Fault::LateAlarmKeepsOld => {}
            None => drop(self.armed.remove(&timer)),
        }
        count
    }

    pub fn cancel(&mut self, timer: usize) {
        self.armed.remove(&timer);
    }

    /// The timers that expire at this tick number, lower first, but for those that stand. A periodic one expires again a period after that.
    pub fn expire(&mut self, tick: u64, standing: &[usize], fault: Fault) -> Vec<usize> {
        let at_this_tick = self.armed.iter().filter(|(_, timer)| timer.expiry == tick);
        let mut expired: Vec<usize> = at_this_tick.map(|(number, _)| *number).collect();
        expired.retain(|number| !standing.contains(number));
        for number in &expired {
            self.move_on(*number, fault);
        }
        if fault == Fault::HigherTimerFirst {
            expired.reverse();
        }
        expired
    }

    /// To the next expiry; an alarm has none, and is over.
    fn move_on(&mut self, number: usize, fault: Fault) {
        match self.armed.get_mut(&number) {
            Some(timer) if timer.period > 0 => timer.expiry += u64::from(timer.period),
            _ if fault == Fault::AlarmStaysArmed => {}
            _ => drop(self.armed.remove(&number)),
        }
    }
}

/// The first expiry, none for an alarm that is too late, and the count lost.
fn first_expiry(start: u64, period: u16, tick: u64, fault: Fault) -> (Option<u64>, u64) {
    if start > tick || (fault == Fault::StartAtTickInTime && start == tick) {
        let first = if fault == Fault::ExpiryAtStartPlusOne { start + 1 } else { start };
        return (Some(first), 0);
    }
    if period == 0 {
        return ((fault == Fault::LateAlarmArmed).then_some(start), 1);
    }
    let count = match fault {
        Fault::LostAtOrAbove => lost(start, period.into(), tick.saturating_sub(1)),
        _ => lost(start, period.into(), tick),
    };
    let expiry = match fault {
        Fault::LatePeriodicFromTick => tick + u64::from(period),
        _ => start + count * u64::from(period),
    };
    (Some(expiry), count)
}

/// The least j for which start + j × period is above the tick number; the period is 1 or more.
///
/// That is how many of start, start + period, .. are at or below it. The count grows by ever smaller powers of two, as long as the last of
/// those counted is at or below.
pub fn lost(start: u64, period: u64, tick: u64) -> u64 {
    let powers = (0..=32).rev().map(|power| 1u64 << power);
    powers.fold(0, |count, more| {
        let last = start + (count + more - 1) * period;
        if last <= tick {
            count + more
        } else {
            count
        }
    })
}
