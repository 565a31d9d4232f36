//! Reads timers and reports out of a watch state. Any state is read, a lent one too.

use crate::watch::{Arming, Report, State, Timers};

/// A timer that is armed.
#[derive(Clone, Copy, Debug, PartialEq, Eq)]
pub struct Armed {
    /// The tick number of its next expiry.
    pub expiry: u32,
    /// The ticks from that expiry to the one behind it, 0 for an alarm.
    pub period: u16,
}

/// An arming in progress.
#[derive(Clone, Copy, Debug, PartialEq, Eq)]
pub struct Begun {
    /// The timer of the Arm.
    pub timer: u8,
    /// The tick number of the Start, once that was given.
    pub start: Option<u16>,
}

impl Timers {
    /// The timer, if it is armed; `None` also for a number that is no timer's.
    pub fn armed(&self, timer: usize) -> Option<Armed> {
        let (expiry, period) = (*self.expiries.get(timer)?, *self.periods.get(timer)?);
        (expiry != 0).then_some(Armed { expiry, period })
    }
}

impl Arming {
    /// What was given of an arming in progress; `None` if there is none, or at a stage that question 12 refuses.
    pub fn begun(&self) -> Option<Begun> {
        let start = match self.stage {
            1 => None,
            2 => Some(self.start),
            _ => return None,
        };
        Some(Begun { timer: self.timer, start })
    }
}

impl State {
    /// The reports due, in order; none for counts that question 12 refuses.
    pub fn owed(&self) -> &[Report] {
        self.due.items.get(self.given..self.due.count).unwrap_or(&[])
    }
}
