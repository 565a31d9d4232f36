//! The timers: what Arm, Start, Period and Cancel do, and rules 31 and 32.

use super::*;

pub struct Timers {
    /// When each timer expires next; the greatest number for one that is not armed.
    pub expiries: [u32; TIMERS],
    /// From an expiry to the next; 0 for an alarm.
    periods: [u16; TIMERS],
    /// The only kind that may come next inside an arming; 0 outside.
    awaited: u8,
    /// Of the arming in progress.
    timer: usize,
    start: u16,
}

impl Timers {
    pub const UNARMED: Timers = Timers {
        expiries: [u32::MAX; TIMERS],
        periods: [0; TIMERS],
        awaited: 0,
        timer: 0,
        start: 0,
    };

    /// Rule 31.
    #[inline(always)]
    pub fn in_order(&self, kind: u8) -> Result<(), u8> {
        let part = if matches!(kind, START | PERIOD) { kind } else { 0 };
        if part != self.awaited {
            return Err(31);
        }
        Ok(())
    }

    /// How many expiries a timer has lost that starts at `start`, and when it expires next.
    fn first(start: u32, period: u32, tick: u32) -> (u32, u32) {
        if start > tick {
            return (0, start);
        }
        match (tick - start).checked_div(period) {
            Some(whole) => (whole + 1, start + (whole + 1) * period),
            None => (1, u32::MAX), // an alarm
        }
    }
}

impl<const TUNED: bool> Machine<TUNED> {
    /// A call that a thread makes on a timer. It moves no thread, so the chosen one stays.
    pub fn set_timer(&mut self, kind: u8, operand: u16) -> Result<(), u8> {
        match kind {
            ARM => (self.timers.awaited, self.timers.timer) = (START, operand as usize),
            START => (self.timers.awaited, self.timers.start) = (PERIOD, operand),
            PERIOD => self.arm(operand),
            _ if self.timers.expiries[operand as usize] == u32::MAX => return Err(32),
            _ => self.timers.expiries[operand as usize] = u32::MAX,
        }
        Ok(())
    }

    fn arm(&mut self, period: u16) {
        let timer = self.timers.timer;
        let (lost, expiry) = Timers::first(self.timers.start.into(), period.into(), self.tick);
        self.timers.awaited = 0;
        self.timers.expiries[timer] = expiry;
        self.timers.periods[timer] = period;
        self.soonest = self.soonest.min(expiry);
        self.report(LATE, lost.min(65535) as u16);
    }

    /// The timers whose tick has come.
    pub fn expire(&mut self) {
        for timer in 0..TIMERS {
            if self.timers.expiries[timer] == self.tick {
                let period = self.timers.periods[timer];
                self.timers.expiries[timer] = if period == 0 { u32::MAX } else { self.tick + period as u32 };
                if !self.owes_expire(timer) {
                    self.report(EXPIRE, timer as u16);
                }
            }
        }
    }
}
