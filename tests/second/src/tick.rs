//! The Tick. It may come while reports are due, since the clock can interrupt a kernel that acts on a call.

use crate::fault::Fault;
use crate::machine::{Condition, Machine};
use crate::records::Report;

impl Machine {
    /// All but the Switch behind it, which every call has.
    pub(crate) fn clock_tick(&mut self) {
        self.tick += 1;
        self.drop_switch();
        if self.fault == Fault::DelayFromSwitch {
            self.put_off_delay();
        }
        if self.fault == Fault::ReadyBeforeExpire {
            self.wake_sleepers();
            self.expire_timers();
        } else {
            self.expire_timers();
            self.wake_sleepers();
        }
    }

    /// Without the Switch, the thread of the latest one given is the last reported again.
    fn drop_switch(&mut self) {
        let Some(Report::Switch(thread)) = self.due.back().copied() else {
            return;
        };
        match self.fault {
            Fault::SwitchKeptAtTick => {}
            Fault::SwitchMovedToFront => self.due.rotate_right(1),
            Fault::ReportedFromDroppedSwitch => {
                self.due.pop_back();
                self.given = thread;
            }
            _ => drop(self.due.pop_back()),
        }
    }

    // The mistake: until the Switch behind a Delay is given, its caller is the thread of the latest one given, and the Tick does not count.
    fn put_off_delay(&mut self) {
        if let Some(Condition::Asleep(until)) = self.given.map(|thread| &mut self.conditions[thread]) {
            *until += 1;
        }
    }

    fn expire_timers(&mut self) {
        let owed = self.owed_timers();
        let standing = match self.fault {
            Fault::OwedTimerStands => &owed[..],
            _ => &[],
        };
        for timer in self.timers.expire(self.tick, standing, self.fault) {
            if !owed.contains(&timer) || self.fault == Fault::ExpireOwedTwice {
                self.owe(Report::Expire(timer));
            }
        }
    }

    /// The timers that are owed an Expire.
    fn owed_timers(&self) -> Vec<usize> {
        let expire = |report: &Report| match report {
            Report::Expire(timer) => Some(*timer),
            _ => None,
        };
        self.due.iter().filter_map(expire).collect()
    }

    fn wake_sleepers(&mut self) {
        let mut woken = self.sleepers();
        woken.retain(|thread| self.conditions[*thread] == Condition::Asleep(self.tick));
        match self.fault {
            Fault::SleepersByNumber => woken.sort_unstable(),
            Fault::LatestDelayFirst => woken.reverse(),
            _ => {}
        }
        for thread in woken {
            self.join_line(thread, self.fault == Fault::WokenAtFront);
            self.owe(Report::Ready(thread));
        }
    }
}
