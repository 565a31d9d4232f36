//! What each call does.

use super::machine::{Condition, Hold, Queue};
use super::*;

impl<const TUNED: bool> Machine<TUNED> {
    pub fn create(&mut self, thread: u16) -> Result<(), u8> {
        if self.conditions[thread as usize] != Condition::Dormant {
            return Err(23);
        }
        self.arrive(thread);
        Ok(())
    }

    pub fn tick(&mut self) {
        self.tick += 1;
        let interrupts = self.due() > 0;
        if TUNED && !interrupts && self.tick != self.soonest {
            return;
        }
        if interrupts {
            self.drop_switch();
        } else {
            (self.given, self.made) = (0, 0);
        }
        if self.timers.expiries.contains(&self.tick) {
            self.expire();
        }
        let wakes = self.wakes[..self.plan.threads].contains(&self.tick);
        if wakes {
            self.wake();
        }
        if wakes || interrupts {
            self.settle();
        }
        if TUNED {
            let sooner = |numbers: &[u32]| numbers.iter().copied().fold(u32::MAX, u32::min);
            self.soonest = sooner(&self.wakes).min(sooner(&self.timers.expiries));
        }
    }

    /// The sleepers whose tick has come, in order of their Delays. Where there is none the line stays, and so does the chosen thread.
    fn wake(&mut self) {
        let asleep = std::mem::replace(&mut self.delays, Queue::EMPTY);
        for &thread in asleep.items() {
            if self.wakes[thread as usize] == self.tick {
                self.wakes[thread as usize] = u32::MAX;
                self.arrive(thread);
            } else {
                self.delays.push(thread);
            }
        }
    }

    pub fn delay(&mut self, caller: u16, wait: u16) -> Result<(), u8> {
        self.hold_nothing(caller)?;
        let until = self.tick + wait as u32 + 1;
        self.soonest = self.soonest.min(until);
        self.wakes[caller as usize] = until;
        self.conditions[caller as usize] = Condition::Asleep;
        self.line.remove(caller);
        self.delays.push(caller);
        Ok(())
    }

    pub fn relinquish(&mut self, caller: u16) -> Result<(), u8> {
        let raised = self.raised();
        let mine = self.current(caller, raised);
        if self.line.items().iter().any(|&t| t != caller && self.current(t, raised) == mine) {
            self.line.remove(caller);
            self.line.push(caller);
            self.report(YIELD, caller);
        }
        Ok(())
    }

    pub fn end(&mut self, caller: u16) -> Result<(), u8> {
        self.hold_nothing(caller)?;
        self.conditions[caller as usize] = Condition::Dormant;
        self.line.remove(caller);
        Ok(())
    }

    pub fn take(&mut self, caller: u16, section: u16) -> Result<(), u8> {
        if self.plan.needs[caller as usize] >> section & 1 == 0 {
            return Err(25);
        }
        if self
            .holds
            .items()
            .iter()
            .any(|hold| hold.section == section && hold.thread == caller)
        {
            return Err(26);
        }
        let base = self.plan.bases[caller as usize];
        if self
            .holds
            .items()
            .iter()
            .all(|hold| hold.thread == caller || self.ceiling(hold) < base)
        {
            self.holds.push(Hold { section, thread: caller });
            self.report(WON, caller);
        } else {
            self.line.remove(caller);
            self.conditions[caller as usize] = Condition::WaitingFor(section);
            self.waits.push(caller);
            self.report(LOST, caller);
        }
        Ok(())
    }

    pub fn give(&mut self, caller: u16, section: u16) -> Result<(), u8> {
        match self.holds.last_of(caller) {
            Some(at) if self.holds.items()[at].section == section => self.holds.remove_at(at),
            _ => return Err(27),
        }
        let Some((heir, base)) = self.most_urgent_waiter() else {
            return Ok(());
        };
        if self.holds.items().iter().any(|hold| self.ceiling(hold) >= base) {
            self.report(LOST, heir);
        } else if let Condition::WaitingFor(section) = self.conditions[heir as usize] {
            self.waits.remove(heir);
            self.holds.push(Hold { section, thread: heir });
            self.report(WON, heir);
            self.arrive(heir);
        }
        Ok(())
    }

    /// After a call: a Switch is due if the chosen thread is not the one last reported.
    pub fn settle(&mut self) {
        let chosen = self.chosen();
        if chosen != self.reported {
            self.reported = chosen;
            self.report(SWITCH, chosen);
        }
    }

    fn arrive(&mut self, thread: u16) {
        self.conditions[thread as usize] = Condition::Ready;
        self.line.push(thread);
        self.report(READY, thread);
    }

    fn hold_nothing(&self, caller: u16) -> Result<(), u8> {
        if self.holds.last_of(caller).is_some() {
            return Err(24);
        }
        Ok(())
    }

    fn ceiling(&self, hold: &Hold) -> u8 {
        self.plan.ceilings[hold.section as usize]
    }

    /// The waiting thread of greatest base, on a tie the longest waiting, with its base.
    fn most_urgent_waiter(&self) -> Option<(u16, u8)> {
        let mut found = None;
        let mut greatest = 0;
        for &thread in self.waits.items() {
            let base = self.plan.bases[thread as usize];
            if base > greatest {
                greatest = base;
                found = Some((thread, base));
            }
        }
        found
    }

    /// The owner and its current priority, where some thread waits; where none does, everyone's is the base.
    fn raised(&self) -> Option<(u16, u8)> {
        let (_, urgent) = self.most_urgent_waiter()?;
        let mut owner = None;
        let mut greatest = 0;
        for hold in self.holds.items() {
            if self.ceiling(hold) >= greatest {
                greatest = self.ceiling(hold);
                owner = Some(hold.thread);
            }
        }
        owner.map(|thread| (thread, urgent.max(self.plan.bases[thread as usize])))
    }

    fn current(&self, thread: u16, raised: Option<(u16, u8)>) -> u8 {
        match raised {
            Some((owner, priority)) if owner == thread => priority,
            _ => self.plan.bases[thread as usize],
        }
    }

    /// The first in the line among those of greatest current priority.
    fn chosen(&self) -> u16 {
        let raised = self.raised();
        let mut chosen = NOBODY;
        let mut greatest = 0;
        for &thread in self.line.items() {
            let priority = self.current(thread, raised);
            if priority > greatest {
                greatest = priority;
                chosen = thread;
            }
        }
        chosen
    }
}
