//! The machine: what it remembers and what each call does, but for the Tick (see `tick`).
//!
//! It asks no rules; a call comes here only after they are asked (see `rules`).

use std::collections::VecDeque;

use crate::delays::Delays;
use crate::fault::Fault;
use crate::plan::Plan;
use crate::records::{Call, Record, Report};
use crate::timers::Timers;
use crate::top::Top;

#[derive(Clone, Copy, Debug, PartialEq, Eq)]
pub enum Condition {
    Dormant,
    Ready,
    /// Until this tick number.
    Asleep(u64),
    /// For this section.
    Waiting(usize),
}

#[derive(Clone, Copy, Debug, PartialEq, Eq)]
pub struct Hold {
    pub section: usize,
    pub thread: usize,
}

#[derive(Clone, Debug, PartialEq, Eq)]
pub struct Machine {
    pub plan: Plan,
    pub fault: Fault,
    pub tick: u64,
    pub conditions: Vec<Condition>,
    /// The ready threads in order of arrival.
    pub line: VecDeque<usize>,
    /// In order of taking.
    pub holds: Vec<Hold>,
    /// Their owner and greatest ceiling, as they are kept.
    pub top: Top,
    /// In order of their Take.
    pub waits: Vec<usize>,
    /// They put the sleeping threads in order.
    pub delays: Delays,
    pub timers: Timers,
    /// The thread of the latest Switch that was given; a Switch still due is in `due`.
    pub given: Option<usize>,
    pub due: VecDeque<Report>,
}

impl Machine {
    /// The start: all dormant, tick number 0, nobody reported, nothing due.
    pub fn new(plan: Plan, fault: Fault) -> Machine {
        Machine {
            fault,
            tick: 0,
            conditions: vec![Condition::Dormant; plan.threads()],
            line: VecDeque::new(),
            holds: Vec::new(),
            top: Top::default(),
            waits: Vec::new(),
            delays: Delays::none(plan.threads()),
            timers: Timers::default(),
            given: None,
            due: VecDeque::new(),
            plan,
        }
    }

    pub fn ceiling(&self, section: usize) -> u8 {
        if self.fault == Fault::CeilingOverAll {
            return self.plan.bases().iter().copied().max().unwrap_or(0);
        }
        self.plan.ceiling(section)
    }

    /// The greater of the base and, for the owner, the greatest base among the waits.
    pub fn current(&self, thread: usize) -> u8 {
        let base = self.plan.base(thread);
        if self.top.owner != Some(thread) {
            return base;
        }
        self.waits.iter().map(|waiter| self.plan.base(*waiter)).fold(base, u8::max)
    }

    /// The first in the line among those of greatest current priority.
    pub fn chosen(&self) -> Option<usize> {
        // Of equal maxima `max_by_key` gives the last it meets, which from behind is the first in the line.
        self.line.iter().rev().copied().max_by_key(|thread| self.current(*thread))
    }

    /// The thread last reported as running; a Switch that is due counts as reported.
    pub fn last_reported(&self) -> Option<usize> {
        let switched = self.due.iter().rev().find_map(|report| switched_to(*report));
        switched.unwrap_or(self.given)
    }

    pub fn holds_any(&self, thread: usize) -> bool {
        self.holds.iter().any(|hold| hold.thread == thread)
    }

    pub fn holds_section(&self, thread: usize, section: usize) -> bool {
        self.holds.contains(&Hold { section, thread })
    }

    /// The section that the thread took last of those it still holds.
    pub fn taken_last(&self, thread: usize) -> Option<usize> {
        self.holds.iter().rev().find(|hold| hold.thread == thread).map(|hold| hold.section)
    }

    /// The sleeping threads in order of their Delay calls.
    pub fn sleepers(&self) -> Vec<usize> {
        let asleep = |thread: &usize| matches!(self.conditions[*thread], Condition::Asleep(_));
        let mut sleepers: Vec<usize> = (0..self.plan.threads()).filter(asleep).collect();
        sleepers.sort_unstable_by_key(|thread| self.delays.number(*thread));
        sleepers
    }

    /// Advances by a record that breaks no rule.
    pub fn advance(&mut self, record: Record) {
        match record {
            Record::Call(call) => self.call(call),
            Record::Report(_) => self.report_given(),
        }
    }

    fn report_given(&mut self) {
        let given = self.due.pop_front();
        if let Some(thread) = given.and_then(switched_to) {
            self.given = thread;
        }
    }

    fn call(&mut self, call: Call) {
        match (call, self.chosen()) {
            (Call::Create(thread), _) => self.create(thread),
            (Call::Tick, _) => self.clock_tick(),
            (Call::Delay(ticks), Some(caller)) => self.delay(caller, ticks),
            (Call::Relinquish, Some(caller)) => self.relinquish(caller),
            (Call::End, Some(caller)) => self.leave_line(caller, Condition::Dormant),
            (Call::Take(section), Some(caller)) => self.take(caller, section),
            (Call::Give(section), Some(caller)) => self.give(caller, section),
            (Call::Arm(timer), _) => self.timers.arm(timer),
            (Call::Start(number), _) => self.timers.start(number),
            (Call::Period(ticks), _) => self.period(ticks),
            (Call::Cancel(timer), _) => self.timers.cancel(timer),
            // Reached only where rule 22 is left out by mistake.
            (_, None) => {}
        }
        self.owe_switch();
    }

    pub(crate) fn owe(&mut self, report: Report) {
        self.due.push_back(report);
    }

    fn owe_switch(&mut self) {
        let chosen = self.chosen();
        if chosen != self.last_reported() {
            self.owe(Report::Switch(chosen));
        }
    }

    pub(crate) fn join_line(&mut self, thread: usize, at_front: bool) {
        self.conditions[thread] = Condition::Ready;
        if at_front {
            self.line.push_front(thread);
        } else {
            self.line.push_back(thread);
        }
    }

    fn leave_line(&mut self, thread: usize, condition: Condition) {
        self.conditions[thread] = condition;
        self.line.retain(|other| *other != thread);
    }

    fn create(&mut self, thread: usize) {
        self.join_line(thread, false);
        self.owe(Report::Ready(thread));
    }

    /// A count above 65535 is written 65535.
    fn period(&mut self, ticks: u16) {
        let count = self.timers.period(ticks, self.tick, self.fault);
        let written = match self.fault {
            Fault::CountNotCapped => count as u16,
            _ => u16::try_from(count).unwrap_or(u16::MAX),
        };
        if count > 0 || self.fault != Fault::LateZeroLeftOut {
            self.owe(Report::Late(written));
        }
    }

    fn delay(&mut self, caller: usize, ticks: u16) {
        let mut until = self.tick + u64::from(ticks) + 1;
        if self.fault == Fault::WakeAtNumberPlusN {
            until -= 1;
        }
        self.leave_line(caller, Condition::Asleep(until));
        self.delays.make(caller, self.fault);
    }

    fn relinquish(&mut self, caller: usize) {
        let priority = |thread: usize| match self.fault {
            Fault::RelinquishBases => self.plan.base(thread),
            _ => self.current(thread),
        };
        let mut others = self.line.iter().filter(|thread| **thread != caller);
        let equal = others.any(|thread| priority(*thread) == priority(caller));
        if equal || self.fault == Fault::LoneRelinquisherMoves {
            self.line.retain(|thread| *thread != caller);
            self.line.push_back(caller);
            self.owe(Report::Yield(caller));
        }
    }

    fn take(&mut self, caller: usize, section: usize) {
        let hold = Hold { section, thread: caller };
        if self.wins(caller, section) {
            self.holds.push(hold);
            self.keep_taken(hold);
            self.owe(Report::Won(caller));
        } else {
            self.leave_line(caller, Condition::Waiting(section));
            self.begin_to_wait(caller);
            self.keep_after_lost(hold);
            self.owe(Report::Lost(caller));
        }
    }

    /// Whether the caller's base is above every ceiling held by others.
    fn wins(&self, caller: usize, section: usize) -> bool {
        let mut others = self.holds.iter().filter(|hold| hold.thread != caller);
        if self.fault == Fault::BarsHeldOnly {
            return others.all(|hold| hold.section != section);
        }
        let or_equal = self.fault == Fault::TakeAtOrAbove;
        others.all(|hold| self.is_above(caller, hold.section, or_equal))
    }

    fn is_above(&self, thread: usize, section: usize, or_equal: bool) -> bool {
        let (base, ceiling) = (self.plan.base(thread), self.ceiling(section));
        base > ceiling || (or_equal && base == ceiling)
    }

    fn begin_to_wait(&mut self, thread: usize) {
        match self.fault {
            Fault::WaitsNewestFirst => self.waits.insert(0, thread),
            _ => self.waits.push(thread),
        }
        if self.fault == Fault::WaitsByNumber {
            self.waits.sort_unstable();
        }
    }

    fn give(&mut self, caller: usize, section: usize) {
        self.holds.retain(|hold| *hold != Hold { section, thread: caller });
        self.keep_given(section);
        let Some(heir) = self.heir() else { return };
        let or_equal = self.fault == Fault::GiveAtOrAbove;
        if self.holds.iter().all(|hold| self.is_above(heir, hold.section, or_equal)) {
            self.hand_over(heir, section);
        } else {
            let named = if self.fault == Fault::LostNamesGiver { caller } else { heir };
            self.owe(Report::Lost(named));
        }
    }

    /// The waiting thread of greatest base, on a tie the longest waiting.
    fn heir(&self) -> Option<usize> {
        let first = *self.waits.first()?;
        if self.fault == Fault::LongestWaiter {
            return Some(first);
        }
        let mut best = first;
        for waiter in self.waits.iter().copied() {
            let (base, greatest) = (self.plan.base(waiter), self.plan.base(best));
            if base > greatest || (self.fault == Fault::HeirTie && base == greatest) {
                best = waiter;
            }
        }
        Some(best)
    }

    fn hand_over(&mut self, heir: usize, given: usize) {
        let section = match self.conditions[heir] {
            Condition::Waiting(wanted) if self.fault != Fault::HeirGetsGiven => wanted,
            _ => given,
        };
        let hold = Hold { section, thread: heir };
        self.waits.retain(|waiter| *waiter != heir);
        self.holds.push(hold);
        self.keep_handed_over(hold);
        self.owe(Report::Won(heir));
        self.join_line(heir, self.fault == Fault::HeirAtFront);
        self.owe(Report::Ready(heir));
    }
}

/// The thread, or nobody, that a Switch names; nothing for another report.
fn switched_to(report: Report) -> Option<Option<usize>> {
    match report {
        Report::Switch(thread) => Some(thread),
        _ => None,
    }
}
