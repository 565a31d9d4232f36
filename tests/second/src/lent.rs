//! A watch state as plain numbers, as a caller may lend it, and question 12.

use crate::delays::Delays;
use crate::fault::Fault;
use crate::machine::{Condition, Hold, Machine};
use crate::plan::Plan;
use crate::records::{Report, NOBODY};
use crate::timers::{Arming, Timer, Timers, TIMERS};
use crate::top::Top;

/// The greatest tick number of a lent state.
pub const LAST_TICK: u64 = 4_000_000_000;
/// The greatest tick number that a sleeper of a lent state may wait for.
pub const LAST_SLEEPER: u64 = 4_000_065_536;
/// The greatest tick number at which a timer of a lent state may expire.
pub const LAST_EXPIRY: u64 = 4_000_065_535;

/// A watch state in numbers. Nothing about them is promised until question 12 is asked.
#[derive(Clone, Debug, Default, PartialEq, Eq)]
pub struct Parts {
    /// T, S and the plan's two arrays.
    pub threads: usize,
    pub sections: usize,
    pub bases: Vec<u8>,
    pub needs: Vec<u16>,
    pub tick: u64,
    /// Per thread 0 dormant, 1 ready, 2 asleep until the value, 3 waiting for the section
    /// of that value. The value of a dormant or ready thread means nothing.
    pub conditions: Vec<(u8, u64)>,
    pub line: Vec<u16>,
    /// Section and thread, oldest first.
    pub holds: Vec<(u16, u16)>,
    /// The owner of the holds and their greatest ceiling, as they are kept.
    pub top: Top,
    pub waits: Vec<u16>,
    /// The sleeping threads in order of their Delay calls.
    pub delays: Vec<u16>,
    /// Per timer the tick number of its next expiry, 0 where it is not armed, and its
    /// period. The period of a timer that is not armed means nothing.
    pub timers: [(u64, u16); TIMERS],
    /// How far an arming is (0 none, 1 after Arm, 2 after Start), its timer and its start.
    /// The timer means nothing at 0, the start nothing but at 2.
    pub arming: (u8, u8, u16),
    /// The thread last given by a Switch, or `NOBODY`.
    pub given: u16,
    /// Kind number and operand, as in a dump.
    pub due: Vec<(u8, u16)>,
    /// The stored rule, 0 for none.
    pub stored: u8,
}

impl Parts {
    /// The state in numbers that a machine is in.
    pub fn of(machine: &Machine, stored: u8) -> Parts {
        let numbers = |threads: &[usize]| threads.iter().map(|t| *t as u16).collect();
        let line: Vec<usize> = machine.line.iter().copied().collect();
        let holds = machine.holds.iter().map(|hold| (hold.section as u16, hold.thread as u16));
        Parts {
            threads: machine.plan.threads(),
            sections: machine.plan.sections(),
            bases: machine.plan.bases().to_vec(),
            needs: machine.plan.needs_bits().to_vec(),
            tick: machine.tick,
            conditions: machine.conditions.iter().map(|c| condition_numbers(*c)).collect(),
            line: numbers(&line),
            holds: holds.collect(),
            top: machine.top,
            waits: numbers(&machine.waits),
            delays: numbers(&machine.sleepers()),
            timers: std::array::from_fn(|timer| timer_numbers(machine.timers.armed.get(&timer))),
            arming: arming_numbers(machine.timers.arming),
            given: thread_number(machine.given),
            due: machine.due.iter().map(|report| report.numbers()).collect(),
            stored,
        }
    }

    /// The machine in this state, or nothing where question 12 is answered No.
    pub fn machine(&self, fault: Fault) -> Option<Machine> {
        let formed = self.formed(fault)?;
        let running_is_reported = formed.chosen() == formed.given;
        (running_is_reported || !formed.due.is_empty()).then_some(formed)
    }

    /// The chosen thread, or `NOBODY`; nothing where question 12 is answered No for another reason than who was last reported.
    pub fn chosen(&self) -> Option<u16> {
        let formed = self.formed(Fault::None)?;
        Some(thread_number(formed.chosen()))
    }

    /// What a Tick may make due at once: the reports due but a Switch, the sleepers, the armed timers owed no Expire, and one for a Switch.
    pub fn claims(&self) -> usize {
        self.claims_with(Fault::None)
    }

    fn claims_with(&self, fault: Fault) -> usize {
        let reports = self
            .due
            .iter()
            .filter(|report| !is_switch(report) || fault == Fault::SwitchAmongClaims);
        let sleepers = self.conditions.iter().filter(|(number, _)| *number == 2);
        let owed = |timer: u16| self.due.contains(&Report::Expire(timer.into()).numbers());
        let armed = self.timers.iter().zip(0..).filter(|((expiry, _), timer)| {
            let counts = !owed(*timer) || fault == Fault::OwedTimersAmongClaims;
            *expiry != 0 && counts
        });
        let one = usize::from(fault != Fault::ClaimsWithoutOne);
        reports.count() + sleepers.count() + armed.count() + one
    }

    // All of question 12 but its last part, that with nothing due the chosen thread is the last reported one.
    fn formed(&self, fault: Fault) -> Option<Machine> {
        let plan = self.plan()?;
        if !self.numbers_in_range() || !self.lists_agree() || !self.reports_fit(fault) {
            return None;
        }
        let (threads, sections) = (plan.threads(), plan.sections());
        let conditions: Option<_> = self.conditions.iter().map(|c| condition(*c, sections)).collect();
        let holds: Option<_> = self.holds.iter().map(|h| hold(*h, sections, threads)).collect();
        let due: Option<_> = self.due.iter().map(|r| Report::from_numbers(r.0, r.1, &plan)).collect();
        let given = match self.given {
            NOBODY => None,
            thread => Some(below(thread, threads)?),
        };
        let formed = Machine {
            fault,
            tick: self.tick,
            conditions: conditions?,
            line: all_below(&self.line, threads)?.into(),
            holds: holds?,
            top: self.top,
            waits: all_below(&self.waits, threads)?,
            delays: Delays::in_order(&all_below(&self.delays, threads)?, threads),
            timers: self.timers()?,
            given,
            due: due?,
            plan,
        };
        formed.keeps_the_walked().then_some(formed)
    }

    /// The plan, if it passes questions 1 to 4.
    fn plan(&self) -> Option<Plan> {
        Plan::from_numbers(self.threads, self.sections, self.bases.clone(), self.needs.clone()).ok()
    }

    // Numbers of threads, sections and timers and kinds of reports are asked where they are
    // turned into the machine's own; this is what is left.
    fn numbers_in_range(&self) -> bool {
        let rule = self.stored == 0 || (21..=32).contains(&self.stored);
        rule && self.tick <= LAST_TICK
    }

    /// A Switch due is the last, and neither are there more than T + 9 reports due nor can a Tick make it more.
    fn reports_fit(&self, fault: Fault) -> bool {
        let most = self.threads + 9;
        let mut before_the_last = self.due.iter().rev().skip(1);
        let switch_last = !before_the_last.any(is_switch) || fault == Fault::SwitchDueAnywhere;
        switch_last && self.due.len() <= most && self.claims_with(fault) <= most
    }

    fn timers(&self) -> Option<Timers> {
        if self.timers.iter().any(|(expiry, _)| *expiry > LAST_EXPIRY) {
            return None;
        }
        let numbered = self.timers.into_iter().enumerate();
        let armed = numbered.filter(|(_, (expiry, _))| *expiry != 0);
        Some(Timers {
            armed: armed.map(|(timer, (expiry, period))| (timer, Timer { expiry, period })).collect(),
            arming: arming(self.arming)?,
        })
    }

    /// No section is held twice, and each thread is in exactly one condition, which the line, the order of Delays and the waits bear out:
    /// they name it just once or not at all.
    fn lists_agree(&self) -> bool {
        let held: Vec<u16> = self.holds.iter().map(|(section, _)| *section).collect();
        let lists = [(1, &self.line), (2, &self.delays), (3, &self.waits)];
        let each_in_one = lists.into_iter().all(|(number, list)| {
            let mut conditions = self.conditions.iter().zip(0..);
            no_repeats(list) && conditions.all(|(condition, thread)| list.contains(&thread) == (condition.0 == number))
        });
        each_in_one && self.conditions.len() == self.threads && no_repeats(&held)
    }
}

fn condition(numbers: (u8, u64), sections: usize) -> Option<Condition> {
    match numbers {
        (0, _) => Some(Condition::Dormant),
        (1, _) => Some(Condition::Ready),
        (2, until) => (until <= LAST_SLEEPER).then_some(Condition::Asleep(until)),
        (3, section) => (section < sections as u64).then_some(Condition::Waiting(section as usize)),
        _ => None,
    }
}

fn condition_numbers(condition: Condition) -> (u8, u64) {
    match condition {
        Condition::Dormant => (0, 0),
        Condition::Ready => (1, 0),
        Condition::Asleep(until) => (2, until),
        Condition::Waiting(section) => (3, section as u64),
    }
}

fn is_switch(report: &(u8, u16)) -> bool {
    report.0 == 17
}

fn timer_numbers(timer: Option<&Timer>) -> (u64, u16) {
    timer.map_or((0, 0), |timer| (timer.expiry, timer.period))
}

fn arming((stage, timer, start): (u8, u8, u16)) -> Option<Arming> {
    let timer = below(timer.into(), TIMERS);
    match stage {
        0 => Some(Arming::Idle),
        1 => timer.map(Arming::AfterArm),
        2 => timer.map(|timer| Arming::AfterStart(timer, start)),
        _ => None,
    }
}

fn arming_numbers(arming: Arming) -> (u8, u8, u16) {
    match arming {
        Arming::Idle => (0, 0, 0),
        Arming::AfterArm(timer) => (1, timer as u8, 0),
        Arming::AfterStart(timer, start) => (2, timer as u8, start),
    }
}

fn hold((section, thread): (u16, u16), sections: usize, threads: usize) -> Option<Hold> {
    Some(Hold {
        section: below(section, sections)?,
        thread: below(thread, threads)?,
    })
}

fn thread_number(thread: Option<usize>) -> u16 {
    thread.map_or(NOBODY, |thread| thread as u16)
}

fn below(number: u16, bound: usize) -> Option<usize> {
    let number = number as usize;
    (number < bound).then_some(number)
}

fn all_below(list: &[u16], bound: usize) -> Option<Vec<usize>> {
    list.iter().map(|number| below(*number, bound)).collect()
}

fn no_repeats(list: &[u16]) -> bool {
    list.iter().enumerate().all(|(i, entry)| !list[..i].contains(entry))
}
