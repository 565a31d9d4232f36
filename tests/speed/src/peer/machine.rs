//! What the machine remembers, and the order in which the rules are asked.

use super::timers::Timers;
use super::*;

/// Threads in order: the line, the waits, or the sleepers.
#[derive(Clone, Copy)]
pub struct Queue {
    items: [u16; 16],
    count: usize,
}

impl Queue {
    pub const EMPTY: Queue = Queue { items: [0; 16], count: 0 };

    pub fn items(&self) -> &[u16] {
        &self.items[..self.count]
    }

    pub fn push(&mut self, thread: u16) {
        self.items[self.count] = thread;
        self.count += 1;
    }

    pub fn remove(&mut self, thread: u16) {
        if let Some(at) = self.items().iter().position(|&t| t == thread) {
            self.count -= 1;
            for i in at..self.count {
                self.items[i] = self.items[i + 1];
            }
        }
    }
}

#[derive(Clone, Copy)]
pub struct Hold {
    pub section: u16,
    pub thread: u16,
}

/// The holds in order of taking.
#[derive(Clone, Copy)]
pub struct Holds {
    items: [Hold; 16],
    count: usize,
}

impl Holds {
    pub const EMPTY: Holds = Holds {
        items: [Hold { section: 0, thread: 0 }; 16],
        count: 0,
    };

    pub fn items(&self) -> &[Hold] {
        &self.items[..self.count]
    }

    pub fn push(&mut self, hold: Hold) {
        self.items[self.count] = hold;
        self.count += 1;
    }

    pub fn remove_at(&mut self, at: usize) {
        self.count -= 1;
        for i in at..self.count {
            self.items[i] = self.items[i + 1];
        }
    }

    /// Where the thread's latest hold stands.
    pub fn last_of(&self, thread: u16) -> Option<usize> {
        self.items().iter().rposition(|hold| hold.thread == thread)
    }
}

#[derive(Clone, Copy, PartialEq)]
pub enum Condition {
    Dormant,
    Ready,
    Asleep,
    WaitingFor(u16),
}

#[derive(Clone, Copy)]
pub struct Report {
    pub kind: u8,
    pub operand: u16,
}

/// The most reports of a call: every timer expires, every thread wakes, and one is switched to.
const ROOM: usize = TIMERS + 17;

pub struct Machine<const TUNED: bool> {
    pub plan: Plan,
    pub tick: u32,
    /// With TUNED: no wake or expiry is sooner.
    pub soonest: u32,
    pub conditions: [Condition; 16],
    /// When each sleeper wakes; the greatest number for a thread that is not asleep.
    pub wakes: [u32; 16],
    pub line: Queue,
    pub holds: Holds,
    pub waits: Queue,
    /// The sleepers in order of their Delays.
    pub delays: Queue,
    /// The thread last reported, a Switch that is due included, and that of the latest Switch given.
    pub reported: u16,
    shown: u16,
    pub timers: Timers,
    reports: [Report; ROOM],
    pub given: usize,
    pub made: usize,
}

impl<const TUNED: bool> Machine<TUNED> {
    pub fn new(plan: Plan) -> Self {
        Machine {
            plan,
            tick: 0,
            soonest: u32::MAX,
            conditions: [Condition::Dormant; 16],
            wakes: [u32::MAX; 16],
            line: Queue::EMPTY,
            holds: Holds::EMPTY,
            waits: Queue::EMPTY,
            delays: Queue::EMPTY,
            reported: NOBODY,
            shown: NOBODY,
            timers: Timers::UNARMED,
            reports: [Report { kind: 0, operand: 0 }; ROOM],
            given: 0,
            made: 0,
        }
    }

    /// How many reports are due.
    pub fn due(&self) -> usize {
        self.made - self.given
    }

    /// The report due first.
    pub fn first_due(&self) -> Option<Report> {
        self.reports[..self.made].get(self.given).copied()
    }

    /// Moves the reports due to the front, without a Switch.
    pub fn drop_switch(&mut self) {
        self.reports.copy_within(self.given..self.made, 0);
        (self.given, self.made) = (0, self.due());
        if self.reported != self.shown {
            self.made -= 1;
            self.reported = self.shown;
        }
    }

    /// Whether an Expire of this timer is due.
    pub fn owes_expire(&self, timer: usize) -> bool {
        self.reports[self.given..self.made]
            .iter()
            .any(|report| report.kind == EXPIRE && report.operand == timer as u16)
    }

    pub fn report(&mut self, kind: u8, operand: u16) {
        self.reports[self.made] = Report { kind, operand };
        self.made += 1;
    }

    /// Takes one record, or says which rule it breaks and stays as it is. Called in two places, but wanted in the loop of the check.
    #[inline(always)]
    pub fn judge(&mut self, kind: u8, operand: u16) -> Result<(), u8> {
        self.timers.in_order(kind)?;
        if kind >= READY {
            return self.hear(kind, operand);
        }
        if kind == TICK {
            self.tick();
            return Ok(());
        }
        if self.due() > 0 {
            return Err(21);
        }
        (self.given, self.made) = (0, 0);
        match kind {
            CREATE => self.create(operand)?,
            ARM..=CANCEL => {
                self.caller()?;
                return self.set_timer(kind, operand);
            }
            _ => self.call(self.caller()?, kind, operand)?,
        }
        self.settle();
        Ok(())
    }

    /// A call that a thread makes on threads or sections.
    fn call(&mut self, caller: u16, kind: u8, operand: u16) -> Result<(), u8> {
        match kind {
            DELAY => self.delay(caller, operand),
            RELINQUISH => self.relinquish(caller),
            END => self.end(caller),
            TAKE => self.take(caller, operand),
            _ => self.give(caller, operand),
        }
    }

    /// The running thread; asked only while nothing is due.
    pub fn caller(&self) -> Result<u16, u8> {
        if self.reported == NOBODY {
            return Err(22);
        }
        Ok(self.reported)
    }

    fn hear(&mut self, kind: u8, operand: u16) -> Result<(), u8> {
        if self.given == self.made {
            return Err(28);
        }
        let first = self.reports[self.given];
        if first.kind != kind {
            return Err(29);
        }
        if first.operand != operand {
            return Err(30);
        }
        if kind == SWITCH {
            self.shown = operand;
        }
        self.given += 1;
        Ok(())
    }
}
