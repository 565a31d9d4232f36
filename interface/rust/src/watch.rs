//! The watch state, field by field as interface/beltcairn.h states it. It holds plain numbers only, so every value of it may be lent.

use crate::numbers::{ROOM, TIMERS};

/// A plan's numbers.
#[repr(C)]
#[derive(Clone, Copy, Debug, PartialEq, Eq)]
pub struct Plan {
    /// T, 1 to 16.
    pub threads: usize,
    /// S, 0 to 16.
    pub sections: usize,
    /// The base priorities, the first T in use.
    pub bases: [u8; 16],
    /// The needs, bit s for section s, the first T in use.
    pub needs: [u16; 16],
}

/// The conditions of the threads, as words (see [`packed`](crate::packed)).
#[repr(C)]
#[derive(Clone, Copy, Debug, PartialEq, Eq)]
pub struct Slots {
    /// For each thread 0 dormant, 1 ready, 2 asleep, 3 waiting; the first T are in use.
    pub states: u64,
    /// For each thread that waits the section that it waits for; the others mean nothing.
    pub wants: u64,
}

/// Threads in order, as a word (see [`packed`](crate::packed)).
#[repr(C)]
#[derive(Clone, Copy, Debug, PartialEq, Eq)]
pub struct Queue {
    /// The first `count` are in use, the others mean nothing.
    pub items: u64,
    /// How many there are, at most 16.
    pub count: usize,
}

/// What a walk over the holds finds, kept so that nobody needs to walk: each call that moves a hold sets both.
///
/// Ask `owner` whether anything is held: a section that no thread needs, which can be held in a lent state only, has an owner and ceiling 0.
#[repr(C)]
#[derive(Clone, Copy, Debug, PartialEq, Eq)]
pub struct Top {
    /// The thread that holds the section of greatest ceiling, on a tie the one taken later; 255 if nothing is held.
    pub owner: u8,
    /// The greatest ceiling held; 0 if nothing is held.
    pub ceiling: u8,
}

/// Sections and the threads that hold them, the latest taken first, as words (see [`packed`](crate::packed)).
#[repr(C)]
#[derive(Clone, Copy, Debug, PartialEq, Eq)]
pub struct Holds {
    /// The sections; the first `count` are in use, the others mean nothing.
    pub sections: u64,
    /// The threads that hold them, in the same order.
    pub threads: u64,
    /// How many there are, at most 16.
    pub count: usize,
    /// Their owner and greatest ceiling.
    pub top: Top,
}

/// A report.
#[repr(C)]
#[derive(Clone, Copy, Debug, PartialEq, Eq)]
pub struct Report {
    /// 16 to 22.
    pub kind: u8,
    /// As in a dump: the thread that it names or [`NOBODY`](crate::NOBODY), the timer of an Expire, the count of a Late.
    pub operand: u16,
}

/// Reports in order.
#[repr(C)]
#[derive(Clone, Copy, Debug, PartialEq, Eq)]
pub struct Reports {
    /// The first `count` are in use.
    pub items: [Report; ROOM],
    /// How many there are.
    pub count: usize,
}

/// How far an arming has come; [`begun`](Arming::begun) reads it.
#[repr(C)]
#[derive(Clone, Copy, Debug, PartialEq, Eq)]
pub struct Arming {
    /// 0 if no arming is in progress, 1 after Arm, 2 after Start.
    pub stage: u8,
    /// The timer of the Arm; at stage 0 it means nothing.
    pub timer: u8,
    /// The tick number of the Start; below stage 2 it means nothing.
    pub start: u16,
}

/// The timers; [`armed`](Timers::armed) reads one.
#[repr(C)]
#[derive(Clone, Copy, Debug, PartialEq, Eq)]
pub struct Timers {
    /// The tick number of each timer's next expiry, 0 where it is not armed.
    pub expiries: [u32; TIMERS],
    /// The ticks from an expiry to the next, 0 for an alarm; those of timers not armed mean nothing.
    pub periods: [u16; TIMERS],
    /// The arming in progress, if there is one.
    pub arming: Arming,
}

/// What the machine remembers, but for the reports due.
#[repr(C)]
#[derive(Clone, Copy, Debug, PartialEq, Eq)]
pub struct Machine {
    /// The plan that the state was made from.
    pub plan: Plan,
    /// The tick number: Tick records so far.
    pub tick: u32,
    /// The condition of each thread.
    pub slots: Slots,
    /// The tick number that each sleeper waits for; those of threads not asleep mean nothing.
    pub wakes: [u32; 16],
    /// The line: the ready threads in order of arrival.
    pub queue: Queue,
    /// Who holds which section.
    pub holds: Holds,
    /// The waiting threads in order of their Take.
    pub waits: Queue,
    /// The order of Delays: the sleeping threads in order of their Delay.
    pub delays: Queue,
    /// The thread of the latest Switch given, 255 for nobody.
    pub reported: u8,
    /// The timers.
    pub timers: Timers,
}

/// The machine and its reports.
///
/// The reports of a call other than Tick, which comes with nothing due, take the place of those before. A Tick moves those still due to the
/// front, and what it adds joins the end.
#[repr(C)]
#[derive(Clone, Copy, Debug, PartialEq, Eq)]
pub struct State {
    /// The machine.
    pub machine: Machine,
    /// Reports, in order.
    pub due: Reports,
    /// How many of them were given; those behind are due ([`owed`](State::owed)).
    pub given: usize,
}

/// The watch state: made by [`Watch::begin`], advanced by [`Watch::step`].
#[repr(C)]
#[derive(Clone, Copy, Debug, PartialEq, Eq)]
pub struct Watch {
    /// The machine and its reports.
    pub state: State,
    /// The rule of a breach that is stored, 0 if there is none.
    pub rule: u8,
}

/// Zeroes and nobody as owner, to be written over.
pub(crate) fn blank() -> Watch {
    let queue = Queue { items: 0, count: 0 };
    let machine = Machine {
        plan: Plan {
            threads: 0,
            sections: 0,
            bases: [0; 16],
            needs: [0; 16],
        },
        tick: 0,
        slots: Slots { states: 0, wants: 0 },
        wakes: [0; 16],
        queue,
        holds: Holds {
            sections: 0,
            threads: 0,
            count: 0,
            top: Top { owner: 255, ceiling: 0 },
        },
        waits: queue,
        delays: queue,
        reported: 0,
        timers: Timers {
            expiries: [0; TIMERS],
            periods: [0; TIMERS],
            arming: Arming {
                stage: 0,
                timer: 0,
                start: 0,
            },
        },
    };
    let due = Reports {
        items: [Report { kind: 0, operand: 0 }; ROOM],
        count: 0,
    };
    Watch {
        state: State { machine, due, given: 0 },
        rule: 0,
    }
}
