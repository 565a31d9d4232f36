//! The numbers of kinds, questions and rules, as documents 01 and 02 state them. interface/beltcairn.h has the same under the names
//! `BELTCAIRN_KIND_CREATE`, `BELTCAIRN_REFUSED_KIND`, `BELTCAIRN_BREACH_NONE_DUE` and so on.

/// The number of this interface. It rises whenever the layout of [`Watch`](crate::Watch) or the signature of a function of the library moves;
/// [`abi`](crate::abi) asks the library for its own.
pub const ABI: u32 = 4;

/// The operand of a Switch to nobody, in a record and in a report of a watch state. In [`Machine::reported`](crate::Machine::reported) and
/// [`Top::owner`](crate::Top::owner), which are bytes, 255 stands for nobody.
pub const NOBODY: u16 = 65535;

/// The timers are 0 to 7.
pub const TIMERS: usize = 8;

/// The room of a watch state for the reports due: T + 9 with T = 16, the most that are ever due.
pub const ROOM: usize = 25;

/// What the library answers where nothing was refused and no rule is broken.
pub const OK: u8 = 0;

/// Kinds of records: calls from 1 to 11, reports from 16 to 22.
pub mod kind {
    /// Thread below T: it becomes ready at the line's end.
    pub const CREATE: u8 = 1;
    /// n, 1 to 65535: the caller sleeps until tick number + n + 1. A delay runs from this record, whenever the Switch behind it is given.
    pub const DELAY: u8 = 2;
    /// 0: if another ready thread has the caller's current priority, the caller goes to the line's end.
    pub const RELINQUISH: u8 = 3;
    /// 0: the caller becomes dormant.
    pub const END: u8 = 4;
    /// Section below S: the caller wins if its base priority is above every ceiling held by others.
    pub const TAKE: u8 = 5;
    /// Section below S: the hold ends, and may pass to a waiting thread.
    pub const GIVE: u8 = 6;
    /// 0: the tick number grows by one, timers expire and sleepers wake in the order of their Delays. It may also come between a call and its
    /// reports: a Switch still due is dropped, and the thread reported before it counts again as last reported; then the Expire and Ready
    /// reports of the Tick join the end of what is due, and a Switch is due if the chosen thread differs from the one last reported.
    pub const TICK: u8 = 7;
    /// Timer below [`TIMERS`](super::TIMERS): the one to arm, also one that is armed; Start and then Period follow at once.
    pub const ARM: u8 = 8;
    /// Tick number, 1 to 65535: when the timer is to expire first. If that has come already, an alarm is not armed and has lost one, and a
    /// periodic timer loses the expiries up to the tick number and expires at the next.
    pub const START: u8 = 9;
    /// The ticks from an expiry to the next, 0 for an alarm; Late is due.
    pub const PERIOD: u8 = 10;
    /// Timer below [`TIMERS`](super::TIMERS): it is unarmed.
    pub const CANCEL: u8 = 11;
    /// Thread below T: it becomes ready, at the line's end.
    pub const READY: u8 = 16;
    /// Thread below T: it runs from now on; [`NOBODY`](super::NOBODY) if nobody does.
    pub const SWITCH: u8 = 17;
    /// Thread below T: it holds the section that it wanted.
    pub const WON: u8 = 18;
    /// Thread below T: it waits.
    pub const LOST: u8 = 19;
    /// Thread below T: it goes to the line's end.
    pub const YIELD: u8 = 20;
    /// Timer below [`TIMERS`](super::TIMERS): it expires, before any Ready of the same Tick, lower timer first. An expiry whose timer is still
    /// owed one adds none, though the timer moves on.
    pub const EXPIRE: u8 = 21;
    /// 0 to 65535, after Period: the expiries that the timer has lost; a greater count is written 65535.
    pub const LATE: u8 = 22;
}

/// The question that has the answer No; what was lent keeps its content.
pub mod refused {
    /// Has the plan 2 bytes or more, with T and S in range?
    pub const PLAN_COUNTS: u8 = 1;
    /// Is it exactly 2 + 3T long?
    pub const PLAN_LENGTH: u8 = 2;
    /// Is every priority 1 to 64?
    pub const PRIORITY: u8 = 3;
    /// Is every needs bit at S or above zero?
    pub const NEEDS: u8 = 4;
    /// Has the dump or list 2 bytes or more, and N at most 20,000?
    pub const COUNT: u8 = 5;
    /// Is it exactly 2 + 3N long?
    pub const LENGTH: u8 = 6;
    /// Is every kind allowed?
    pub const KIND: u8 = 7;
    /// Is every operand allowed for its kind?
    pub const OPERAND: u8 = 8;
    /// (bench) Does the machine admit every call, each made with earlier reports already given? No also if the list ends inside an arming.
    pub const CALL: u8 = 9;
    /// (bench) Are calls and reports together at most 20,000?
    pub const TOO_MANY: u8 = 10;
    /// (bench) Is the lent output at least 2 + 3 times their number long?
    pub const OUTPUT: u8 = 11;
    /// (step) Is the lent watch state well formed? interface/beltcairn.h says what that asks. Asked before 7.
    pub const STATE: u8 = 12;
    /// (step) Is it no Tick at tick number 4,000,000,000? Asked after 8.
    pub const TICK: u8 = 13;
}

/// The rule that a record breaks: the first that has the answer No. 31 is asked before all others, 32 behind them.
pub mod breach {
    /// (calls other than Tick) Is nothing due?
    pub const REPORT_DUE: u8 = 21;
    /// (kinds 2 to 6 and 8 to 11) Does a thread run?
    pub const NOBODY_RUNS: u8 = 22;
    /// (Create) Is the thread dormant?
    pub const NOT_DORMANT: u8 = 23;
    /// (Delay, End) Does the caller hold no section?
    pub const HOLDS_SECTION: u8 = 24;
    /// (Take) Does the caller need it?
    pub const NOT_NEEDED: u8 = 25;
    /// (Take) Is it not held by the caller?
    pub const HELD_ALREADY: u8 = 26;
    /// (Give) Is it the one the caller took last of those it still holds?
    pub const NOT_TAKEN_LAST: u8 = 27;
    /// (reports) Is a report due?
    pub const NONE_DUE: u8 = 28;
    /// (reports) Is the first due of this kind?
    pub const OTHER_KIND: u8 = 29;
    /// (reports) Does it name this thread? Whole operands are compared.
    pub const OTHER_THREAD: u8 = 30;
    /// (every record) Do Arm, Start and Period stand together in this order and nowhere else?
    pub const ARMING_ORDER: u8 = 31;
    /// (Cancel) Is the timer armed?
    pub const NOT_ARMED: u8 = 32;
}
