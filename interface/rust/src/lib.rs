//! The proved kernel watch and bench kernel of a field module, for Rust.
//!
//! Every function answers any bytes and any watch state; none panics, and a refusal changes nothing that was lent. The numbers of kinds,
//! questions and rules are the constants in [`kind`], [`refused`] and [`breach`]; the bytes of plans, dumps and call lists are those of
//! `interface/beltcairn.h`.
#![warn(missing_docs)]

mod numbers;
pub mod packed;
mod readers;
mod watch;

pub use numbers::{breach, kind, refused, ABI, NOBODY, OK, ROOM, TIMERS};
pub use readers::{Armed, Begun};
pub use watch::{Arming, Holds, Machine, Plan, Queue, Report, Reports, Slots, State, Timers, Top, Watch};

extern "C" {
    fn beltcairn_abi() -> u32;
    fn beltcairn_check(plan: *const u8, plan_len: usize, dump: *const u8, dump_len: usize, at: *mut u64, due: *mut u64) -> u8;
    fn beltcairn_bench(
        plan: *const u8,
        plan_len: usize,
        list: *const u8,
        list_len: usize,
        out: *mut u8,
        out_len: usize,
        records: *mut u64,
    ) -> u8;
    fn beltcairn_begin(plan: *const u8, plan_len: usize, watch: *mut Watch) -> u8;
    fn beltcairn_step(watch: *mut Watch, kind: u8, operand: u16, due: *mut u64) -> u8;
}

/// What the whole check answers.
#[derive(Clone, Copy, Debug, PartialEq, Eq)]
pub enum Verdict {
    /// A question, 1 to 8, has the answer No.
    Refused(u8),
    /// No record breaks a rule.
    Clean {
        /// The number of records.
        records: u64,
        /// The number of reports due behind the last.
        due: u64,
    },
    /// A record breaks a rule.
    Breach {
        /// The record, from 0.
        record: u64,
        /// The rule, 21 to 32.
        rule: u8,
    },
}

/// What the bench kernel answers.
#[derive(Clone, Copy, Debug, PartialEq, Eq)]
pub enum Written {
    /// A question, 1 to 11, has the answer No; the output is as it was.
    Refused(u8),
    /// The number of records written; they take 2 + 3 times as many bytes.
    Wrote(u64),
}

/// What a live step answers.
#[derive(Clone, Copy, Debug, PartialEq, Eq)]
pub enum Reply {
    /// 12, 7, 8 or 13; the watch state is as it was.
    Refused(u8),
    /// The number of reports due now.
    Clean(u64),
    /// The rule, 21 to 32, broken now or at an earlier step.
    Broken(u8),
}

/// The number of the linked library's interface; it fits this crate if it is [`ABI`].
pub fn abi() -> u32 {
    // SAFETY: the library takes nothing and answers a number.
    unsafe { beltcairn_abi() }
}

/// The whole check of a plan and a dump.
pub fn check(plan: &[u8], dump: &[u8]) -> Verdict {
    let (mut at, mut due) = (0, 0);
    // SAFETY: the library reads the two slices within their lengths and writes the two numbers.
    let answer = unsafe { beltcairn_check(plan.as_ptr(), plan.len(), dump.as_ptr(), dump.len(), &mut at, &mut due) };
    match answer {
        OK => Verdict::Clean { records: at, due },
        refused::PLAN_COUNTS..=refused::OPERAND => Verdict::Refused(answer),
        rule => Verdict::Breach { record: at, rule },
    }
}

/// The dump of a plan and a call list, at the front of `out`; what is behind it is untouched.
pub fn bench(plan: &[u8], list: &[u8], out: &mut [u8]) -> Written {
    let mut records = 0;
    // SAFETY: the library reads the two slices within their lengths, and writes within the output's and the number.
    let answer = unsafe {
        let (to, room) = (out.as_mut_ptr(), out.len());
        beltcairn_bench(plan.as_ptr(), plan.len(), list.as_ptr(), list.len(), to, room, &mut records)
    };
    match answer {
        OK => Written::Wrote(records),
        question => Written::Refused(question),
    }
}

impl Watch {
    /// The watch state of a plan, or the question, 1 to 4, that refuses it.
    pub fn begin(plan: &[u8]) -> Result<Watch, u8> {
        let mut watch = watch::blank();
        // SAFETY: the library reads the slice within its length and writes the watch state, whose layout is the library's.
        match unsafe { beltcairn_begin(plan.as_ptr(), plan.len(), &mut watch) } {
            OK => Ok(watch),
            question => Err(question),
        }
    }

    /// Advances the watch state by one record.
    pub fn step(&mut self, kind: u8, operand: u16) -> Reply {
        let mut due = 0;
        // SAFETY: the library reads and writes the watch state, whose layout is the library's, and writes the number.
        match unsafe { beltcairn_step(self, kind, operand, &mut due) } {
            OK => Reply::Clean(due),
            answer @ (refused::KIND | refused::OPERAND | refused::STATE | refused::TICK) => Reply::Refused(answer),
            rule => Reply::Broken(rule),
        }
    }
}

// The Rust example of the README is a test.
#[cfg(doctest)]
#[doc = include_str!("../../README.md")]
struct Readme;
