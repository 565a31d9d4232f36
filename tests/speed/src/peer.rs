//! The yardstick: the whole check of documents 01 and 02 as plain, fast Rust. Fixed arrays, ceilings computed once, no allocation.
//!
//! There are two of them. The plain one decides over the kind wherever a kind is asked for, and looks through all threads and timers at
//! each Tick. TUNED reads the bounds of an operand from a table and keeps the soonest tick number at which a sleeper wakes or a timer expires.

mod calls;
#[cfg(test)]
mod damaged;
#[cfg(test)]
mod known;
mod machine;
mod questions;
mod timers;

pub use beltcairn::Verdict;
pub use machine::Machine;
pub use questions::{plan, Plan};

pub const CREATE: u8 = 1;
pub const DELAY: u8 = 2;
pub const RELINQUISH: u8 = 3;
pub const END: u8 = 4;
pub const TAKE: u8 = 5;
pub const GIVE: u8 = 6;
pub const TICK: u8 = 7;
pub const ARM: u8 = 8;
pub const START: u8 = 9;
pub const PERIOD: u8 = 10;
pub const CANCEL: u8 = 11;
pub const READY: u8 = 16;
pub const SWITCH: u8 = 17;
pub const WON: u8 = 18;
pub const LOST: u8 = 19;
pub const YIELD: u8 = 20;
pub const EXPIRE: u8 = 21;
pub const LATE: u8 = 22;

/// A Switch to nobody names this.
pub const NOBODY: u16 = 65535;

pub const TIMERS: usize = 8;

/// The whole check.
pub fn check<const TUNED: bool>(plan: &[u8], dump: &[u8]) -> Verdict {
    let plan = match questions::plan(plan) {
        Ok(plan) => plan,
        Err(question) => return Verdict::Refused(question),
    };
    let (kinds, operands) = match questions::records::<TUNED>(&plan, dump) {
        Ok(records) => records,
        Err(question) => return Verdict::Refused(question),
    };
    let mut machine = Machine::<TUNED>::new(plan);
    for (record, (&kind, operand)) in kinds.iter().zip(operands.chunks_exact(2)).enumerate() {
        if let Err(rule) = machine.judge(kind, u16::from_le_bytes([operand[0], operand[1]])) {
            return Verdict::Breach {
                record: record as u64,
                rule,
            };
        }
    }
    Verdict::Clean {
        records: kinds.len() as u64,
        due: machine.due() as u64,
    }
}
