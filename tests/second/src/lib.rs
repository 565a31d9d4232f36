//! A second implementation of documents 01 and 02: plan, machine, watch and bench.
//!
//! It is meant for comparison, so it follows the paper's sentences one by one and
//! prefers plain lists and searches to speed. Each public function has a form with a
//! [`Fault`], a mistake made on purpose, for trying whether a comparison sees it.

mod bench;
mod check;
mod delays;
mod fault;
mod lent;
mod live;
mod machine;
mod plan;
pub mod program;
mod promise;
mod records;
mod rules;
mod tick;
mod timers;
mod top;

pub use bench::{bench, bench_with};
pub use check::{check, check_with, Verdict};
pub use fault::Fault;
pub use lent::{Parts, LAST_EXPIRY, LAST_SLEEPER, LAST_TICK};
pub use live::{Reply, Watch};
pub use machine::{Condition, Machine};
pub use plan::Plan;
pub use promise::{promise, promise_with, Seen};
pub use records::{read_dump, read_list, Call, Record, Report, MOST_RECORDS, NOBODY};
pub use rules::broken_rule;
pub use timers::{lost, Arming, Timer, TIMERS};
pub use top::Top;
