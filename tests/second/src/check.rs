//! The whole check of a plan and a dump.

use std::fmt;

use crate::fault::Fault;
use crate::machine::Machine;
use crate::plan::Plan;
use crate::records::{read_dump, Record};
use crate::rules::broken_rule;

#[derive(Clone, Copy, Debug, PartialEq, Eq)]
pub enum Verdict {
    /// The number of the question answered No.
    Refused(u8),
    Clean {
        records: usize,
        due: usize,
    },
    Breach {
        record: usize,
        rule: u8,
    },
}

impl fmt::Display for Verdict {
    fn fmt(&self, f: &mut fmt::Formatter<'_>) -> fmt::Result {
        match self {
            Verdict::Refused(question) => write!(f, "refused {question}"),
            Verdict::Clean { records, due } => write!(f, "clean {records} {due}"),
            Verdict::Breach { record, rule } => write!(f, "breach {record} {rule}"),
        }
    }
}

pub fn check(plan: &[u8], dump: &[u8]) -> Verdict {
    check_with(Fault::None, plan, dump)
}

pub fn check_with(fault: Fault, plan: &[u8], dump: &[u8]) -> Verdict {
    let read = Plan::read(plan, fault).and_then(|plan| read_dump(dump, &plan, fault).map(|records| (plan, records)));
    match read {
        Ok((plan, records)) => judge(Machine::new(plan, fault), &records),
        Err(question) => Verdict::Refused(question),
    }
}

fn judge(mut machine: Machine, records: &[Record]) -> Verdict {
    for (i, record) in records.iter().enumerate() {
        if let Some(rule) = broken_rule(&machine, *record) {
            return Verdict::Breach { record: i, rule };
        }
        machine.advance(*record);
    }
    Verdict::Clean {
        records: records.len(),
        due: machine.due.len(),
    }
}
