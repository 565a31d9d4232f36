//! The bench kernel: calls in, the dump of calls and reports out.

use crate::fault::Fault;
use crate::machine::Machine;
use crate::plan::Plan;
use crate::records::{read_list, write, Call, Record, MOST_RECORDS};
use crate::rules::broken_rule;
use crate::timers::Arming;

/// Writes the dump at the front of `out` and answers the number of its records, or the
/// number of the question answered No, with `out` untouched.
pub fn bench(plan: &[u8], list: &[u8], out: &mut [u8]) -> Result<usize, u8> {
    bench_with(Fault::None, plan, list, out)
}

pub fn bench_with(fault: Fault, plan: &[u8], list: &[u8], out: &mut [u8]) -> Result<usize, u8> {
    let plan = Plan::read(plan, fault)?;
    let calls = read_list(list, &plan, fault)?;
    let records = run(Machine::new(plan, fault), &calls)?;
    if records.len() > MOST_RECORDS {
        return Err(10);
    }
    if out.len() < 2 + 3 * records.len() {
        return Err(11);
    }
    write(&records, out, fault);
    Ok(records.len())
}

/// Every call with its reports behind it; 9 where a call is not admitted, or the calls end inside an arming.
fn run(mut machine: Machine, calls: &[Call]) -> Result<Vec<Record>, u8> {
    let mut records = Vec::new();
    for call in calls {
        let record = Record::Call(*call);
        if broken_rule(&machine, record).is_some() {
            return Err(9);
        }
        machine.advance(record);
        records.push(record);
        while let Some(report) = machine.due.front().copied() {
            machine.advance(Record::Report(report));
            records.push(Record::Report(report));
        }
    }
    if machine.timers.arming != Arming::Idle && machine.fault != Fault::BenchEndsInsideArming {
        return Err(9);
    }
    Ok(records)
}
