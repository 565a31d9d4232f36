//! The questions asked of a record, 31 first and then 21 to 30 and 32. The first No is the broken rule.

use crate::fault::Fault;
use crate::machine::{Condition, Machine};
use crate::records::{Call, Record, Report};
use crate::timers::Arming;

/// The rule that the record breaks, if it breaks one.
pub fn broken_rule(machine: &Machine, record: Record) -> Option<u8> {
    let apart = no_gives(stands_together(machine, record), 31);
    match record {
        Record::Call(call) => {
            let early = no_gives(comes_in_time(machine, call), 21);
            let first = match machine.fault {
                Fault::Rule31After21 => early.or(apart),
                _ => apart.or(early),
            };
            first.or_else(|| broken_by_call(machine, call))
        }
        Record::Report(report) if machine.fault == Fault::Rule31OfCallsOnly => broken_by_report(machine, report),
        Record::Report(report) => apart.or_else(|| broken_by_report(machine, report)),
    }
}

/// Nothing is due at a call other than Tick.
fn comes_in_time(machine: &Machine, call: Call) -> bool {
    let asked = call != Call::Tick || machine.fault == Fault::Rule21OfTick;
    !asked || machine.due.is_empty()
}

/// After Arm only Start, after Start only Period, and those two nowhere else.
fn stands_together(machine: &Machine, record: Record) -> bool {
    match (machine.timers.arming, record) {
        (_, Record::Call(Call::Tick)) if machine.fault == Fault::TickInsideArming => true,
        (Arming::Idle, record) => !matches!(record, Record::Call(Call::Start(_) | Call::Period(_))),
        (Arming::AfterArm(_), record) => matches!(record, Record::Call(Call::Start(_))),
        (Arming::AfterStart(..), record) => matches!(record, Record::Call(Call::Period(_))),
    }
}

fn broken_by_call(machine: &Machine, call: Call) -> Option<u8> {
    match call {
        Call::Tick => None,
        Call::Create(thread) => no_gives(machine.conditions[thread] == Condition::Dormant, 23),
        // With nothing due the chosen thread is the running one, and so the caller.
        _ => match machine.chosen() {
            Some(caller) => broken_by_caller(machine, caller, call),
            None => broken_by_nobody(machine, call),
        },
    }
}

fn broken_by_caller(machine: &Machine, caller: usize, call: Call) -> Option<u8> {
    match call {
        Call::End if machine.fault == Fault::EndWhileHolding => None,
        Call::Delay(_) | Call::End => no_gives(!machine.holds_any(caller), 24),
        Call::Take(section) => {
            no_gives(machine.plan.needs(caller, section), 25).or_else(|| no_gives(!machine.holds_section(caller, section), 26))
        }
        Call::Give(section) => no_gives(machine.taken_last(caller) == Some(section), 27),
        Call::Cancel(timer) => not_armed(machine, timer),
        _ => None,
    }
}

fn not_armed(machine: &Machine, timer: usize) -> Option<u8> {
    let dropped = machine.fault == Fault::Rule32Dropped;
    no_gives(dropped || machine.timers.armed.contains_key(&timer), 32)
}

// Without rule 22 the later questions are left: nobody holds, needs or took anything.
fn broken_by_nobody(machine: &Machine, call: Call) -> Option<u8> {
    let dropped = match machine.fault {
        Fault::Rule22Dropped => true,
        Fault::Rule22NotOfTimers => call.is_of_timers(),
        _ => false,
    };
    match call {
        _ if !dropped => Some(22),
        Call::Take(_) => Some(25),
        Call::Give(_) => Some(27),
        Call::Cancel(timer) => not_armed(machine, timer),
        _ => None,
    }
}

fn broken_by_report(machine: &Machine, report: Report) -> Option<u8> {
    let Some(first) = machine.due.front() else {
        return Some(28);
    };
    let ((kind, operand), (due_kind, due_operand)) = (report.numbers(), first.numbers());
    let wrong_kind = no_gives(kind == due_kind, 29);
    let differing_bits = match machine.fault {
        Fault::Rule30LowByte => (operand ^ due_operand) & 255,
        _ => operand ^ due_operand,
    };
    let wrong_operand = no_gives(differing_bits == 0, 30);
    match machine.fault {
        Fault::Rules29And30Swapped => wrong_operand.or(wrong_kind),
        _ => wrong_kind.or(wrong_operand),
    }
}

/// A No to a question gives its number.
fn no_gives(answer: bool, rule: u8) -> Option<u8> {
    if answer {
        None
    } else {
        Some(rule)
    }
}
