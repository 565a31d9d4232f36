//! Records: calls and reports, their numbers, and the bytes of a dump or call list.

use crate::fault::Fault;
use crate::plan::{two_bytes, Plan};
use crate::timers::TIMERS;

/// The operand of a Switch to nobody.
pub const NOBODY: u16 = 65535;
/// The most records that a dump or call list may have.
pub const MOST_RECORDS: usize = 20_000;

#[derive(Clone, Copy, Debug, PartialEq, Eq)]
pub enum Call {
    Create(usize),
    Delay(u16),
    Relinquish,
    End,
    Take(usize),
    Give(usize),
    Tick,
    /// A timer.
    Arm(usize),
    /// A tick number.
    Start(u16),
    /// 0 for an alarm.
    Period(u16),
    /// A timer.
    Cancel(usize),
}

/// A report and what it names: a thread, or nobody, or a timer, or the count lost.
#[derive(Clone, Copy, Debug, PartialEq, Eq)]
pub enum Report {
    Ready(usize),
    Switch(Option<usize>),
    Won(usize),
    Lost(usize),
    Yield(usize),
    Expire(usize),
    Late(u16),
}

#[derive(Clone, Copy, Debug, PartialEq, Eq)]
pub enum Record {
    Call(Call),
    Report(Report),
}

impl Report {
    /// A report from its numbers, if the kind is a report's and the operand allowed for it.
    pub fn from_numbers(kind: u8, operand: u16, plan: &Plan) -> Option<Report> {
        let thread = below(operand, plan.threads());
        match kind {
            16 => thread.map(Report::Ready),
            17 if operand == NOBODY => Some(Report::Switch(None)),
            17 => thread.map(|thread| Report::Switch(Some(thread))),
            18 => thread.map(Report::Won),
            19 => thread.map(Report::Lost),
            20 => thread.map(Report::Yield),
            21 => below(operand, TIMERS).map(Report::Expire),
            22 => Some(Report::Late(operand)),
            _ => None,
        }
    }

    pub fn numbers(self) -> (u8, u16) {
        match self {
            Report::Ready(thread) => (16, thread as u16),
            Report::Switch(thread) => (17, thread.map_or(NOBODY, |thread| thread as u16)),
            Report::Won(thread) => (18, thread as u16),
            Report::Lost(thread) => (19, thread as u16),
            Report::Yield(thread) => (20, thread as u16),
            Report::Expire(timer) => (21, timer as u16),
            Report::Late(count) => (22, count),
        }
    }
}

impl Call {
    /// A call from its numbers, if the operand is allowed for the kind.
    fn from_numbers(kind: u8, operand: u16, plan: &Plan) -> Option<Call> {
        let thread = below(operand, plan.threads());
        let section = below(operand, plan.sections());
        let timer = below(operand, TIMERS);
        let plain = |call| (operand == 0).then_some(call);
        match kind {
            1 => thread.map(Call::Create),
            2 => (operand >= 1).then_some(Call::Delay(operand)),
            3 => plain(Call::Relinquish),
            4 => plain(Call::End),
            5 => section.map(Call::Take),
            6 => section.map(Call::Give),
            7 => plain(Call::Tick),
            8 => timer.map(Call::Arm),
            9 => (operand >= 1).then_some(Call::Start(operand)),
            10 => Some(Call::Period(operand)),
            11 => timer.map(Call::Cancel),
            _ => None,
        }
    }

    pub fn is_of_timers(self) -> bool {
        matches!(self, Call::Arm(_) | Call::Start(_) | Call::Period(_) | Call::Cancel(_))
    }

    pub fn numbers(self) -> (u8, u16) {
        match self {
            Call::Create(thread) => (1, thread as u16),
            Call::Delay(ticks) => (2, ticks),
            Call::Relinquish => (3, 0),
            Call::End => (4, 0),
            Call::Take(section) => (5, section as u16),
            Call::Give(section) => (6, section as u16),
            Call::Tick => (7, 0),
            Call::Arm(timer) => (8, timer as u16),
            Call::Start(number) => (9, number),
            Call::Period(ticks) => (10, ticks),
            Call::Cancel(timer) => (11, timer as u16),
        }
    }
}

impl Record {
    /// A record from its numbers; a No to question 7 or 8 gives its number.
    pub fn from_numbers(kind: u8, operand: u16, plan: &Plan) -> Result<Record, u8> {
        if is_call(kind) {
            Call::from_numbers(kind, operand, plan).map(Record::Call).ok_or(8)
        } else if is_call_or_report(kind) {
            Report::from_numbers(kind, operand, plan).map(Record::Report).ok_or(8)
        } else {
            Err(7)
        }
    }

    pub fn numbers(self) -> (u8, u16) {
        match self {
            Record::Call(call) => call.numbers(),
            Record::Report(report) => report.numbers(),
        }
    }
}

/// Reads a dump; a No to one of the questions 5 to 8 gives its number.
pub fn read_dump(bytes: &[u8], plan: &Plan, fault: Fault) -> Result<Vec<Record>, u8> {
    read(bytes, plan, is_call_or_report, fault)
}

/// Reads a call list, which has no reports.
pub fn read_list(bytes: &[u8], plan: &Plan, fault: Fault) -> Result<Vec<Call>, u8> {
    let records = read(bytes, plan, is_call, fault)?;
    let calls = records.into_iter().map(|record| match record {
        Record::Call(call) => call,
        Record::Report(_) => unreachable!("kinds 1 to 11 are calls"),
    });
    Ok(calls.collect())
}

/// Writes records at the front of `out`, which is long enough.
pub fn write(records: &[Record], out: &mut [u8], fault: Fault) {
    let n = records.len();
    put_two(&mut out[0..2], n as u16, fault == Fault::CountByteOrder);
    for (i, record) in records.iter().enumerate() {
        let (kind, operand) = record.numbers();
        out[2 + i] = kind;
        let place = 2 + n + 2 * i;
        put_two(&mut out[place..place + 2], operand, fault == Fault::OperandByteOrder);
    }
}

// Each question is asked of the whole list before the next one is asked at all.
fn read(bytes: &[u8], plan: &Plan, kind_allowed: fn(u8) -> bool, fault: Fault) -> Result<Vec<Record>, u8> {
    if bytes.len() < 2 {
        return Err(5);
    }
    let n = two_bytes(bytes[0], bytes[1], fault == Fault::CountByteOrder) as usize;
    if n > MOST_RECORDS {
        return Err(5);
    }
    if bytes.len() != 2 + 3 * n {
        return Err(6);
    }
    let (kinds, operands) = bytes[2..].split_at(n);
    let by_record = fault == Fault::Questions7And8ByRecord;
    if !by_record && !kinds.iter().all(|kind| kind_allowed(*kind)) {
        return Err(7);
    }
    let swapped = fault == Fault::OperandByteOrder;
    let operands = as_placed(operands, n, fault);
    let operands = operands.chunks(2).map(|b| two_bytes(b[0], b[1], swapped));
    kinds
        .iter()
        .zip(operands)
        .map(|(kind, n)| match kind_allowed(*kind) {
            true => Record::from_numbers(*kind, n, plan),
            false => Err(7),
        })
        .collect()
}

// The bytes that are taken for the operands: those that are, or with a mistake others, 0 past the end.
fn as_placed(operands: &[u8], n: usize, fault: Fault) -> Vec<u8> {
    let (first, apart) = match fault {
        Fault::OperandsByOne => (0, 1),
        Fault::OperandsFromTwoPlusTwoN => (n, 2),
        Fault::OperandsOneBehind => (2, 2),
        _ => return operands.to_vec(),
    };
    let byte = |place: usize| operands.get(place).copied().unwrap_or(0);
    (0..n)
        .map(|i| first + apart * i)
        .flat_map(|place| [byte(place), byte(place + 1)])
        .collect()
}

fn is_call(kind: u8) -> bool {
    (1..=11).contains(&kind)
}

fn is_call_or_report(kind: u8) -> bool {
    is_call(kind) || (16..=22).contains(&kind)
}

fn below(number: u16, bound: usize) -> Option<usize> {
    let number = number as usize;
    (number < bound).then_some(number)
}

fn put_two(place: &mut [u8], number: u16, swapped: bool) {
    let mut bytes = number.to_le_bytes();
    if swapped {
        bytes.reverse();
    }
    place.copy_from_slice(&bytes);
}
