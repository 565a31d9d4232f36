//! The step for live use: one record at a time on a state that is lent to it.

use crate::delays::Delays;
use crate::fault::Fault;
use crate::lent::{Parts, LAST_TICK};
use crate::machine::Machine;
use crate::plan::Plan;
use crate::records::{Call, Record};
use crate::rules::broken_rule;

#[derive(Clone, Copy, Debug, PartialEq, Eq)]
pub enum Reply {
    /// 12, 7, 8 or 13; the state keeps its content.
    Refused(u8),
    Clean {
        due: usize,
    },
    Broken(u8),
}

/// A watch state with the step on it. The state is kept in plain numbers, so that every
/// step asks question 12 of exactly what was lent.
#[derive(Clone, Debug, PartialEq, Eq)]
pub struct Watch {
    parts: Parts,
    fault: Fault,
    /// What `DelayAgainKeepsPlace` remembers of threads not asleep; nothing else asks for it.
    places: Option<Delays>,
}

impl Watch {
    /// The start of a plan that passes questions 1 to 4.
    pub fn new(plan: &[u8]) -> Result<Watch, u8> {
        Watch::new_with(Fault::None, plan)
    }

    pub fn new_with(fault: Fault, plan: &[u8]) -> Result<Watch, u8> {
        let plan = Plan::read(plan, fault)?;
        Ok(Watch::from_parts_with(fault, Parts::of(&Machine::new(plan, fault), 0)))
    }

    /// Any numbers at all; the step asks question 12 of them.
    pub fn from_parts(parts: Parts) -> Watch {
        Watch::from_parts_with(Fault::None, parts)
    }

    pub fn from_parts_with(fault: Fault, parts: Parts) -> Watch {
        let places = None;
        Watch { parts, fault, places }
    }

    pub fn parts(&self) -> &Parts {
        &self.parts
    }

    /// Advances the state by one record.
    pub fn step(&mut self, kind: u8, operand: u16) -> Reply {
        let Some(mut machine) = self.parts.machine(self.fault) else {
            return Reply::Refused(12);
        };
        if let Some(places) = &self.places {
            machine.delays = places.clone();
        }
        let record = match Record::from_numbers(kind, operand, &machine.plan) {
            Ok(record) => record,
            Err(question) => return Reply::Refused(question),
        };
        if record == Record::Call(Call::Tick) && machine.tick == LAST_TICK {
            return Reply::Refused(13);
        }
        if self.parts.stored != 0 {
            return Reply::Broken(self.parts.stored);
        }
        if let Some(rule) = broken_rule(&machine, record) {
            self.parts.stored = rule;
            return Reply::Broken(rule);
        }
        machine.advance(record);
        self.parts = Parts::of(&machine, 0);
        self.places = (self.fault == Fault::DelayAgainKeepsPlace).then_some(machine.delays);
        Reply::Clean { due: machine.due.len() }
    }
}
