//! Makes calls on the peer's machine and writes down what happens.

use super::random::Draw;
use crate::peer::{self, Machine};

pub struct Recorder {
    machine: Machine<false>,
    plan: Vec<u8>,
    records: Vec<(u8, u16)>,
    wanted: usize,
    clock: Option<Draw>,
}

impl Recorder {
    /// For a plan of as many threads as there are pairs of base priority and needs.
    pub fn new(sections: usize, threads: &[(u8, u16)], wanted: usize) -> Recorder {
        let mut plan = vec![threads.len() as u8, sections as u8];
        plan.extend(threads.iter().map(|thread| thread.0));
        plan.extend(threads.iter().flat_map(|thread| thread.1.to_le_bytes()));
        let read = peer::plan(&plan).expect("the plan of an input passes questions 1 to 4");
        Recorder {
            machine: Machine::new(read),
            plan,
            records: Vec::new(),
            wanted,
            clock: None,
        }
    }

    /// With Ticks among the reports, about one for every three of them.
    pub fn interrupted(mut self, clock: Draw) -> Recorder {
        self.clock = Some(clock);
        self
    }

    /// Writes the call and its reports down if the machine admits it.
    pub fn call(&mut self, kind: u8, operand: u16) -> bool {
        if self.machine.judge(kind, operand).is_err() {
            return false;
        }
        self.records.push((kind, operand));
        while let Some(report) = self.machine.first_due() {
            if self.clock.as_mut().is_some_and(|clock| clock.below(4) == 0) {
                self.records.push((peer::TICK, 0));
                self.machine.judge(peer::TICK, 0).expect("a Tick is admitted with reports due");
                continue;
            }
            self.records.push((report.kind, report.operand));
            self.machine
                .judge(report.kind, report.operand)
                .expect("the report due is the one that is given");
        }
        true
    }

    /// A call that the machine must admit.
    pub fn must(&mut self, kind: u8, operand: u16) {
        assert!(
            self.call(kind, operand),
            "call {kind} {operand} is not admitted after {} records",
            self.records.len()
        );
    }

    pub fn full(&self) -> bool {
        self.records.len() >= self.wanted
    }

    pub fn tick(&self) -> usize {
        self.machine.tick as usize
    }

    pub fn running(&self) -> Option<u16> {
        self.machine.caller().ok()
    }

    /// The section that the running thread took last of those it still holds.
    pub fn last_taken(&self) -> Option<u16> {
        let at = self.machine.holds.last_of(self.running()?)?;
        Some(self.machine.holds.items()[at].section)
    }

    /// Plan and dump; reports beyond the wanted number stay due.
    pub fn finish(mut self) -> (Vec<u8>, Vec<u8>) {
        self.records.truncate(self.wanted);
        let mut dump = (self.records.len() as u16).to_le_bytes().to_vec();
        dump.extend(self.records.iter().map(|record| record.0));
        dump.extend(self.records.iter().flat_map(|record| record.1.to_le_bytes()));
        (self.plan, dump)
    }
}
