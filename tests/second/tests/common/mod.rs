//! Random plans and runs for the tests.

use second::{broken_rule, Arming, Call, Fault, Machine, Plan, Record};

const TICK: Record = Record::Call(Call::Tick);

/// A small generator of repeatable numbers (xorshift).
pub struct Random(u64);

impl Random {
    pub fn new(seed: u64) -> Random {
        Random((seed + 1).wrapping_mul(0x9E37_79B9_7F4A_7C15) | 1)
    }

    pub fn below(&mut self, bound: usize) -> usize {
        self.0 ^= self.0 << 13;
        self.0 ^= self.0 >> 7;
        self.0 ^= self.0 << 17;
        ((self.0 >> 11) % bound as u64) as usize
    }
}

/// The bytes of a plan of a few threads and sections, with some equal priorities and
/// most sections needed by most threads.
pub fn random_plan(random: &mut Random) -> Vec<u8> {
    let threads = 1 + random.below(6);
    let sections = random.below(5);
    let priorities = 1 + random.below(5);
    let mut bytes = vec![threads as u8, sections as u8];
    bytes.extend((0..threads).map(|_| 1 + random.below(priorities) as u8));
    for _ in 0..threads {
        let needs = random.below(1 << sections) | random.below(1 << sections);
        bytes.extend([needs as u8, 0]);
    }
    bytes
}

/// Every call that the machine admits, the more interesting ones several times.
fn admitted(machine: &Machine) -> Vec<Call> {
    let mut calls = vec![(1, Call::Tick), (1, Call::End), (2, Call::Relinquish)];
    calls.extend((1..4).map(|n| (1, Call::Delay(n))));
    calls.extend((0..machine.plan.threads()).map(|thread| (3, Call::Create(thread))));
    for section in 0..machine.plan.sections() {
        calls.extend([(6, Call::Take(section)), (2, Call::Give(section))]);
    }
    calls.extend([0, 1, 7].map(|timer| (1, Call::Arm(timer))));
    calls.extend((1..12).map(|number| (1, Call::Start(number))));
    calls.extend((0..4).map(|ticks| (1, Call::Period(ticks))));
    calls.extend([0, 1, 7].map(|timer| (1, Call::Cancel(timer))));
    calls.retain(|(_, call)| broken_rule(machine, Record::Call(*call)).is_none());
    calls.into_iter().flat_map(|(weight, call)| vec![call; weight]).collect()
}

/// That many calls with their reports, as a machine with that fault makes them, and the rest of an arming.
pub fn random_run(random: &mut Random, plan: &[u8], fault: Fault, calls: usize) -> Vec<Record> {
    run(random, plan, fault, calls, 0)
}

/// The same with up to three Ticks between a call and the last of its reports, where the machine admits them.
pub fn interrupted_run(random: &mut Random, plan: &[u8], fault: Fault, calls: usize) -> Vec<Record> {
    run(random, plan, fault, calls, 3)
}

fn run(random: &mut Random, plan: &[u8], fault: Fault, calls: usize, ticks_between: usize) -> Vec<Record> {
    let mut machine = Machine::new(Plan::read(plan, Fault::None).unwrap(), fault);
    let mut records = Vec::new();
    let mut made = 0;
    while made < calls || machine.timers.arming != Arming::Idle {
        made += 1;
        let choice = admitted(&machine);
        let mut record = Record::Call(choice[random.below(choice.len())]);
        let mut ticks = random.below(ticks_between + 1);
        loop {
            machine.advance(record);
            records.push(record);
            let Some(report) = machine.due.front() else { break };
            record = Record::Report(*report);
            if ticks > 0 && random.below(3) == 0 && broken_rule(&machine, TICK).is_none() {
                ticks -= 1;
                record = TICK;
            }
        }
    }
    records
}

pub fn numbers(records: &[Record]) -> Vec<(u8, u16)> {
    records.iter().map(|record| record.numbers()).collect()
}
