//! Random plans, and random runs that a kernel keeping the rules could have made.

use second::{broken_rule, Arming, Call, Fault, Machine, Plan, Record, MOST_RECORDS, TIMERS};

use crate::bytes::{self, Numbers};
use crate::crowd::crowd;
use crate::random::Random;

/// A plan's bytes and the records of a clean dump.
pub struct Run {
    pub plan: Vec<u8>,
    pub records: Vec<Numbers>,
}

/// The bytes of a plan that passes questions 1 to 4: few priorities, so that ties happen, and needs dense or sparse.
pub fn plan(random: &mut Random) -> Vec<u8> {
    let most_threads = random.pick(&[3, 5, 16]);
    let most_sections = random.pick(&[2, 4, 16]);
    sized_plan(random, most_threads, most_sections)
}

pub fn sized_plan(random: &mut Random, most_threads: usize, most_sections: usize) -> Vec<u8> {
    let threads = random.between(1, most_threads);
    let sections = random.between(0, most_sections);
    plan_of(random, threads, sections)
}

/// The same of exactly so many threads and sections.
pub fn plan_of(random: &mut Random, threads: usize, sections: usize) -> Vec<u8> {
    let lowest = random.pick(&[1, 1, 1, 30, 60]);
    let spread = random.between(1, 5);
    let bases: Vec<u8> = (0..threads).map(|_| (lowest + random.below(spread)) as u8).collect();
    let density = random.below(3);
    let needs: Vec<u16> = (0..threads).map(|_| needs(random, sections, density)).collect();
    bytes::plan(sections as u8, &bases, &needs)
}

fn needs(random: &mut Random, sections: usize, density: usize) -> u16 {
    let allowed = ((1u32 << sections) - 1) as u16;
    let bits = match density {
        0 => random.word() & random.word(),
        1 => random.word() | random.word(),
        _ => u16::MAX,
    };
    bits & allowed
}

/// The kinds that a mood chooses from. Start and Period are no choice: they follow an Arm.
const KINDS: [u8; 9] = [1, 2, 3, 4, 5, 6, 7, 8, 11];

/// How many Ticks come at most between a call and the last of its reports: one of these, drawn for each call.
const NEVER: &[usize] = &[0];
const SELDOM: &[usize] = &[0, 0, 0, 1];
const OFTEN: &[usize] = &[0, 1, 2, 5];

/// How often each of those kinds is tried, and the Ticks among reports.
pub struct Mood {
    weights: [usize; KINDS.len()],
    among: &'static [usize],
}

impl Mood {
    fn of(weights: [usize; KINDS.len()], random: &mut Random) -> Mood {
        let among = random.pick(&[NEVER, NEVER, SELDOM, OFTEN]);
        Mood { weights, among }
    }

    /// Many threads that take sections and seldom end, so that they meet.
    pub fn busy(random: &mut Random) -> Mood {
        let weights = [6, 1, 2, random.below(2), 8, 3, 2, random.below(3), random.below(2)];
        Mood::of(weights, random)
    }

    /// Ticks and timers before all else.
    fn clockwork(random: &mut Random) -> Mood {
        let weights = [3, 2, 1, random.below(2), 1, 1, 8, 4, 1];
        Mood::of(weights, random)
    }

    /// Busy with sections in half of the runs, with timers in some, and with anything in the others.
    pub fn any(random: &mut Random) -> Mood {
        match random.below(8) {
            0..=3 => return Mood::busy(random),
            4..=5 => return Mood::clockwork(random),
            _ => {}
        }
        let mut weights = [0; KINDS.len()];
        for weight in &mut weights {
            *weight = random.below(7);
        }
        // Without these nothing begins, or nothing is ever admitted.
        weights[0] += 2;
        weights[6] += 1;
        Mood::of(weights, random)
    }

    fn kind(&self, random: &mut Random) -> u8 {
        let mut left = random.below(self.weights.iter().sum());
        for (kind, weight) in KINDS.into_iter().zip(self.weights) {
            if left < weight {
                return kind;
            }
            left -= weight;
        }
        unreachable!("the number is below the sum of the weights")
    }
}

/// All the reports due, however many.
pub const ALL: usize = usize::MAX;

/// A machine that keeps the rules, and the records that moved it.
pub struct Recorder {
    plan: Vec<u8>,
    pub machine: Machine,
    pub records: Vec<Numbers>,
}

impl Recorder {
    pub fn new(plan: Vec<u8>) -> Recorder {
        let known = Plan::read(&plan, Fault::None).expect("the plan was made to pass");
        Recorder {
            plan,
            machine: Machine::new(known, Fault::None),
            records: Vec::new(),
        }
    }

    pub fn call(&mut self, call: Call) {
        self.advance(Record::Call(call));
    }

    /// Gives so many of the reports due, or all there are.
    pub fn give(&mut self, most: usize) {
        for _ in 0..most {
            let Some(report) = self.machine.due.front().copied() else {
                return;
            };
            self.advance(Record::Report(report));
        }
    }

    /// Gives all of them, with up to so many Ticks before and among them.
    pub fn give_among_ticks(&mut self, mut ticks: usize, random: &mut Random) {
        while !self.machine.due.is_empty() {
            if ticks > 0 && random.one_in(3) {
                ticks -= 1;
                self.call(Call::Tick);
            } else {
                self.give(1);
            }
        }
    }

    fn advance(&mut self, record: Record) {
        self.machine.advance(record);
        self.records.push(record.numbers());
    }

    /// Goes on in that mood, and ends with the reports of the call that brings it to that length, and not inside an arming; a dump of the
    /// greatest length ends there.
    fn go_on(mut self, mood: &Mood, length: usize, random: &mut Random) -> Run {
        while self.records.len() < length || self.machine.timers.arming != Arming::Idle {
            let room = MOST_RECORDS.saturating_sub(self.records.len());
            let call = admitted_call(&self.machine, mood, room, random);
            self.call(call);
            self.give_among_ticks(random.pick(mood.among), random);
        }
        self.records.truncate(MOST_RECORDS);
        let Recorder { plan, records, .. } = self;
        Run { plan, records }
    }
}

/// A run of some length: mostly short, some of hundreds of records, and now and then as long as a dump may be. In some all that can be due
/// is due at once.
pub fn run(random: &mut Random) -> Run {
    let length = match random.below(4000) {
        0 => MOST_RECORDS,
        1..=200 => random.between(100, 600),
        201..=1500 => random.between(40, 120),
        _ => random.below(50),
    };
    let (plan, mood) = (plan(random), Mood::any(random));
    let mut recorder = Recorder::new(plan);
    if random.one_in(64) {
        crowd(&mut recorder, random);
    }
    recorder.go_on(&mood, length, random)
}

/// A run under that plan, in that mood and of about that length.
pub fn sized_run(random: &mut Random, plan: Vec<u8>, mood: &Mood, length: usize) -> Run {
    Recorder::new(plan).go_on(mood, length, random)
}

fn admitted_call(machine: &Machine, mood: &Mood, room: usize, random: &mut Random) -> Call {
    loop {
        let call = candidate(machine, mood, room, random);
        if let Some(call) = call.filter(|call| broken_rule(machine, Record::Call(*call)).is_none()) {
            return call;
        }
    }
}

/// A call with an operand that stands a chance; nothing where none does. An arming has to fit the room, so that none is cut.
fn candidate(machine: &Machine, mood: &Mood, room: usize, random: &mut Random) -> Option<Call> {
    match machine.timers.arming {
        Arming::Idle => {}
        Arming::AfterArm(_) => return Some(Call::Start(start(machine.tick, random))),
        Arming::AfterStart(..) => return Some(Call::Period(period(random))),
    }
    match mood.kind(random) {
        1 => Some(Call::Create(random.below(machine.plan.threads()))),
        2 => Some(Call::Delay(ticks(random))),
        3 => Some(Call::Relinquish),
        4 => Some(Call::End),
        5 => needed(machine, random).map(Call::Take),
        6 => machine.chosen().and_then(|caller| machine.taken_last(caller)).map(Call::Give),
        7 => Some(Call::Tick),
        8 => (room >= 3).then(|| Call::Arm(some_timer(random))),
        _ => Some(Call::Cancel(some_timer(random))),
    }
}

/// Often one of the first, so that an armed one is armed again or cancelled.
pub fn some_timer(random: &mut Random) -> usize {
    let any = random.below(TIMERS);
    random.pick(&[0, 1, any])
}

/// A start close to the tick number more often than not, on either side of it.
pub fn start(tick: u64, random: &mut Random) -> u16 {
    let close = (tick + random.below(7) as u64).saturating_sub(3);
    match random.below(12) {
        0 => random.word().max(1),
        1 => random.pick(&[1, 255, 256, 257, 65534, 65535]),
        2 => random.between(1, 20) as u16,
        _ => close.clamp(1, 65535) as u16,
    }
}

pub fn period(random: &mut Random) -> u16 {
    match random.below(16) {
        0 => random.word(),
        1 => random.pick(&[255, 256, 257, 65534, 65535]),
        2 => random.between(4, 20) as u16,
        3..=6 => 0,
        _ => random.between(1, 3) as u16,
    }
}

/// A section that the running thread needs.
fn needed(machine: &Machine, random: &mut Random) -> Option<usize> {
    let caller = machine.chosen()?;
    let sections: Vec<usize> = (0..machine.plan.sections())
        .filter(|section| machine.plan.needs(caller, *section))
        .collect();
    (!sections.is_empty()).then(|| random.pick(&sections))
}

fn ticks(random: &mut Random) -> u16 {
    match random.below(40) {
        0 => random.pick(&[255, 256, 257, 511, 512, 65534, 65535]),
        1..=4 => random.between(5, 20) as u16,
        _ => random.between(1, 3) as u16,
    }
}
