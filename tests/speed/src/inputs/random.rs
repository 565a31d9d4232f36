//! Inputs drawn by a small generator of numbers: long runs of Ticks, sleepers that share ticks, calls of kinds 1 to 7, and timers among such calls.

use super::Recorder;
use crate::peer::*;

/// splitmix64
pub struct Draw(pub u64);

impl Draw {
    fn next(&mut self) -> u64 {
        self.0 = self.0.wrapping_add(0x9e37_79b9_7f4a_7c15);
        let mut x = self.0;
        x = (x ^ (x >> 30)).wrapping_mul(0xbf58_476d_1ce4_e5b9);
        x = (x ^ (x >> 27)).wrapping_mul(0x94d0_49bb_1331_11eb);
        x ^ (x >> 31)
    }

    pub fn below(&mut self, end: usize) -> usize {
        (self.next() % end as u64) as usize
    }

    fn between(&mut self, low: u16, high: u16) -> u16 {
        low + self.below((high - low) as usize + 1) as u16
    }
}

/// Two threads that sleep long, and nobody runs meanwhile.
pub fn ticks_few(seed: u64, records: usize) -> (Vec<u8>, Vec<u8>) {
    let mut draw = Draw(seed);
    let mut run = Recorder::new(0, &[(1, 0), (2, 0)], records);
    run.must(CREATE, 0);
    run.must(CREATE, 1);
    while !run.full() {
        match run.running() {
            Some(_) => run.must(DELAY, draw.between(200, 1000)),
            None => run.must(TICK, 0),
        }
    }
    run.finish()
}

/// One thread that always runs, and thirteen above it that wake now and then; one wake in four takes a section and gives it back.
pub fn ticks_many(seed: u64, records: usize) -> (Vec<u8>, Vec<u8>) {
    let mut draw = Draw(seed);
    let threads: Vec<(u8, u16)> = (0..14).map(|thread| (1 + thread, 0b1111)).collect();
    let mut run = Recorder::new(4, &threads, records);
    for thread in 0..14 {
        run.must(CREATE, thread);
        while run.running() != Some(0) {
            run.must(DELAY, draw.between(1, 600));
        }
    }
    while !run.full() {
        if run.running() == Some(0) {
            run.must(TICK, 0);
            continue;
        }
        if draw.below(4) == 0 {
            let section = draw.between(0, 3);
            run.must(TAKE, section);
            run.must(GIVE, section);
        }
        run.must(DELAY, draw.between(100, 600));
    }
    run.finish()
}

/// Sixteen equal threads that sleep again as soon as they run, for few ticks, so that many are due at one tick.
pub fn sleepers(seed: u64, records: usize) -> (Vec<u8>, Vec<u8>) {
    let mut draw = Draw(seed);
    let mut run = Recorder::new(0, &[(1, 0); 16], records);
    for thread in 0..16 {
        run.must(CREATE, thread);
    }
    while !run.full() {
        match run.running() {
            Some(_) => run.must(DELAY, draw.between(1, 3)),
            None => run.must(TICK, 0),
        }
    }
    run.finish()
}

/// Calls of kinds 1 to 7 as they are drawn; those that the machine does not admit are left out.
pub fn mixed(seed: u64, threads: usize, sections: usize, records: usize) -> (Vec<u8>, Vec<u8>) {
    let mut draw = Draw(seed);
    let plan: Vec<(u8, u16)> = (0..threads)
        .map(|_| {
            let base = 1 + draw.below(threads.div_ceil(2)) as u8;
            let needs = (0..sections).fold(0, |needs, section| needs | ((draw.below(2) as u16) << section));
            (base, needs)
        })
        .collect();
    let mut run = Recorder::new(sections, &plan, records);
    while !run.full() {
        let thread = draw.below(threads) as u16;
        let section = draw.below(sections.max(1)) as u16;
        match draw.below(20) {
            0..=1 => run.call(TICK, 0),
            2..=4 => run.call(CREATE, thread),
            5 => run.call(DELAY, draw.between(1, 4)),
            6..=8 => run.call(RELINQUISH, 0),
            9 => run.call(END, 0),
            10..=14 => sections > 0 && run.call(TAKE, section),
            _ => run.last_taken().is_some_and(|section| run.call(GIVE, section)),
        };
    }
    run.finish()
}

/// The period of each timer: about one expiry for each Tick.
const PERIODS: [u16; TIMERS] = [3, 5, 7, 11, 13, 17, 23, 31];

/// Arms a timer with its period; the start is up to forty ticks past or up to twenty ahead.
fn arm(run: &mut Recorder, draw: &mut Draw, timer: usize) {
    let start = (run.tick() + 20).saturating_sub(draw.below(60)).max(1);
    run.must(ARM, timer as u16);
    run.must(START, start as u16);
    run.must(PERIOD, PERIODS[timer]);
}

/// Two equal threads that run by turns and take sections, and two above them that sleep and take one each. Eight periodic timers run beside
/// them, and now and then one is armed again, half of the times after a Cancel.
pub fn timers(seed: u64, records: usize) -> (Vec<u8>, Vec<u8>) {
    racks(seed, Recorder::new(2, &RACKS, records))
}

/// The same with Ticks among the reports.
pub fn interrupts(seed: u64, records: usize) -> (Vec<u8>, Vec<u8>) {
    racks(seed, Recorder::new(2, &RACKS, records).interrupted(Draw(seed + 1)))
}

const RACKS: [(u8, u16); 4] = [(1, 0b11), (1, 0b11), (2, 0b01), (3, 0b10)];

fn racks(seed: u64, mut run: Recorder) -> (Vec<u8>, Vec<u8>) {
    let mut draw = Draw(seed);
    for thread in 0..4 {
        run.must(CREATE, thread);
    }
    for timer in 0..TIMERS {
        arm(&mut run, &mut draw, timer);
    }
    while !run.full() {
        match (run.running(), run.last_taken()) {
            (Some(thread @ 2..), None) if draw.below(2) == 0 => run.must(TAKE, thread - 2),
            (Some(2..), None) => run.must(DELAY, draw.between(2, 20)),
            (Some(2..), Some(section)) => run.must(GIVE, section),
            (_, taken) => below(&mut run, &mut draw, taken),
        }
    }
    run.finish()
}

/// A Tick, or a call of one of the two lower threads.
fn below(run: &mut Recorder, draw: &mut Draw, taken: Option<u16>) {
    match (draw.below(24), taken) {
        (0..=15, _) => run.must(TICK, 0),
        (16..=18, _) => run.must(RELINQUISH, 0),
        (19..=22, Some(section)) => run.must(GIVE, section),
        (19..=22, None) => run.must(TAKE, draw.between(0, 1)),
        _ => {
            let timer = draw.below(TIMERS);
            if draw.below(2) == 0 {
                run.must(CANCEL, timer as u16);
            }
            arm(run, draw, timer);
        }
    }
}
