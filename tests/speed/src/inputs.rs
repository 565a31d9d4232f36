//! Clean dumps to measure on. They are written by the peer's machine, and the same on every run.

mod random;
mod recorder;
mod regular;

#[cfg(test)]
pub use random::Draw;
pub use recorder::Recorder;

pub struct Input {
    pub name: &'static str,
    pub plan: Vec<u8>,
    pub dump: Vec<u8>,
    /// The whole check may cost this many times the peer's.
    pub aim: f64,
}

impl Input {
    pub fn records(&self) -> usize {
        u16::from_le_bytes([self.dump[0], self.dump[1]]) as usize
    }

    /// The records as kinds and operands.
    pub fn decoded(&self) -> Vec<(u8, u16)> {
        let (kinds, operands) = self.dump[2..].split_at(self.records());
        kinds
            .iter()
            .zip(operands.chunks_exact(2))
            .map(|(&kind, x)| (kind, u16::from_le_bytes([x[0], x[1]])))
            .collect()
    }
}

/// The most records that a dump has.
pub const LONG: usize = 20_000;

/// Every input at full length.
pub fn all() -> Vec<Input> {
    vec![
        input("ticks-few", 1.0, random::ticks_few(1, LONG)),
        ticks_many(1, LONG),
        mixed("mixed-4", 1, 4, 4, LONG),
        mixed("mixed-8", 1, 8, 8, LONG),
        mixed("mixed-16", 1, 16, 16, LONG),
        input("contention", 1.5, regular::contention(LONG)),
        input("nested", 1.5, regular::nested(LONG)),
        input("relinquish", 1.5, regular::relinquish(LONG)),
        timers(1, LONG),
        input("sleepers", 1.5, random::sleepers(1, LONG)),
        interrupts(1, LONG),
    ]
}

fn input(name: &'static str, aim: f64, (plan, dump): (Vec<u8>, Vec<u8>)) -> Input {
    Input { name, plan, dump, aim }
}

pub fn ticks_many(seed: u64, records: usize) -> Input {
    input("ticks-many", 1.0, random::ticks_many(seed, records))
}

pub fn mixed(name: &'static str, seed: u64, threads: usize, sections: usize, records: usize) -> Input {
    input(name, 1.0, random::mixed(seed, threads, sections, records))
}

pub fn timers(seed: u64, records: usize) -> Input {
    input("timers", 1.5, random::timers(seed, records))
}

pub fn interrupts(seed: u64, records: usize) -> Input {
    input("interrupts", 1.5, random::interrupts(seed, records))
}

/// Ticks that wake nobody, behind a few calls. No aim is set for it.
pub fn ticks_alone(threads: u16, waits: bool) -> Input {
    input("ticks alone", f64::INFINITY, regular::ticks_alone(threads, waits, LONG))
}

#[cfg(test)]
mod tests {
    use super::*;
    use crate::peer::*;

    fn share(input: &Input, kind: u8) -> f64 {
        input.decoded().iter().filter(|record| record.0 == kind).count() as f64 / input.records() as f64
    }

    #[test]
    fn every_input_is_long() {
        assert!(all().iter().all(|input| input.records() == 20_000));
    }

    #[test]
    fn mixed_inputs_have_every_kind_but_the_timers_and_a_tenth_of_ticks() {
        for input in all().iter().filter(|input| input.name.starts_with("mixed")) {
            assert!(
                (CREATE..=TICK).chain(READY..=YIELD).all(|kind| share(input, kind) > 0.01),
                "{}",
                input.name
            );
            assert!((0.08..0.12).contains(&share(input, TICK)), "{}: {}", input.name, share(input, TICK));
        }
    }

    #[test]
    fn eight_timers_expire_among_calls() {
        let input = timers(1, LONG);
        let records = input.decoded();
        let expires = |timer| records.iter().filter(|record| **record == (EXPIRE, timer)).count();
        assert!(
            (0..8).all(|timer| expires(timer) > 100),
            "{:?}",
            (0..8).map(expires).collect::<Vec<usize>>()
        );
        let others = [
            DELAY, RELINQUISH, TAKE, GIVE, ARM, START, PERIOD, READY, SWITCH, WON, LOST, YIELD, LATE,
        ];
        assert!(others.iter().all(|kind| share(&input, *kind) > 0.01));
        assert!(share(&input, TICK) > 0.2 && share(&input, EXPIRE) > 0.2 && share(&input, CANCEL) > 0.002);
        assert!(records.iter().any(|record| record.0 == LATE && record.1 > 5));
    }

    #[test]
    fn ticks_stand_between_calls_and_their_reports() {
        let input = interrupts(1, LONG);
        let records = input.decoded();
        let parted = |report| records.windows(2).filter(|pair| pair[0].0 == TICK && pair[1].0 == report).count();
        let counts: Vec<usize> = [SWITCH, WON, LOST, YIELD, LATE].iter().map(|report| parted(*report)).collect();
        assert!(counts.iter().all(|count| *count > 30), "{counts:?}");
        assert!(share(&input, TICK) > share(&timers(1, LONG), TICK));
    }

    #[test]
    fn sleepers_share_ticks_in_another_order_than_their_numbers() {
        let inputs = all();
        let records = inputs.iter().find(|input| input.name == "sleepers").unwrap().decoded();
        let woken: Vec<Vec<u16>> = records
            .split(|record| record.0 == TICK)
            .map(|behind| behind.iter().filter(|record| record.0 == READY).map(|record| record.1).collect())
            .collect();
        let falls = |threads: &&Vec<u16>| threads.windows(2).any(|pair| pair[0] > pair[1]);
        assert!(woken[1..].iter().filter(falls).count() > 800);
        assert!(woken[1..].iter().filter(|threads| threads.len() > 2).count() > 800);
    }

    #[test]
    fn ticks_alone_wake_nobody_and_one_thread_may_wait() {
        for waits in [false, true] {
            let input = ticks_alone(16, waits);
            let behind = input
                .decoded()
                .iter()
                .skip_while(|record| record.0 != TICK)
                .filter(|record| record.0 != TICK)
                .count();
            assert_eq!(behind, 0);
            assert_eq!(share(&input, LOST) > 0.0, waits);
        }
    }

    #[test]
    fn tick_inputs_are_mostly_ticks_and_some_wake() {
        for (input, least) in all().iter().zip([0.98, 0.8]) {
            assert!(share(input, TICK) > least, "{}: {}", input.name, share(input, TICK));
            assert!(share(input, READY) > 0.002, "{}: {}", input.name, share(input, READY));
        }
    }
}
