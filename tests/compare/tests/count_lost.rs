//! The count lost: "a periodic timer loses the least j for which start + j × period is above k", and "a count above 65535 is written 65535".
//! A dump has at most 20,000 Ticks, so these are lent states, with answers worked out by hand from document 02.

mod pairs;

use compare::bytes::Numbers;
use pairs::{step, told_apart};
use second::{Fault, Parts, Reply, LAST_EXPIRY, LAST_TICK};

const PERIOD: u8 = 10;
const LATE: u8 = 22;

/// One thread, which runs, at that tick number. Timer 3 is armed, and being armed again: its Start has come.
fn after_start(tick: u64, start: u16) -> Parts {
    let mut parts = Parts {
        threads: 1,
        bases: vec![1],
        needs: vec![0],
        tick,
        conditions: vec![(1, 0)],
        line: vec![0],
        arming: (2, 3, start),
        ..Parts::default()
    };
    parts.timers[3] = (LAST_EXPIRY, 0);
    parts
}

/// The Period ends the arming, the timer expires next at that number, and the Late with that count is due.
fn loses(tick: u64, start: u16, period: u16, expiry: u64, count: u16) {
    let before = after_start(tick, start);
    let mut after = Parts {
        arming: (0, 0, 0),
        due: vec![(LATE, count)],
        ..before.clone()
    };
    after.timers[3] = if expiry == 0 { (0, 0) } else { (expiry, period) };
    assert_eq!(step(&before, (PERIOD, period)), (Reply::Clean { due: 1 }, after));
}

fn not_capped_is_told_apart(tick: u64, start: u16, period: u16) -> bool {
    let record: Numbers = (PERIOD, period);
    told_apart(Fault::CountNotCapped, &after_start(tick, start), record)
}

#[test]
fn the_greatest_count_that_is_written_as_it_is() {
    // 1, 2, .., 65535 are at or below 65535.
    loses(65_534, 1, 1, 65_535, 65_534);
    loses(65_535, 1, 1, 65_536, 65_535);
    assert!(!not_capped_is_told_apart(65_535, 1, 1));
}

#[test]
fn a_count_above_65535_is_written_65535() {
    // 65,536 are lost, which two bytes would make 0.
    loses(65_536, 1, 1, 65_537, 65_535);
    assert!(not_capped_is_told_apart(65_536, 1, 1));
    // 2 × 65,536 are lost: 1, 8, .., 1 + 7 × 131,071 = 917,498.
    loses(917_498, 1, 7, 917_505, 65_535);
    assert!(not_capped_is_told_apart(917_498, 1, 7));
}

#[test]
fn at_the_last_tick_number() {
    // 65,535 + 2 × 1,999,967,232 is 3,999,999,999, so 1,999,967,233 are lost.
    loses(LAST_TICK, 65_535, 2, 4_000_000_001, 65_535);
    assert!(not_capped_is_told_apart(LAST_TICK, 65_535, 2));
    // 1 + 3,999,999,999 × 1 is the tick number, not above it: 4,000,000,000 are lost.
    loses(LAST_TICK, 1, 1, 4_000_000_001, 65_535);
    assert!(not_capped_is_told_apart(LAST_TICK, 1, 1));
}

#[test]
fn the_last_expiry_that_there_is() {
    // 5,740 + 65,535 × 61,036 is 4,000,000,000, not above it: 61,037 are lost.
    loses(LAST_TICK, 5_740, 65_535, LAST_EXPIRY, 61_037);
    assert!(!not_capped_is_told_apart(LAST_TICK, 5_740, 65_535));
}

#[test]
fn an_alarm_loses_one_however_late() {
    loses(LAST_TICK, 1, 0, 0, 1);
    loses(65_535, 65_535, 0, 0, 1);
    // In time by one tick.
    loses(65_534, 65_535, 0, 65_535, 0);
}
