//! Sleepers that share a tick: document 02, item 3, with answers worked out by hand.

mod lists;

use lists::{bytes, calls_only};
use second::{bench_with, check, Fault, Parts, Reply, Verdict, Watch, NOBODY};

type Numbers = (u8, u16);

const TICK: Numbers = (7, 0);

const fn create(thread: u16) -> Numbers {
    (1, thread)
}

const fn delay(ticks: u16) -> Numbers {
    (2, ticks)
}

/// Two threads of priority 1, no section.
const EQUALS: &[u8] = &[2, 0, 1, 1, 0, 0, 0, 0];

/// Thread 1 delays first; both are due at 0 + 1 + 1 = 2.
const HIGHER_FIRST: &[Numbers] = &[create(1), create(0), delay(1), delay(1), TICK, TICK];
const LOWER_FIRST: &[Numbers] = &[create(0), create(1), delay(1), delay(1), TICK, TICK];

/// Thread 1 delays, and 0 at 1 until 1 + 2 + 1 = 4. Thread 1 wakes at 2 and delays again, until 2 + 1 + 1 = 4.
const AGAIN: &[Numbers] = &[create(1), create(0), delay(1), TICK, delay(2), TICK, delay(1), TICK, TICK];

/// The reports behind the last of these calls, by the bench; a live step of the same machine finds its dump clean, record by record.
fn reports(fault: Fault, plan: &[u8], calls: &[Numbers]) -> Vec<Numbers> {
    let mut out = vec![0; 400];
    let records = bench_with(fault, plan, &bytes(calls), &mut out).unwrap();
    let (kinds, operands) = out[2..2 + 3 * records].split_at(records);
    let operands = operands.chunks(2).map(|b| u16::from_le_bytes([b[0], b[1]]));
    let written: Vec<Numbers> = kinds.iter().copied().zip(operands).collect();
    assert_eq!(calls_only(&written), calls);
    let mut watch = Watch::new_with(fault, plan).unwrap();
    for (kind, operand) in &written {
        assert!(matches!(watch.step(*kind, *operand), Reply::Clean { .. }));
    }
    let last_call = written.iter().rposition(|(kind, _)| *kind < 16).unwrap();
    written[last_call + 1..].to_vec()
}

/// The threads that become ready, in order.
fn woken(fault: Fault, calls: &[Numbers]) -> Vec<u16> {
    let readys = reports(fault, EQUALS, calls).into_iter().filter(|(kind, _)| *kind == 16);
    readys.map(|(_, thread)| thread).collect()
}

#[test]
fn the_known_run_p14() {
    let records = [
        (1, 1),
        (16, 1),
        (17, 1),
        (1, 0),
        (16, 0),
        (2, 1),
        (17, 0),
        (2, 1),
        (17, NOBODY),
        TICK,
        TICK,
        (16, 1),
        (16, 0),
        (17, 1),
    ];
    assert_eq!(check(EQUALS, &bytes(&records)), Verdict::Clean { records: 14, due: 0 });
    assert_eq!(calls_only(&records), HIGHER_FIRST);
    assert_eq!(reports(Fault::None, EQUALS, HIGHER_FIRST), records[11..]);
    // With the Readys the other way round the first breaks rule 30.
    let mut swapped = records;
    swapped.swap(11, 12);
    assert_eq!(check(EQUALS, &bytes(&swapped)), Verdict::Breach { record: 11, rule: 30 });
}

#[test]
fn the_order_is_that_of_the_delays() {
    assert_eq!(woken(Fault::None, LOWER_FIRST), [0, 1]);
    assert_eq!(woken(Fault::None, HIGHER_FIRST), [1, 0]);
    // Until 0 + 2 + 1 = 3, and at 1 until 1 + 1 + 1 = 3.
    let two_ticks = [create(1), create(0), delay(2), TICK, delay(1), TICK, TICK];
    assert_eq!(woken(Fault::None, &two_ticks), [1, 0]);
}

#[test]
fn urgency_does_not_count() {
    // Thread 0 of base 1 delays before 1 of base 2 is there; both are due at 0 + 2 + 1 = 3.
    let calls = [create(0), delay(2), create(1), delay(2), TICK, TICK, TICK];
    assert_eq!(reports(Fault::None, &[2, 0, 1, 2, 0, 0, 0, 0], &calls), [(16, 0), (16, 1), (17, 1)]);
}

#[test]
fn a_thread_that_delays_again_goes_last() {
    assert_eq!(woken(Fault::None, AGAIN), [0, 1]);
}

#[test]
fn the_mistakes_about_the_order() {
    let wakes = |fault| [LOWER_FIRST, HIGHER_FIRST, AGAIN].map(|calls| woken(fault, calls));
    assert_eq!(wakes(Fault::None), [[0, 1], [1, 0], [0, 1]]);
    assert_eq!(wakes(Fault::SleepersByNumber), [[0, 1], [0, 1], [0, 1]]);
    assert_eq!(wakes(Fault::LatestDelayFirst), [[1, 0], [0, 1], [1, 0]]);
    assert_eq!(wakes(Fault::DelayAgainKeepsPlace), [[0, 1], [1, 0], [1, 0]]);
}

/// Threads 3, 0 and 2 have delayed in this order, until 9, 8 and 9; 1 runs, at 7.
fn asleep() -> Parts {
    Parts {
        threads: 4,
        bases: vec![1; 4],
        needs: vec![0; 4],
        tick: 7,
        conditions: vec![(2, 8), (1, 0), (2, 9), (2, 9)],
        line: vec![1],
        delays: vec![3, 0, 2],
        given: 1,
        ..Parts::default()
    }
}

/// The order of Delays behind these steps, all of them clean.
fn order_behind(fault: Fault, records: &[Numbers]) -> Vec<u16> {
    let mut watch = Watch::from_parts_with(fault, asleep());
    for (kind, operand) in records {
        assert!(matches!(watch.step(*kind, *operand), Reply::Clean { .. }), "{kind} {operand}");
    }
    watch.parts().delays.clone()
}

#[test]
fn a_woken_thread_leaves_the_order_and_a_delay_joins_its_end() {
    assert_eq!(order_behind(Fault::None, &[TICK]), [3, 2]);
    assert_eq!(order_behind(Fault::None, &[TICK, (16, 0), TICK]), []);
    assert_eq!(order_behind(Fault::None, &[(2, 1)]), [3, 0, 2, 1]);
    assert_eq!(order_behind(Fault::None, &[TICK, (16, 0), (2, 5)]), [3, 2, 1]);
    assert_eq!(
        order_behind(Fault::None, &[TICK, (16, 0), (3, 0), (20, 1), (17, 0), (2, 5)]),
        [3, 2, 0]
    );
}

#[test]
fn a_lent_order_decides_between_sleepers_of_one_tick() {
    for (order, due) in [([3, 0, 2], [(16, 3), (16, 2)]), ([2, 3, 0], [(16, 2), (16, 3)])] {
        let mut watch = Watch::from_parts(Parts {
            tick: 8,
            delays: order.to_vec(),
            ..asleep()
        });
        assert_eq!(watch.step(7, 0), Reply::Clean { due: 2 });
        assert_eq!((&watch.parts().due[..], &watch.parts().delays[..]), (&due[..], &[0][..]));
    }
}

#[test]
fn old_places_of_a_lent_state() {
    let fault = Fault::DelayAgainKeepsPlace;
    // Thread 1 has no old place. Thread 0 has one from the lent order, between 3 and 2.
    assert_eq!(order_behind(fault, &[(2, 1)]), [3, 0, 2, 1]);
    let again = [TICK, (16, 0), (3, 0), (20, 1), (17, 0), (2, 5)];
    assert_eq!(order_behind(fault, &again), [3, 0, 2]);
    // Thread 1 got one by its first step, behind 2, and 0 is there before it again.
    let got = [(2, 1), (17, NOBODY), TICK, (16, 0), (17, 0), (2, 1), (17, NOBODY)];
    assert_eq!(order_behind(fault, &got), [3, 0, 2, 1]);
    assert_eq!(order_behind(Fault::None, &got), [3, 2, 1, 0]);
}
