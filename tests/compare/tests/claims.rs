//! Room for the reports of a Tick: "a lent state answers 12 where a Switch due isn't last, or where reports due but a Switch, sleepers,
//! armed timers owed no Expire, and one together pass T + 9". The answers are worked out by hand from document 02.

mod pairs;

use compare::bytes::Numbers;
use pairs::{step, told_apart};
use second::{Fault, Parts, Reply, NOBODY};

const TICK: Numbers = (7, 0);
const READY: u8 = 16;
const SWITCH: u8 = 17;
const EXPIRE: u8 = 21;

/// Thread 0 is ready, and 1, the more urgent one, wakes at the next tick number, 8. Timers 0 to 3 expire there and at every tick behind it.
/// With one sleeper, four timers and one, five reports due make T + 9 = 11.
fn with_due(due: &[Numbers]) -> Parts {
    Parts {
        threads: 2,
        bases: vec![1, 2],
        needs: vec![0, 0],
        tick: 7,
        conditions: vec![(1, 0), (2, 8)],
        line: vec![0],
        delays: vec![1],
        timers: std::array::from_fn(|timer| if timer < 4 { (8, 1) } else { (0, 0) }),
        given: 0,
        due: due.to_vec(),
        ..Parts::default()
    }
}

/// The same with thread 1 woken, the timers moved on to 9, and these reports due.
fn ticked(due: &[Numbers]) -> Parts {
    Parts {
        tick: 8,
        conditions: vec![(1, 0), (1, 0)],
        line: vec![0, 1],
        delays: Vec::new(),
        timers: std::array::from_fn(|timer| if timer < 4 { (9, 1) } else { (0, 0) }),
        ..with_due(due)
    }
}

/// That many Readys of thread 0, and these behind them.
fn readys_and(number: usize, behind: &[Numbers]) -> Vec<Numbers> {
    [&vec![(READY, 0); number], behind].concat()
}

fn is_refused(due: &[Numbers]) -> bool {
    let parts = with_due(due);
    step(&parts, TICK) == (Reply::Refused(12), parts.clone())
}

fn passes(due: &[Numbers]) -> bool {
    step(&with_due(due), TICK).0 != Reply::Refused(12)
}

#[test]
fn a_tick_makes_as_many_due_as_there_may_be() {
    let after = readys_and(5, &[(EXPIRE, 0), (EXPIRE, 1), (EXPIRE, 2), (EXPIRE, 3), (READY, 1), (SWITCH, 1)]);
    assert_eq!(after.len(), 11);
    for due in [readys_and(5, &[]), readys_and(5, &[(SWITCH, NOBODY)])] {
        assert_eq!(step(&with_due(&due), TICK), (Reply::Clean { due: 11 }, ticked(&after)));
    }
}

#[test]
fn the_one_is_counted() {
    assert!(is_refused(&readys_and(6, &[])));
    assert!(told_apart(Fault::ClaimsWithoutOne, &with_due(&readys_and(6, &[])), TICK));
    assert!(is_refused(&readys_and(7, &[])));
    assert!(!told_apart(Fault::ClaimsWithoutOne, &with_due(&readys_and(7, &[])), TICK));
}

#[test]
fn a_switch_is_not_counted() {
    let due = readys_and(5, &[(SWITCH, 0)]);
    assert!(passes(&due));
    assert!(told_apart(Fault::SwitchAmongClaims, &with_due(&due), TICK));
    assert!(is_refused(&readys_and(6, &[(SWITCH, 0)])));
}

#[test]
fn a_timer_owed_an_expire_is_not_counted_beside_it() {
    let due = readys_and(5, &[(EXPIRE, 2), (EXPIRE, 0)]);
    let after = [&due[..], &[(EXPIRE, 1), (EXPIRE, 3), (READY, 1), (SWITCH, 1)]].concat();
    assert_eq!(step(&with_due(&due), TICK), (Reply::Clean { due: 11 }, ticked(&after)));
    assert!(told_apart(Fault::OwedTimersAmongClaims, &with_due(&due), TICK));
    // An Expire more of the same timer is counted, and so is that of a timer that is not armed.
    assert!(is_refused(&readys_and(5, &[(EXPIRE, 0), (EXPIRE, 0)])));
    assert!(is_refused(&readys_and(5, &[(EXPIRE, 7)])));
}

#[test]
fn a_switch_due_is_the_last() {
    for due in [
        vec![(SWITCH, 0), (READY, 0)],
        vec![(READY, 0), (SWITCH, NOBODY), (EXPIRE, 7)],
        vec![(SWITCH, 1), (SWITCH, 1)],
        readys_and(1, &[(SWITCH, 0), (READY, 0), (SWITCH, 1)]),
    ] {
        assert!(is_refused(&due), "{due:?}");
        assert!(told_apart(Fault::SwitchDueAnywhere, &with_due(&due), TICK), "{due:?}");
    }
    assert!(passes(&[(SWITCH, 1)]));
}

#[test]
fn sixteen_threads_and_eight_timers_fill_the_array() {
    let asleep = Parts {
        threads: 16,
        bases: vec![1; 16],
        needs: vec![0; 16],
        conditions: vec![(2, 1); 16],
        delays: (0..16).rev().collect(),
        timers: [(1, 0); 8],
        given: NOBODY,
        ..Parts::default()
    };
    let (reply, after) = step(&asleep, TICK);
    assert_eq!(reply, Reply::Clean { due: 25 });
    let expires = (0..8).map(|timer| (EXPIRE, timer));
    let readys = (0..16).rev().map(|thread| (READY, thread));
    let due: Vec<Numbers> = expires.chain(readys).chain([(SWITCH, 15)]).collect();
    assert_eq!(after.due, due);
    // However many Ticks follow, and with one report given.
    let (reply, later) = step(&after, TICK);
    assert_eq!((reply, &later.due), (Reply::Clean { due: 25 }, &due));
    let (_, given) = step(&later, due[0]);
    assert_eq!(step(&given, TICK).1.due, due[1..]);
}
