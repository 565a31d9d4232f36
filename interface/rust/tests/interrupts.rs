//! Ticks between a call and its reports: the reports due and the thread reported, in the state behind each record.
mod known;

use beltcairn::kind::{ARM, CANCEL, CREATE, DELAY, END, EXPIRE, GIVE, LATE, PERIOD, READY, RELINQUISH, START, SWITCH, TAKE, TICK};
use beltcairn::{breach, refused, Reply, Watch, NOBODY, ROOM, TIMERS};
use known::started;
use known::states::{is_refused, largest, listed, made_owing, owed, steps};
use known::timers::armed;

const ONE_THREAD: [u8; 5] = [1, 0, 1, 0, 0];
const NONE_YET: u8 = 255;

/// A record, and what is so behind it: the tick number, the thread reported and the reports due.
type Moment<'a> = ((u8, u16), u32, u8, &'a [(u8, u16)]);

/// Clean steps. The reports of a call stand at the front, and so do those still due behind a Tick; a report given moves none.
fn go(watch: &mut Watch, moments: &[Moment]) {
    for (record, tick, reported, due) in moments {
        let given = if record.0 < READY { 0 } else { watch.state.given + 1 };
        assert_eq!(
            watch.step(record.0, record.1),
            Reply::Clean(due.len() as u64),
            "{record:?} at {tick}"
        );
        let m = &watch.state.machine;
        assert_eq!((m.tick, m.reported), (*tick, *reported), "{record:?} at {tick}");
        assert_eq!(owed(&watch.state), *due, "{record:?} at {tick}");
        assert!(due.is_empty() || watch.state.given == given, "{record:?} at {tick}");
    }
}

/// One thread, which runs.
fn running() -> Watch {
    let mut watch = Watch::begin(&ONE_THREAD).unwrap();
    steps(&mut watch, &started(0));
    watch
}

/// The tick number of a timer's next expiry, if it is armed.
fn expiry(watch: &Watch, timer: usize) -> Option<u32> {
    Some(watch.state.machine.timers.armed(timer)?.expiry)
}

/// P6, and the reports that it ends with: the Switch of the second Tick is dropped by the third and due again, behind the Ready still owed.
#[test]
fn states_of_p6() {
    let mut watch = Watch::begin(&ONE_THREAD).unwrap();
    go(
        &mut watch,
        &[
            ((CREATE, 0), 0, NONE_YET, &[(READY, 0), (SWITCH, 0)]),
            ((READY, 0), 0, NONE_YET, &[(SWITCH, 0)]),
            ((SWITCH, 0), 0, 0, &[]),
            ((DELAY, 1), 0, 0, &[(SWITCH, NOBODY)]),
            ((SWITCH, NOBODY), 0, NONE_YET, &[]),
            ((TICK, 0), 1, NONE_YET, &[]),
            ((TICK, 0), 2, NONE_YET, &[(READY, 0), (SWITCH, 0)]),
            ((TICK, 0), 3, NONE_YET, &[(READY, 0), (SWITCH, 0)]),
            ((READY, 0), 3, NONE_YET, &[(SWITCH, 0)]),
            ((SWITCH, 0), 3, 0, &[]),
        ],
    );
    let m = &watch.state.machine;
    assert_eq!((listed(&m.queue), m.delays.count, watch.rule), (vec![0], 0, 0));
}

/// A Switch that is due alone is dropped and the same due again, at the front: to a thread, and to nobody.
#[test]
fn switch_due_again() {
    let mut watch = Watch::begin(&ONE_THREAD).unwrap();
    go(
        &mut watch,
        &[
            ((CREATE, 0), 0, NONE_YET, &[(READY, 0), (SWITCH, 0)]),
            ((READY, 0), 0, NONE_YET, &[(SWITCH, 0)]),
            ((TICK, 0), 1, NONE_YET, &[(SWITCH, 0)]),
            ((TICK, 0), 2, NONE_YET, &[(SWITCH, 0)]),
            ((SWITCH, 0), 2, 0, &[]),
            ((END, 0), 2, 0, &[(SWITCH, NOBODY)]),
            ((TICK, 0), 3, 0, &[(SWITCH, NOBODY)]),
            ((SWITCH, NOBODY), 3, NONE_YET, &[]),
        ],
    );
}

/// The thread wakes before the Switch behind its Delay is given: it was reported all the time, and no Switch is due. Its next Delay runs from
/// the record too, so that it ends at 4 though the Switch is given at 3.
#[test]
fn delay_overtaken() {
    let mut watch = running();
    go(
        &mut watch,
        &[
            ((DELAY, 1), 0, 0, &[(SWITCH, NOBODY)]),
            ((TICK, 0), 1, 0, &[(SWITCH, NOBODY)]),
            ((TICK, 0), 2, 0, &[(READY, 0)]),
            ((READY, 0), 2, 0, &[]),
            ((DELAY, 1), 2, 0, &[(SWITCH, NOBODY)]),
        ],
    );
    assert_eq!((watch.state.machine.wakes[0], watch.state.machine.queue.count), (4, 0));
    go(
        &mut watch,
        &[
            ((TICK, 0), 3, 0, &[(SWITCH, NOBODY)]),
            ((SWITCH, NOBODY), 3, NONE_YET, &[]),
            ((TICK, 0), 4, NONE_YET, &[(READY, 0), (SWITCH, 0)]),
        ],
    );
}

/// Two threads of equal priority. 1 and then 0 sleep, until 2 and 3; 1 wakes while the Switch to nobody is due, and 0 while the Ready of 1 is.
#[test]
fn two_wakes() {
    let mut watch = Watch::begin(&[2, 0, 1, 1, 0, 0, 0, 0]).unwrap();
    steps(&mut watch, &started(1));
    go(
        &mut watch,
        &[
            ((CREATE, 0), 0, 1, &[(READY, 0)]),
            ((READY, 0), 0, 1, &[]),
            ((DELAY, 1), 0, 1, &[(SWITCH, 0)]),
            ((TICK, 0), 1, 1, &[(SWITCH, 0)]),
            ((SWITCH, 0), 1, 0, &[]),
            ((DELAY, 1), 1, 0, &[(SWITCH, NOBODY)]),
            ((TICK, 0), 2, 0, &[(READY, 1), (SWITCH, 1)]),
            ((TICK, 0), 3, 0, &[(READY, 1), (READY, 0), (SWITCH, 1)]),
            ((READY, 1), 3, 0, &[(READY, 0), (SWITCH, 1)]),
            ((TICK, 0), 4, 0, &[(READY, 0), (SWITCH, 1)]),
            ((READY, 0), 4, 0, &[(SWITCH, 1)]),
            ((SWITCH, 1), 4, 1, &[]),
        ],
    );
    assert_eq!(listed(&watch.state.machine.queue), [1, 0]);
}

/// Timer 0 expires from 2 on at each tick, and the thread wakes at 2. An Expire that was given is owed no more: the next one joins the end.
#[test]
fn expire_behind_ready() {
    let mut watch = running();
    steps(&mut watch, &armed(0, 2, 1, 0));
    steps(&mut watch, &[(DELAY, 1), (SWITCH, NOBODY), (TICK, 0)]);
    go(
        &mut watch,
        &[
            ((TICK, 0), 2, NONE_YET, &[(EXPIRE, 0), (READY, 0), (SWITCH, 0)]),
            ((EXPIRE, 0), 2, NONE_YET, &[(READY, 0), (SWITCH, 0)]),
            ((TICK, 0), 3, NONE_YET, &[(READY, 0), (EXPIRE, 0), (SWITCH, 0)]),
            ((TICK, 0), 4, NONE_YET, &[(READY, 0), (EXPIRE, 0), (SWITCH, 0)]),
            ((READY, 0), 4, NONE_YET, &[(EXPIRE, 0), (SWITCH, 0)]),
            ((EXPIRE, 0), 4, NONE_YET, &[(SWITCH, 0)]),
            ((TICK, 0), 5, NONE_YET, &[(EXPIRE, 0), (SWITCH, 0)]),
        ],
    );
    assert_eq!(expiry(&watch, 0), Some(6));
}

/// Timer 4 from 2 by 3, alarm 2 at 3. The Expire of timer 4 is owed from 2 on; the expiries at 5 and 8 add none, but the timer moves on.
#[test]
fn expiries_while_owed() {
    let mut watch = running();
    steps(&mut watch, &armed(4, 2, 3, 0));
    steps(&mut watch, &armed(2, 3, 0, 0));
    steps(&mut watch, &[(TICK, 0), (TICK, 0)]);
    assert_eq!((owed(&watch.state), expiry(&watch, 4)), (vec![(EXPIRE, 4)], Some(5)));
    for next in [5, 5, 8, 8, 8, 11] {
        assert_eq!(watch.step(TICK, 0), Reply::Clean(2));
        assert_eq!(owed(&watch.state), [(EXPIRE, 4), (EXPIRE, 2)]);
        assert_eq!((expiry(&watch, 4), expiry(&watch, 2)), (Some(next), None));
    }
    steps(&mut watch, &[(EXPIRE, 4), (EXPIRE, 2), (TICK, 0), (TICK, 0)]);
    assert_eq!(watch.step(TICK, 0), Reply::Clean(1));
    assert_eq!((owed(&watch.state), expiry(&watch, 4)), (vec![(EXPIRE, 4)], Some(14)));
}

/// The full house at this tick number: at k from 1 to 8 timer k - 1 expired, at k from 2 to 17 thread k - 2 woke, and nothing was given.
fn house(tick: u16) -> Vec<(u8, u16)> {
    let mut due = Vec::new();
    for k in 1..=tick {
        due.extend((k <= 8).then(|| (EXPIRE, k - 1)));
        due.extend((k >= 2).then(|| (READY, k - 2)));
    }
    due.extend((tick >= 2).then(|| (SWITCH, tick - 2)));
    due
}

/// Every thread sleeps and every timer is armed, even ones as alarms and odd ones by 1. Each Tick then makes Expires and Readys of timers and
/// sleepers, and the claims on the room are T + 9 from the start to the end, when as many reports are due.
#[test]
fn full_house() {
    let mut watch = largest();
    steps(&mut watch, &started(0));
    for timer in 0..8 {
        steps(&mut watch, &armed(timer, timer + 1, timer % 2, 0));
    }
    steps(&mut watch, &[(DELAY, 1), (SWITCH, NOBODY)]);
    for thread in 1..16 {
        steps(&mut watch, &started(thread));
        steps(&mut watch, &[(DELAY, thread + 1), (SWITCH, NOBODY)]);
    }
    for tick in (1..=17).chain([17]) {
        steps(&mut watch, &[(TICK, 0)]);
        assert_eq!((owed(&watch.state), watch.state.given), (house(tick), 0));
    }
    assert_eq!(watch.state.due.count, ROOM);
    let next = |timer| (timer % 2 == 1).then_some(19);
    assert!((0..TIMERS).all(|timer| expiry(&watch, timer) == next(timer)));
    steps(&mut watch, &[(EXPIRE, 0), (EXPIRE, 1), (TICK, 0)]);
    let (left, behind) = (&house(17)[2..24], [(EXPIRE, 1), (SWITCH, 15)]);
    assert_eq!((owed(&watch.state), watch.state.given), ([left, &behind].concat(), 0));
}

/// With a Late due, in front of a Tick and behind it: of the calls Tick alone is admitted, and no report but the Late.
#[test]
fn other_records() {
    let mut watch = made_owing(&[(LATE, 7)]);
    let calls = [
        (CREATE, 1),
        (DELAY, 1),
        (RELINQUISH, 0),
        (END, 0),
        (TAKE, 0),
        (GIVE, 0),
        (ARM, 0),
        (CANCEL, 0),
    ];
    let of_calls = calls.map(|call| (call, breach::REPORT_DUE));
    let of_others = [
        ((START, 1), breach::ARMING_ORDER),
        ((PERIOD, 0), breach::ARMING_ORDER),
        ((READY, 0), breach::OTHER_KIND),
        ((LATE, 0), breach::OTHER_THREAD),
    ];
    for due in [vec![(LATE, 7)], vec![(LATE, 7), (READY, 1)]] {
        for ((kind, operand), rule) in of_calls.into_iter().chain(of_others) {
            let mut other = watch;
            assert_eq!(other.step(kind, operand), Reply::Broken(rule));
            assert_eq!(other, Watch { rule, ..watch });
        }
        assert_eq!(watch.step(TICK, 0), Reply::Clean(due.len() as u64));
        assert_eq!(owed(&watch.state), due); // at 9 thread 1 wakes
    }
}

/// A Tick with a report due is refused at the greatest tick number, and answers a breach that is stored.
#[test]
fn ticks_not_made() {
    let mut watch = made_owing(&[(LATE, 0)]);
    (watch.state.machine.tick, watch.state.machine.wakes[1]) = (3_999_999_999, 4_000_065_536);
    let mut broken = watch;
    broken.rule = breach::NONE_DUE;
    let before = broken;
    assert_eq!((broken.step(TICK, 0), broken), (Reply::Broken(breach::NONE_DUE), before));
    assert_eq!(watch.step(TICK, 0), Reply::Clean(1));
    assert_eq!((watch.state.machine.tick, owed(&watch.state)), (4_000_000_000, vec![(LATE, 0)]));
    is_refused(watch, refused::TICK, TICK, 0);
}
