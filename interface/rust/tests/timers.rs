//! The timers in the watch state: what the library writes, what it reads from states made here, and what the readers say.
mod known;

use beltcairn::kind::{ARM, CANCEL, CREATE, DELAY, EXPIRE, LATE, PERIOD, READY, START, SWITCH, TICK};
use beltcairn::{breach, refused, Armed, Arming, Begun, Reply, Report, Timers, Watch, NOBODY, ROOM, TIMERS};
use known::states::{is_refused, owe, owed, steps};
use known::timers::armed;

fn timers(watch: &mut Watch) -> &mut Timers {
    &mut watch.state.machine.timers
}

/// The expiry and period of a timer that is armed.
fn read(watch: &Watch, timer: usize) -> Option<(u32, u16)> {
    let Armed { expiry, period } = watch.state.machine.timers.armed(timer)?;
    Some((expiry, period))
}

/// One thread, which runs; this tick number.
fn running_at(tick: u32) -> Watch {
    let mut watch = Watch::begin(&[1, 0, 1, 0, 0]).unwrap();
    steps(&mut watch, &[(CREATE, 0), (READY, 0), (SWITCH, 0)]);
    watch.state.machine.tick = tick;
    watch
}

#[test]
fn an_arming_is_read_at_each_stage() {
    let mut watch = running_at(0);
    let mut seen = vec![watch.state.machine.timers.arming.begun()];
    for record in [(ARM, 5), (START, 300), (PERIOD, 7)] {
        assert_eq!(read(&watch, 5), None);
        steps(&mut watch, &[record]);
        seen.push(watch.state.machine.timers.arming.begun());
    }
    let begun = |start| Some(Begun { timer: 5, start });
    assert_eq!(seen, [None, begun(None), begun(Some(300)), None]);
    assert_eq!(read(&watch, 5), Some((300, 7)));
    assert_eq!(watch.state.owed(), [Report { kind: LATE, operand: 0 }]);
    steps(&mut watch, &[(LATE, 0), (CANCEL, 5)]);
    assert_eq!((read(&watch, 5), watch.state.owed()), (None, &[][..]));
}

/// Timer 0 from 2 by 3 and alarm 1 at 2: both expire there, and the alarm is unarmed.
#[test]
fn expiries_are_read() {
    let mut watch = running_at(0);
    steps(&mut watch, &armed(1, 2, 0, 0));
    steps(&mut watch, &armed(0, 2, 3, 0));
    assert_eq!((read(&watch, 0), read(&watch, 1)), (Some((2, 3)), Some((2, 0))));
    steps(&mut watch, &[(TICK, 0), (TICK, 0)]);
    let expire = |timer| Report {
        kind: EXPIRE,
        operand: timer,
    };
    assert_eq!(watch.state.owed(), [expire(0), expire(1)]);
    assert_eq!((read(&watch, 0), read(&watch, 1)), (Some((5, 3)), None));
    steps(&mut watch, &[(EXPIRE, 0)]);
    assert_eq!(watch.state.owed(), [expire(1)]);
}

/// At tick number 2 all timers expire and all sixteen threads wake: T + 9 reports fill their room.
#[test]
fn most_reports() {
    let mut watch = Watch::begin(&[[16, 0].as_slice(), &[1; 16], &[0; 32]].concat()).unwrap();
    let (created, asleep) = (
        |thread| [(CREATE, thread), (READY, thread), (SWITCH, thread)],
        [(DELAY, 1), (SWITCH, NOBODY)],
    );
    steps(&mut watch, &created(0));
    for timer in 0..8 {
        steps(&mut watch, &armed(timer, 2, 100, 0));
    }
    steps(&mut watch, &asleep);
    for thread in 1..16 {
        steps(&mut watch, &created(thread));
        steps(&mut watch, &asleep);
    }
    steps(&mut watch, &[(TICK, 0)]);
    assert_eq!(watch.step(TICK, 0), Reply::Clean(ROOM as u64));
    let expected = (0..8).map(|timer| (EXPIRE, timer)).chain((0..16).map(|thread| (READY, thread)));
    let expected: Vec<(u8, u16)> = expected.chain([(SWITCH, 0)]).collect();
    assert_eq!(owed(&watch.state), expected);
    steps(&mut watch, &expected);
    assert!((0..TIMERS).all(|timer| read(&watch, timer) == Some((102, 100))));
}

/// From 1 by 1 as many are lost as the tick number says; Late is 65535 where they are more.
#[test]
fn counts_of_late() {
    let cases = [
        (65_534, 65_534),
        (65_535, 65_535),
        (65_536, 65_535),
        (3_999_999_999, 65_535),
        (4_000_000_000, 65_535),
    ];
    for (tick, late) in cases {
        let mut watch = running_at(tick);
        steps(&mut watch, &armed(4, 1, 1, late));
        assert_eq!(read(&watch, 4), Some((tick + 1, 1)));
    }
}

/// At the greatest tick number, 61036 * 65535 + 5740.
#[test]
fn last_expiries() {
    let mut watch = running_at(4_000_000_000);
    steps(&mut watch, &armed(0, 5740, 65535, 61037));
    steps(&mut watch, &armed(1, 5741, 65535, 61036));
    steps(&mut watch, &armed(2, 65535, 65535, 61036));
    steps(&mut watch, &armed(3, 65535, 0, 1));
    assert_eq!(read(&watch, 0), Some((4_000_065_535, 65535)));
    assert_eq!(read(&watch, 1), Some((4_000_000_001, 65535)));
    assert_eq!(read(&watch, 2), Some((4_000_059_795, 65535)));
    assert_eq!(read(&watch, 3), None);
    assert_eq!(watch.step(TICK, 0), Reply::Refused(refused::TICK));
}

/// An expiry that is past never comes, but its timer is armed; what is not in use changes no answer.
#[test]
fn lent_timers() {
    let mut watch = running_at(7);
    *timers(&mut watch) = Timers {
        expiries: [7, 0, 9, 0, 0, 0, 9, 0],
        periods: [1, 1, 65535, 1, 1, 1, 0, 1],
        arming: Arming {
            stage: 0,
            timer: 255,
            start: 65535,
        },
    };
    assert_eq!(watch.step(TICK, 0), Reply::Clean(0));
    assert_eq!(watch.step(TICK, 0), Reply::Clean(2));
    assert_eq!((read(&watch, 2), read(&watch, 6)), (Some((65544, 65535)), None));
    steps(&mut watch, &[(EXPIRE, 2), (EXPIRE, 6), (CANCEL, 0)]);
    assert_eq!(watch.step(CANCEL, 1), Reply::Broken(breach::NOT_ARMED));
}

/// From 0 by 3 at tick number 7: 0, 3 and 6 are lost. With a report due 31 is asked before 21, and of a Tick too.
#[test]
fn lent_armings() {
    let mut watch = running_at(7);
    timers(&mut watch).arming = Arming {
        stage: 2,
        timer: 7,
        start: 0,
    };
    let mut other = watch;
    assert_eq!(other.step(TICK, 0), Reply::Broken(breach::ARMING_ORDER));
    steps(&mut watch, &[(PERIOD, 3), (LATE, 3)]);
    assert_eq!(read(&watch, 7), Some((9, 3)));
    timers(&mut watch).arming.stage = 1;
    watch.state.given = 0;
    for (record, rule) in [
        ((LATE, 3), breach::ARMING_ORDER),
        ((TICK, 0), breach::ARMING_ORDER),
        ((START, 1), breach::REPORT_DUE),
    ] {
        other = watch;
        assert_eq!(other.step(record.0, record.1), Reply::Broken(rule));
    }
}

#[test]
fn ill_formed_states() {
    let changes: [fn(&mut Watch); 5] = [
        |w| timers(w).expiries[7] = 4_000_065_536,
        |w| timers(w).expiries[0] = u32::MAX,
        |w| timers(w).arming.stage = 3,
        |w| (timers(w).arming.stage, timers(w).arming.timer) = (1, 8),
        |w| (timers(w).arming.stage, timers(w).arming.timer) = (2, 255),
    ];
    for change in changes {
        let mut watch = running_at(7);
        change(&mut watch);
        is_refused(watch, refused::STATE, TICK, 0);
    }
    for (kind, operand) in [(15, 0), (23, 0), (READY, 1), (SWITCH, 255), (EXPIRE, 8), (EXPIRE, NOBODY)] {
        let mut watch = running_at(7);
        owe(&mut watch, &[(kind, operand)]);
        is_refused(watch, refused::STATE, TICK, 0);
    }
}

/// One thread: ten reports may be due, of which the last is a Switch, and no more.
#[test]
fn lent_most_reports() {
    let mut watch = running_at(7);
    owe(&mut watch, &[[(LATE, 9); ROOM - 1].as_slice(), &[(SWITCH, 0)]].concat());
    watch.state.given = 15;
    assert_eq!((watch.state.owed().len(), watch.step(LATE, 9)), (10, Reply::Clean(9)));
    watch.state.given = 14;
    is_refused(watch, refused::STATE, TICK, 0);
}

/// The readers answer of any state, also where question 12 would refuse it.
#[test]
fn readers_answer_of_any_state() {
    let mut watch = running_at(7);
    assert_eq!(watch.state.machine.timers.armed(8), None);
    for (count, given) in [(26, 0), (usize::MAX, 3), (1, 2), (0, usize::MAX)] {
        (watch.state.due.count, watch.state.given) = (count, given);
        assert!(watch.state.owed().is_empty());
    }
    timers(&mut watch).arming.stage = 3;
    assert_eq!(watch.state.machine.timers.arming.begun(), None);
}
