//! A Tick between a call and its reports: document 02, item 4, with answers worked out by hand.

mod lists;

use lists::{bytes, calls_only};
use second::{bench, check_with, Fault, Parts, Reply, Verdict, Watch, NOBODY};

type Numbers = (u8, u16);

const TICK: Numbers = (7, 0);

const ONE: &[u8] = &[1, 0, 1, 0, 0];
/// Thread 1 is the more urgent one.
const TWO: &[u8] = &[2, 0, 1, 2, 0, 0, 0, 0];
/// The same, and both need section 0.
const SHARED: &[u8] = &[2, 1, 1, 2, 1, 0, 1, 0];

/// What is due behind these records, all of them clean.
fn due(plan: &[u8], records: &[Numbers]) -> Vec<Numbers> {
    stepped(plan, records).parts().due.clone()
}

fn stepped(plan: &[u8], records: &[Numbers]) -> Watch {
    let mut watch = Watch::new(plan).unwrap();
    for (kind, operand) in records {
        let reply = watch.step(*kind, *operand);
        assert!(matches!(reply, Reply::Clean { .. }), "{kind} {operand}: {reply:?}");
    }
    watch
}

fn verdict(fault: Fault, plan: &[u8], records: &[Numbers]) -> Verdict {
    check_with(fault, plan, &bytes(records))
}

/// The thread is created and runs.
fn started(thread: u16) -> [Numbers; 3] {
    [(1, thread), (16, thread), (17, thread)]
}

/// Thread 0 runs and has delayed by one, so that it wakes at 2; Switch to nobody is due.
fn delayed() -> Vec<Numbers> {
    [&started(0)[..], &[(2, 1)]].concat()
}

/// Thread 0 runs, and timer 0 is armed from that start on.
fn armed(start: u16, period: u16) -> Vec<Numbers> {
    [&started(0)[..], &[(8, 0), (9, start), (10, period), (22, 0)]].concat()
}

#[test]
fn the_known_run_p6() {
    let records = [&delayed()[..], &[(17, NOBODY), TICK, TICK, TICK]].concat();
    assert_eq!(verdict(Fault::None, ONE, &records), Verdict::Clean { records: 8, due: 2 });
    assert_eq!(due(ONE, &records), [(16, 0), (17, 0)]);
    assert_eq!(verdict(Fault::Rule21OfTick, ONE, &records), Verdict::Breach { record: 7, rule: 21 });
}

#[test]
fn a_dropped_switch_is_due_again() {
    // Nobody was reported before the Switch to 0, and 0 is still the chosen one.
    let records = [(1, 0), TICK];
    assert_eq!(due(ONE, &records), [(16, 0), (17, 0)]);
    assert_eq!(stepped(ONE, &records).parts().given, NOBODY);
    let faulty = |fault| verdict(fault, ONE, &[(1, 0), TICK, (16, 0)]);
    assert_eq!(faulty(Fault::None), Verdict::Clean { records: 3, due: 1 });
    assert_eq!(faulty(Fault::ReportedFromDroppedSwitch), Verdict::Clean { records: 3, due: 0 });
    assert_eq!(faulty(Fault::SwitchMovedToFront), Verdict::Breach { record: 2, rule: 29 });
}

#[test]
fn a_dropped_switch_that_is_not_due_again() {
    // Thread 0 wakes at 2 before the Switch to nobody is given: it was last reported, and goes on.
    let records = [&delayed()[..], &[TICK, TICK]].concat();
    assert_eq!(due(ONE, &records), [(16, 0)]);
    let given = [&records[..], &[(16, 0)]].concat();
    assert_eq!(verdict(Fault::None, ONE, &given), Verdict::Clean { records: 7, due: 0 });
    assert_eq!(
        verdict(Fault::SwitchKeptAtTick, ONE, &given),
        Verdict::Breach { record: 6, rule: 29 }
    );
    // The thread that goes on may call at once.
    assert_eq!(
        verdict(Fault::None, ONE, &[&given[..], &[(2, 1)]].concat()),
        Verdict::Clean { records: 8, due: 1 }
    );
}

#[test]
fn a_dropped_switch_with_another_in_its_place() {
    // Thread 1 wakes at 2, while the Switch to nobody behind the Delay of 0 is due.
    let records = [&started(0)[..], &started(1), &[(2, 1), (17, 0), TICK, (2, 9), TICK]].concat();
    assert_eq!(due(TWO, &records), [(16, 1), (17, 1)]);
}

#[test]
fn what_is_due_keeps_its_place_before_what_the_tick_adds() {
    // Thread 0 gives section 0 to the waiting 1: Won, Ready, Switch. Timer 0 expires at 1.
    let waiting = [&started(0)[..], &[(5, 0), (18, 0)], &started(1), &[(5, 0), (19, 1), (17, 0)]].concat();
    let armed = [&waiting[..], &[(8, 0), (9, 1), (10, 0), (22, 0)]].concat();
    let records = [&armed[..], &[(6, 0), TICK]].concat();
    assert_eq!(due(SHARED, &records), [(18, 1), (16, 1), (21, 0), (17, 1)]);
    // With the Won given before the Tick.
    let later = [&armed[..], &[(6, 0), (18, 1), TICK, TICK]].concat();
    assert_eq!(due(SHARED, &later), [(16, 1), (21, 0), (17, 1)]);
}

#[test]
fn an_expire_owed_is_not_owed_twice_and_its_timer_moves_on() {
    let records = [&armed(1, 2)[..], &[TICK, TICK, TICK, TICK]].concat();
    let watch = stepped(ONE, &records);
    assert_eq!((&watch.parts().due[..], watch.parts().timers[0]), (&[(21, 0)][..], (5, 2)));
    let given = [&records[..], &[(21, 0), TICK]].concat();
    assert_eq!(due(ONE, &given), [(21, 0)]);
    let due_with = |fault, records: &[Numbers]| match verdict(fault, ONE, records) {
        Verdict::Clean { due, .. } => due,
        other => panic!("{other}"),
    };
    assert_eq!(due_with(Fault::None, &given), 1);
    assert_eq!(due_with(Fault::ExpireOwedTwice, &records), 2);
    // It stood still at 3, so that 5 finds it past.
    assert_eq!(due_with(Fault::OwedTimerStands, &given), 0);
}

#[test]
fn an_alarm_owed_an_expire_is_unarmed() {
    // In a lent state an alarm may be owed an Expire and expire once more.
    let parts = Parts {
        tick: 7,
        timers: std::array::from_fn(|timer| if timer == 3 { (8, 0) } else { (0, 0) }),
        due: vec![(21, 3), (21, 3)],
        ..stepped(ONE, &started(0)).parts().clone()
    };
    let mut watch = Watch::from_parts(parts);
    assert_eq!(watch.step(7, 0), Reply::Clean { due: 2 });
    assert_eq!(watch.parts().timers[3], (0, 0));
}

#[test]
fn a_delay_runs_from_its_record() {
    // The first Tick counts, though the Switch behind the Delay was not given yet.
    let records = [&delayed()[..], &[TICK, (17, NOBODY), TICK]].concat();
    assert_eq!(due(ONE, &records), [(16, 0), (17, 0)]);
    let due_with = |fault, ticks: usize| verdict(fault, ONE, &[&records[..], &vec![TICK; ticks]].concat());
    assert_eq!(due_with(Fault::None, 0), Verdict::Clean { records: 7, due: 2 });
    assert_eq!(due_with(Fault::DelayFromSwitch, 0), Verdict::Clean { records: 7, due: 0 });
    assert_eq!(due_with(Fault::DelayFromSwitch, 1), Verdict::Clean { records: 8, due: 2 });
}

#[test]
fn other_calls_still_wait_and_rule_31_is_asked_first_of_a_tick() {
    let with_due = [&delayed()[..], &[TICK]].concat();
    for call in [(1, 0), (2, 1), (3, 0), (4, 0), (8, 0), (11, 0)] {
        let records = [&with_due[..], &[call]].concat();
        assert_eq!(verdict(Fault::None, ONE, &records), Verdict::Breach { record: 5, rule: 21 });
    }
    let inside = [&started(0)[..], &[(8, 0), TICK]].concat();
    for fault in [Fault::None, Fault::Rule21OfTick] {
        assert_eq!(verdict(fault, ONE, &inside), Verdict::Breach { record: 4, rule: 31 });
    }
}

#[test]
fn ticks_alone_reach_nine_more_than_the_threads() {
    let mut records = started(0).to_vec();
    for timer in 0..8 {
        records.extend([(8, timer), (9, 1 + timer % 3), (10, 1), (22, 0)]);
    }
    // At 3 every timer is owed its one Expire and thread 0 is woken. Nobody was reported before: the Switch to 0 is due.
    records.extend([(2, 2), (17, NOBODY), TICK, TICK, TICK]);
    let order = [0, 3, 6, 1, 4, 7, 2, 5].map(|timer| (21, timer));
    assert_eq!(due(ONE, &records), [&order[..], &[(16, 0), (17, 0)]].concat());
    // However many follow.
    records.extend([TICK; 9]);
    assert_eq!(due(ONE, &records).len(), 10);
}

#[test]
fn the_bench_gives_every_report_before_its_next_call() {
    // Clean with nothing due; but from its calls the bench writes P4, in which the Switches come before the Ticks.
    let interrupted = [&delayed()[..], &[TICK, TICK, (16, 0)]].concat();
    let p4 = [&delayed()[..], &[(17, NOBODY), TICK, TICK, (16, 0), (17, 0)]].concat();
    let mut out = vec![0; bytes(&p4).len()];
    assert_eq!(bench(ONE, &bytes(&calls_only(&interrupted)), &mut out), Ok(9));
    assert_eq!(out, bytes(&p4));
}
