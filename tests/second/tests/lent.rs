//! The live step: questions 12, 7, 8 and 13, the stored breach, and lent states.

use second::{Fault, Parts, Reply, Top, Watch, LAST_EXPIRY, LAST_SLEEPER, LAST_TICK, NOBODY};

/// Threads 0 (ready, holds section 0 of ceiling 3), 1 (waits for 0), 2 (asleep) and 3 (dormant). Timer 2 is an alarm at 9, and 5 expires
/// every third tick from 8 on.
fn good() -> Parts {
    Parts {
        threads: 4,
        sections: 2,
        bases: vec![1, 2, 3, 4],
        needs: vec![3, 3, 1, 0],
        tick: 7,
        conditions: vec![(1, 0), (3, 0), (2, 9), (0, 0)],
        line: vec![0],
        holds: vec![(0, 0)],
        top: Top {
            owner: Some(0),
            ceiling: 3,
        },
        waits: vec![1],
        delays: vec![2],
        timers: [(0, 0), (0, 0), (9, 0), (0, 0), (0, 0), (8, 3), (0, 0), (0, 0)],
        arming: (0, 0, 0),
        given: 0,
        due: Vec::new(),
        stored: 0,
    }
}

fn reply(change: impl FnOnce(&mut Parts), kind: u8, operand: u16) -> Reply {
    let mut parts = good();
    change(&mut parts);
    let mut watch = Watch::from_parts(parts.clone());
    let reply = watch.step(kind, operand);
    if matches!(reply, Reply::Refused(_)) {
        assert_eq!(*watch.parts(), parts, "a refusal keeps the state");
    }
    reply
}

/// A change of the good state after which every step, even of kind 0, answers 12. With a report due the change alone decides: who was last
/// reported is not asked then.
fn is_12(change: impl Fn(&mut Parts)) {
    assert_eq!(reply(&change, 0, 0), Reply::Refused(12));
    assert_eq!(reply(with_a_report_due(change), 0, 0), Reply::Refused(12));
}

/// A change of the good state that answers 12 with nothing due, and passes with a report due.
fn is_12_with_nothing_due(change: impl Fn(&mut Parts)) {
    assert_eq!(reply(&change, 0, 0), Reply::Refused(12));
    assert_eq!(reply(with_a_report_due(change), 0, 0), Reply::Refused(7));
}

fn with_a_report_due(change: impl Fn(&mut Parts)) -> impl Fn(&mut Parts) {
    move |parts| {
        parts.due = vec![(16, 0)];
        change(parts);
    }
}

/// A change of the good state that question 12 lets pass: kind 0 then answers 7.
fn passes(change: impl FnOnce(&mut Parts)) {
    assert_eq!(reply(change, 0, 0), Reply::Refused(7));
}

#[test]
fn plan_out_of_range() {
    passes(|_| {});
    is_12(|p| p.threads = 0);
    is_12(|p| p.threads = 17);
    is_12(|p| p.threads = 3);
    is_12(|p| p.sections = 17);
    is_12(|p| p.bases[3] = 0);
    is_12(|p| p.bases[3] = 65);
    is_12(|p| p.needs[3] = 4);
}

#[test]
fn numbers_out_of_range() {
    is_12(|p| p.line.push(4));
    is_12(|p| p.waits.push(4));
    is_12(|p| p.holds.push((2, 0)));
    is_12(|p| p.holds.push((1, 4)));
    is_12(|p| p.conditions[1].1 = 2);
    is_12(|p| p.given = 4);
    is_12(|p| p.stored = 20);
    is_12(|p| p.stored = 33);
    passes(|p| p.stored = 21);
    passes(|p| p.stored = 32);
    passes(|p| p.tick = LAST_TICK);
    is_12(|p| p.tick = LAST_TICK + 1);
    passes(|p| p.conditions[2].1 = LAST_SLEEPER);
    is_12(|p| p.conditions[2].1 = LAST_SLEEPER + 1);
    passes(|p| p.conditions[3].1 = LAST_SLEEPER + 1);
}

#[test]
fn reports_out_of_range() {
    passes(|p| p.due = vec![(16, 3), (18, 0), (19, 1), (20, 2), (21, 7), (22, NOBODY), (17, NOBODY)]);
    is_12(|p| p.due = vec![(15, 0)]);
    is_12(|p| p.due = vec![(23, 0)]);
    is_12(|p| p.due = vec![(17, 4)]);
    is_12(|p| p.due = vec![(21, 8)]);
    is_12(|p| p.due = vec![(21, 256)]);
    for kind in [16, 18, 19, 20] {
        is_12(|p| p.due = vec![(kind, NOBODY)]);
    }
}

/// That many Readys, and these behind them.
fn readys_and(number: usize, behind: &[(u8, u16)]) -> Vec<(u8, u16)> {
    [&vec![(16, 0); number], behind].concat()
}

#[test]
fn a_switch_due_is_the_last() {
    passes(|p| p.due = vec![(17, 0)]);
    passes(|p| p.due = readys_and(2, &[(17, NOBODY)]));
    for due in [
        readys_and(0, &[(17, 0), (16, 0)]),
        readys_and(0, &[(17, 0), (17, 0)]),
        readys_and(1, &[(17, NOBODY), (21, 0)]),
        readys_and(2, &[(17, 0), (16, 1), (17, 0)]),
    ] {
        is_12(|p| p.due = due.clone());
        let parts = Parts { due, ..good() };
        let mut faulty = Watch::from_parts_with(Fault::SwitchDueAnywhere, parts);
        assert_eq!(faulty.step(0, 0), Reply::Refused(7));
    }
}

#[test]
fn reports_due_sleepers_and_timers_and_one_are_at_most_nine_more_than_the_threads() {
    // T + 9 is 13. One sleeper, two armed timers and one leave room for nine, and a Switch.
    passes(|p| p.due = readys_and(9, &[]));
    passes(|p| p.due = readys_and(9, &[(17, 1)]));
    is_12(|p| p.due = readys_and(10, &[]));
    // Timers 2 and 5 are armed; once owed an Expire they are not counted again, but each Expire is, and that of timer 0.
    passes(|p| p.due = readys_and(9, &[(21, 2), (21, 5)]));
    is_12(|p| p.due = readys_and(10, &[(21, 2), (21, 5)]));
    passes(|p| p.due = readys_and(8, &[(21, 2), (21, 2)]));
    is_12(|p| p.due = readys_and(9, &[(21, 2), (21, 2)]));
    is_12(|p| p.due = readys_and(9, &[(21, 0)]));
    // One sleeper more, and one armed timer more or less.
    let asleep = |p: &mut Parts, number| (p.conditions[3], p.delays, p.due) = ((2, 9), vec![2, 3], readys_and(number, &[]));
    passes(|p| asleep(p, 8));
    is_12(|p| asleep(p, 9));
    let armed = |p: &mut Parts, number| (p.timers[0], p.due) = ((3, 0), readys_and(number, &[]));
    passes(|p| armed(p, 8));
    is_12(|p| armed(p, 9));
    passes(|p| (p.timers[2], p.due) = ((0, 0), readys_and(10, &[])));
    is_12(|p| (p.timers[2], p.due) = ((0, 0), readys_and(11, &[])));
}

#[test]
fn nothing_but_reports() {
    let idle = |p: &mut Parts, due| (p.conditions[2], p.delays, p.timers, p.due) = ((0, 0), Vec::new(), Parts::default().timers, due);
    passes(|p| idle(p, readys_and(12, &[(17, 0)])));
    // T + 9 reports, none of them a Switch.
    is_12(|p| idle(p, readys_and(13, &[])));
    is_12(|p| idle(p, readys_and(13, &[(17, 0)])));
    is_12(|p| idle(p, readys_and(14, &[])));
}

#[test]
fn the_mistakes_about_what_is_counted() {
    let passes_with = |fault, due: Vec<(u8, u16)>| {
        let mut watch = Watch::from_parts_with(fault, Parts { due, ..good() });
        watch.step(0, 0) == Reply::Refused(7)
    };
    assert!(!passes_with(Fault::SwitchAmongClaims, readys_and(9, &[(17, 1)])));
    assert!(!passes_with(Fault::OwedTimersAmongClaims, readys_and(9, &[(21, 2), (21, 5)])));
    assert!(passes_with(Fault::ClaimsWithoutOne, readys_and(10, &[])));
}

#[test]
fn timers_out_of_range() {
    passes(|p| p.timers[0] = (LAST_EXPIRY, 65535));
    is_12(|p| p.timers[0] = (LAST_EXPIRY + 1, 1));
    passes(|p| p.timers[0] = (0, 65535));
    passes(|p| p.timers[0] = (1, 0));
    passes(|p| p.arming = (0, 8, 65535));
    passes(|p| p.arming = (1, 7, 0));
    is_12(|p| p.arming = (1, 8, 0));
    passes(|p| p.arming = (2, 7, 0));
    is_12(|p| p.arming = (2, 8, 1));
    is_12(|p| p.arming = (3, 0, 1));
    passes(|p| (p.arming, p.due) = ((2, 0, 1), vec![(22, 0)]));
}

#[test]
fn lists_and_conditions() {
    is_12(|p| p.holds.insert(0, (0, 1)));
    passes(|p| p.holds.push((1, 1)));
    is_12(|p| p.line.push(0));
    is_12(|p| p.waits.push(1));
    is_12(|p| p.line.push(1));
    is_12(|p| p.line.push(3));
    is_12(|p| p.waits.push(2));
    is_12(|p| p.line.clear());
    is_12(|p| p.waits.clear());
    is_12(|p| p.conditions[0].0 = 0);
    is_12(|p| p.conditions[3].0 = 4);
    is_12(|p| p.conditions[3].0 = 1);
    is_12(|p| p.conditions.truncate(3));
    is_12(|p| p.conditions.push((0, 0)));
}

#[test]
fn the_order_of_delays_names_each_sleeper_just_once_and_nobody_else() {
    is_12(|p| p.delays.clear());
    is_12(|p| p.delays.push(2));
    for other in [0, 1, 3, 4, 15] {
        is_12(|p| p.delays.push(other));
        is_12(|p| p.delays.insert(0, other));
        is_12(|p| p.delays = vec![other]);
    }
    // Two sleepers, in either order.
    let two = |p: &mut Parts, order: &[u16]| (p.conditions[3], p.delays) = ((2, 9), order.to_vec());
    passes(|p| two(p, &[2, 3]));
    passes(|p| two(p, &[3, 2]));
    for order in [&[][..], &[2], &[3], &[2, 2], &[3, 3], &[2, 3, 2], &[2, 3, 3], &[2, 0]] {
        is_12(|p| two(p, order));
    }
}

#[test]
fn with_nothing_due_the_chosen_thread_is_the_last_reported() {
    for other in [1, 2, 3, NOBODY] {
        is_12_with_nothing_due(|p| p.given = other);
    }
    // Thread 3 of base 4 is ready too, and chosen.
    let joined = |p: &mut Parts, given| (p.conditions[3], p.line, p.given) = ((1, 0), vec![0, 3], given);
    is_12_with_nothing_due(|p| joined(p, 0));
    passes(|p| joined(p, 3));
    // With base 1 and in front of 0 it is not: 0 is raised to 2.
    let equal = |p: &mut Parts, given| (p.conditions[3], p.line, p.bases[3], p.given) = ((1, 0), vec![3, 0], 1, given);
    is_12_with_nothing_due(|p| equal(p, 3));
    passes(|p| equal(p, 0));
    // Nobody is ready.
    let empty = |p: &mut Parts, given| (p.conditions[0], p.line, p.given) = ((0, 0), Vec::new(), given);
    is_12_with_nothing_due(|p| empty(p, 0));
    passes(|p| empty(p, NOBODY));
}

#[test]
fn a_step_may_leave_a_state_that_answers_12() {
    // The last report is given, no Switch is due, and 0 is chosen though 2 was last reported.
    let mut watch = Watch::from_parts(Parts {
        given: 2,
        due: vec![(16, 0)],
        ..good()
    });
    assert_eq!(watch.step(16, 0), Reply::Clean { due: 0 });
    let left = watch.parts().clone();
    for (kind, operand) in [(3, 0), (7, 0), (17, 0), (0, 0)] {
        assert_eq!(watch.step(kind, operand), Reply::Refused(12));
        assert_eq!(*watch.parts(), left);
    }
}

#[test]
fn seven_eight_and_thirteen_in_order() {
    assert_eq!(reply(|_| {}, 12, 0), Reply::Refused(7));
    assert_eq!(reply(|_| {}, 1, 4), Reply::Refused(8));
    assert_eq!(reply(|p| p.tick = LAST_TICK, 7, 1), Reply::Refused(8));
    assert_eq!(reply(|p| p.tick = LAST_TICK, 7, 0), Reply::Refused(13));
    assert_eq!(reply(|p| p.tick = LAST_TICK, 3, 0), Reply::Clean { due: 0 });
    // Asked before any rule, and before the stored breach answers.
    let busy = |p: &mut Parts| (p.tick, p.stored, p.due) = (LAST_TICK, 24, vec![(16, 0)]);
    assert_eq!(reply(busy, 7, 0), Reply::Refused(13));
    assert_eq!(reply(busy, 3, 0), Reply::Broken(24));
}

#[test]
fn a_breach_is_stored_and_answered_again() {
    let mut watch = Watch::new(&[1, 0, 1, 0, 0]).unwrap();
    assert_eq!(watch.step(1, 0), Reply::Clean { due: 2 });
    let before = watch.parts().clone();
    assert_eq!(watch.step(3, 0), Reply::Broken(21));
    assert_eq!(*watch.parts(), Parts { stored: 21, ..before });
    assert_eq!(watch.step(16, 0), Reply::Broken(21));
    assert_eq!(watch.step(7, 0), Reply::Broken(21));
    assert_eq!(watch.step(7, 1), Reply::Refused(8));
    assert_eq!(watch.step(0, 0), Reply::Refused(7));
    assert_eq!(Watch::new(&[1]), Err(1));
    assert_eq!(Watch::new(&[1, 0]), Err(2));
}

#[test]
fn the_last_ticks() {
    let mut parts = good();
    parts.tick = LAST_TICK - 1;
    parts.conditions[2].1 = LAST_TICK;
    let mut watch = Watch::from_parts(parts);
    assert_eq!(watch.step(7, 0), Reply::Clean { due: 2 });
    assert_eq!(watch.parts().due, vec![(16, 2), (17, 2)]);
    assert_eq!(watch.step(16, 2), Reply::Clean { due: 1 });
    assert_eq!(watch.step(17, 2), Reply::Clean { due: 0 });
    assert_eq!(watch.step(2, 65535), Reply::Clean { due: 1 });
    assert_eq!(
        (watch.parts().conditions[2], &watch.parts().delays[..]),
        ((2, LAST_SLEEPER), &[2][..])
    );
}

#[test]
fn a_due_switch_counts_as_reported() {
    // The Switch due names the chosen thread 0, so it is popped and nothing new is owed.
    let mut parts = good();
    parts.given = NOBODY;
    parts.due = vec![(17, 0)];
    let mut watch = Watch::from_parts(parts);
    assert_eq!(watch.step(17, 0), Reply::Clean { due: 0 });
    assert_eq!(watch.parts().given, 0);
    assert_eq!(watch.step(3, 0), Reply::Clean { due: 0 });
}

#[test]
fn a_past_sleeper_sleeps_on() {
    // "Sleepers whose tick number this is": 3 has passed at 7, so nobody wakes at 8. Timer 5 expires.
    let change = |p: &mut Parts| p.conditions[2].1 = 3;
    assert_eq!(reply(change, 7, 0), Reply::Clean { due: 1 });
}
