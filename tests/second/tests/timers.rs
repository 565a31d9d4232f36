//! Alarms and periodic timers: document 02, item 1, with answers worked out by hand.

use second::{check, lost, Parts, Reply, Verdict, Watch, LAST_EXPIRY, LAST_TICK, NOBODY};

const TICK: (u8, u16) = (7, 0);

/// One thread, started: it runs at tick number 0 with nothing due.
fn started() -> Watch {
    let mut watch = Watch::new(&[1, 0, 1, 0, 0]).unwrap();
    steps(&mut watch, &[(1, 0), (16, 0), (17, 0)]);
    watch
}

/// Steps that are all clean; what is due after the last.
fn steps(watch: &mut Watch, records: &[(u8, u16)]) -> Vec<(u8, u16)> {
    for (kind, operand) in records {
        let reply = watch.step(*kind, *operand);
        assert!(matches!(reply, Reply::Clean { .. }), "{kind} {operand}: {reply:?}");
    }
    watch.parts().due.clone()
}

fn ticks(watch: &mut Watch, number: usize) {
    assert_eq!(steps(watch, &vec![TICK; number]), []);
}

fn arming(timer: u16, start: u16, period: u16) -> [(u8, u16); 3] {
    [(8, timer), (9, start), (10, period)]
}

#[test]
fn the_count_lost_is_the_least() {
    for start in 0..30 {
        for period in 1..12 {
            for tick in 0..60 {
                let least = (0..).find(|j| start + j * period > tick).unwrap();
                assert_eq!(lost(start, period, tick), least, "{start} {period} {tick}");
            }
        }
    }
    // At the last tick number the definition itself: above at j, and not before.
    for start in [1, 2, 255, 65534, 65535] {
        for period in [1, 2, 3, 7, 255, 256, 61035, 65534, 65535] {
            let j = lost(start, period, LAST_TICK);
            assert!(start + j * period > LAST_TICK && start + (j - 1) * period <= LAST_TICK);
        }
    }
}

#[test]
fn an_alarm_expires_at_its_start_and_is_unarmed() {
    let mut watch = started();
    assert_eq!(steps(&mut watch, &arming(3, 2, 0)), [(22, 0)]);
    assert_eq!(watch.parts().timers[3], (2, 0));
    steps(&mut watch, &[(22, 0)]);
    ticks(&mut watch, 1);
    assert_eq!(steps(&mut watch, &[TICK]), [(21, 3)]);
    assert_eq!(watch.parts().timers[3], (0, 0));
    steps(&mut watch, &[(21, 3)]);
    assert_eq!(watch.step(11, 3), Reply::Broken(32));
}

#[test]
fn a_periodic_timer_expires_again_a_period_later() {
    let mut watch = started();
    steps(&mut watch, &arming(0, 1, 2));
    steps(&mut watch, &[(22, 0)]);
    for _ in 0..3 {
        assert_eq!(steps(&mut watch, &[TICK]), [(21, 0)]);
        steps(&mut watch, &[(21, 0)]);
        ticks(&mut watch, 1);
    }
    // Ticks 1, 3 and 5 are over, at tick number 6; it is armed for 7.
    assert_eq!(watch.parts().timers[0], (7, 2));
    assert_eq!(steps(&mut watch, &[(11, 0)]), []);
    ticks(&mut watch, 3);
}

#[test]
fn a_start_at_the_tick_number_is_too_late() {
    let mut watch = started();
    ticks(&mut watch, 5);
    // An alarm has lost one and is not armed.
    assert_eq!(steps(&mut watch, &arming(1, 5, 0)), [(22, 1)]);
    assert_eq!(watch.parts().timers[1], (0, 0));
    // 5 + 1 × 4 is above 5: one lost.
    steps(&mut watch, &[(22, 1)]);
    assert_eq!(steps(&mut watch, &arming(1, 5, 4)), [(22, 1)]);
    assert_eq!(watch.parts().timers[1], (9, 4));
    // 1 + 1 × 4 is 5, not above 5; 1 + 2 × 4 is 9.
    steps(&mut watch, &[(22, 1)]);
    assert_eq!(steps(&mut watch, &arming(2, 1, 4)), [(22, 2)]);
    assert_eq!(watch.parts().timers[2], (9, 4));
    // 2 + 1 × 4 is 6.
    steps(&mut watch, &[(22, 2)]);
    assert_eq!(steps(&mut watch, &arming(3, 2, 4)), [(22, 1)]);
    assert_eq!(watch.parts().timers[3], (6, 4));
}

#[test]
fn arming_an_armed_timer_replaces_it() {
    let mut watch = started();
    ticks(&mut watch, 2);
    steps(&mut watch, &arming(4, 9, 1));
    steps(&mut watch, &[(22, 0)]);
    steps(&mut watch, &arming(4, 7, 0));
    assert_eq!(watch.parts().timers[4], (7, 0));
    steps(&mut watch, &[(22, 0)]);
    // Until Period the old one stands.
    steps(&mut watch, &arming(4, 1, 0)[..2]);
    assert_eq!((watch.parts().timers[4], watch.parts().arming), ((7, 0), (2, 4, 1)));
    // An alarm too late leaves it unarmed.
    assert_eq!(steps(&mut watch, &[(10, 0)]), [(22, 1)]);
    assert_eq!((watch.parts().timers[4], watch.parts().arming), ((0, 0), (0, 0, 0)));
}

#[test]
fn expires_by_number_then_readys_then_switch() {
    let mut watch = started();
    for timer in [5, 1, 7] {
        steps(&mut watch, &arming(timer, 2, 0));
        steps(&mut watch, &[(22, 0)]);
    }
    steps(&mut watch, &[(2, 1), (17, NOBODY), TICK]);
    assert_eq!(steps(&mut watch, &[TICK]), [(21, 1), (21, 5), (21, 7), (16, 0), (17, 0)]);
}

#[test]
fn at_most_nine_more_than_the_threads_are_due() {
    let mut watch = started();
    for timer in 0..8 {
        steps(&mut watch, &arming(timer, 2, 1));
        steps(&mut watch, &[(22, 0)]);
    }
    steps(&mut watch, &[(2, 1), (17, NOBODY), TICK]);
    assert_eq!(steps(&mut watch, &[TICK]).len(), 10);
    assert_eq!(watch.step(21, 0), Reply::Clean { due: 9 });
}

/// The state of one running thread at that tick number, with an arming behind its Start.
fn arming_at(tick: u64, start: u16) -> Watch {
    Watch::from_parts(Parts {
        tick,
        arming: (2, 6, start),
        ..started().parts().clone()
    })
}

#[test]
fn the_count_is_cut_at_65535() {
    // From 1 in ones: at 65535 there are 65535 lost, one tick later one more, and both are written alike.
    for (tick, count) in [(65534, 65534), (65535, 65535), (65536, 65535), (131072, 65535), (LAST_TICK, 65535)] {
        let mut watch = arming_at(tick, 1);
        assert_eq!(steps(&mut watch, &[(10, 1)]), [(22, count)]);
        assert_eq!(watch.parts().timers[6], (tick + 1, 1));
    }
    // 5740 + 61036 × 65535 is 4,000,000,000, not above it: one more, and the greatest expiry that there is.
    let mut watch = arming_at(LAST_TICK, 5740);
    assert_eq!(steps(&mut watch, &[(10, 65535)]), [(22, 61037)]);
    assert_eq!(watch.parts().timers[6], (LAST_EXPIRY, 65535));
}

#[test]
fn rule_31_is_asked_first_of_every_record() {
    let inside = |arming, due: &[(u8, u16)]| {
        Watch::from_parts(Parts {
            arming,
            due: due.to_vec(),
            ..started().parts().clone()
        })
    };
    // Everything but the call that is next, with a report due or without.
    let others = [
        (1, 0),
        (2, 1),
        (3, 0),
        (4, 0),
        TICK,
        (8, 0),
        (11, 0),
        (16, 0),
        (17, 0),
        (21, 0),
        (22, 0),
    ];
    for due in [&[][..], &[(16, 0)]] {
        for (kind, operand) in others {
            assert_eq!(inside((1, 0, 0), due).step(kind, operand), Reply::Broken(31));
            assert_eq!(inside((2, 0, 1), due).step(kind, operand), Reply::Broken(31));
        }
        assert_eq!(inside((1, 0, 0), due).step(10, 0), Reply::Broken(31));
        assert_eq!(inside((2, 0, 1), due).step(9, 1), Reply::Broken(31));
        assert_eq!(inside((0, 0, 1), due).step(9, 1), Reply::Broken(31));
        assert_eq!(inside((0, 0, 1), due).step(10, 0), Reply::Broken(31));
    }
    assert_eq!(inside((1, 0, 0), &[(16, 0)]).step(9, 1), Reply::Broken(21));
    assert_eq!(inside((2, 0, 1), &[(16, 0)]).step(10, 1), Reply::Broken(21));
    assert_eq!(inside((1, 0, 0), &[]).step(9, 1), Reply::Clean { due: 0 });
}

#[test]
fn rule_22_is_asked_of_timer_calls_and_before_32() {
    for (kind, operand) in [(8, 0), (11, 0)] {
        assert_eq!(Watch::new(&[1, 0, 1, 0, 0]).unwrap().step(kind, operand), Reply::Broken(22));
    }
    // Nobody is ready though an arming is in progress, which no run leads to.
    for (arming, record) in [((1, 0, 0), (9, 1)), ((2, 0, 1), (10, 0))] {
        let idle = Watch::new(&[1, 0, 1, 0, 0]).unwrap().parts().clone();
        let mut watch = Watch::from_parts(Parts { arming, ..idle });
        assert_eq!(watch.step(record.0, record.1), Reply::Broken(22));
    }
}

#[test]
fn operands_and_kinds() {
    let mut watch = started();
    for (kind, operand) in [(8, 8), (8, 256), (9, 0), (11, 8), (21, 8), (21, 65535)] {
        assert_eq!(watch.step(kind, operand), Reply::Refused(8), "{kind} {operand}");
    }
    for kind in [0, 12, 13, 14, 15, 23, 255] {
        assert_eq!(watch.step(kind, 0), Reply::Refused(7), "{kind}");
    }
    assert_eq!(watch.step(22, 65535), Reply::Broken(28));
}

#[test]
fn a_dump_may_end_inside_an_arming() {
    let dump = [4, 0, 1, 16, 17, 8, 0, 0, 0, 0, 0, 0, 7, 0];
    assert_eq!(check(&[1, 0, 1, 0, 0], &dump), Verdict::Clean { records: 4, due: 0 });
}
