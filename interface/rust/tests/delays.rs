//! The order of Delays and the thread reported in the watch state: what the library writes, and what it reads from states made here.
mod known;

use beltcairn::kind::{DELAY, LATE, READY, RELINQUISH, SWITCH, TICK};
use beltcairn::packed::{numbers, word};
use beltcairn::{breach, refused, Queue, Reply, Watch, NOBODY};
use known::started;
use known::states::{is_refused, largest, listed, made, made_owing, owed, steps, NOTHING_HELD};

/// The Readys of these threads in order, and the Switch behind them.
fn woken(threads: &[u16], first: u16) -> Vec<(u8, u16)> {
    threads.iter().map(|thread| (READY, *thread)).chain([(SWITCH, first)]).collect()
}

/// Sixteen threads start, each more urgent than those before it, and sleep until 2, so the highest number first: every entry is in use.
#[test]
fn all_threads_asleep() {
    let mut watch = largest();
    for thread in 0..16 {
        steps(&mut watch, &started(thread));
    }
    for thread in (0..15).rev() {
        steps(&mut watch, &[(DELAY, 1), (SWITCH, thread)]);
    }
    steps(&mut watch, &[(DELAY, 1), (SWITCH, NOBODY)]);
    let m = &watch.state.machine;
    assert_eq!((m.delays.items, m.delays.count), (0x0123_4567_89ab_cdef, 16));
    assert_eq!((m.slots.states, m.queue.count), (0x2222_2222_2222_2222, 0));
    steps(&mut watch, &[(TICK, 0), (TICK, 0)]);
    let falling: Vec<u16> = (0..16).rev().collect();
    assert_eq!(owed(&watch.state), woken(&falling, 15));
    let m = &watch.state.machine;
    assert_eq!((m.delays.count, m.queue.items, m.queue.count), (0, 0x0123_4567_89ab_cdef, 16));
}

/// Sixteen threads start and sleep in turn in a mixed order, even ones until 2 and odd ones until 3: those that sleep on keep their order.
#[test]
fn threads_asleep_in_mixed_order() {
    let (even, odd) = ([0, 14, 12, 10, 8, 6, 4, 2], [7, 5, 3, 1, 15, 13, 11, 9]);
    let mut watch = largest();
    for (even, odd) in even.into_iter().zip(odd) {
        steps(&mut watch, &started(even));
        steps(&mut watch, &[(DELAY, 1), (SWITCH, NOBODY)]);
        steps(&mut watch, &started(odd));
        steps(&mut watch, &[(DELAY, 2), (SWITCH, NOBODY)]);
    }
    let delays = &watch.state.machine.delays;
    assert_eq!((delays.items, delays.count), (0x92b4_d6f8_1a3c_5e70, 16));
    steps(&mut watch, &[(TICK, 0), (TICK, 0)]);
    assert_eq!(owed(&watch.state), woken(&even, 14));
    assert_eq!(listed(&watch.state.machine.delays), [7, 5, 3, 1, 15, 13, 11, 9]);
    steps(&mut watch, &woken(&even, 14));
    steps(&mut watch, &[(TICK, 0)]);
    assert_eq!(owed(&watch.state), woken(&odd, 15));
    let m = &watch.state.machine;
    assert_eq!((m.delays.count, m.queue.items, m.queue.count), (0, 0x9bdf_1357_2468_ace0, 16));
}

/// A state made here: three threads sleep until tick number 9, and it is 8. Their Delays were in this order.
fn all_asleep(order: [u8; 3]) -> Watch {
    let mut watch = made();
    let m = &mut watch.state.machine;
    m.tick = 8;
    m.slots.states = 0x222;
    m.wakes[..3].fill(9);
    (m.queue.count, m.holds.count, m.waits.count) = (0, 0, 0);
    m.holds.top = NOTHING_HELD;
    m.delays = list(&order);
    m.reported = 255;
    watch
}

/// These threads in order; entries that are not in use are 0.
fn list(threads: &[u8]) -> Queue {
    let mut items = [0; 16];
    items[..threads.len()].copy_from_slice(threads);
    Queue {
        items: word(items),
        count: threads.len(),
    }
}

/// The order of a lent state is that of the Readys and of the line, whichever it is.
#[test]
fn lent_orders() {
    for order in [[0, 1, 2], [0, 2, 1], [1, 0, 2], [1, 2, 0], [2, 0, 1], [2, 1, 0]] {
        let mut watch = all_asleep(order);
        assert_eq!(watch.step(TICK, 0), Reply::Clean(4));
        assert_eq!(owed(&watch.state), woken(&order.map(u16::from), 2));
        let m = &watch.state.machine;
        assert_eq!((listed(&m.queue), m.delays.count), (order.to_vec(), 0));
    }
}

/// The orders that do not name each sleeper just once and nobody else, each of a state that differs from `made` in that alone.
#[test]
fn ill_formed_orders() {
    let orders: [&[u8]; 12] = [
        &[], // thread 1 sleeps
        &[1, 1],
        &[0], // thread 0 is ready
        &[1, 0],
        &[0, 1],
        &[2], // thread 2 waits
        &[1, 2],
        &[2, 1],
        &[3], // not below T
        &[1, 3],
        &[3, 1],
        &[1, 15],
    ];
    let lists = orders.into_iter().map(list);
    for delays in lists.chain([17, usize::MAX].map(|count| Queue { items: 1, count })) {
        let mut watch = made();
        watch.state.machine.delays = delays;
        is_refused(watch, refused::STATE, TICK, 0);
        is_refused(watch, refused::STATE, 0, 0); // asked before 7
    }
}

/// Thread 0 runs, 1 and 3 sleep, 2 is dormant: of all orders of up to three those of 1 and 3 pass, whatever is not in use.
#[test]
fn every_order_of_two_sleepers() {
    let mut watch = Watch::begin(&[4, 0, 1, 1, 1, 1, 0, 0, 0, 0, 0, 0, 0, 0]).unwrap();
    let m = &mut watch.state.machine;
    m.slots.states = 0x2021;
    m.wakes[..4].fill(9);
    (m.queue, m.reported) = (list(&[0]), 0);
    for (count, items) in (0..=3).flat_map(|count| (0..0x1000).map(move |items| (count, items))) {
        let mut lent = watch;
        lent.state.machine.delays = Queue { items, count };
        if matches!(numbers(items)[..count], [1, 3] | [3, 1]) {
            assert_eq!(lent.step(TICK, 0), Reply::Clean(0));
        } else {
            is_refused(lent, refused::STATE, TICK, 0);
        }
    }
}

/// With nothing due the thread reported is the chosen one, or nobody where the line is empty; that a report was given is no matter.
#[test]
fn reported_with_nothing_due() {
    for reported in 0..=255 {
        let (mut running, mut given, mut asleep) = (made(), made_owing(&[(LATE, 0)]), all_asleep([0, 1, 2]));
        given.state.given = 1;
        for watch in [&mut running, &mut given, &mut asleep] {
            watch.state.machine.reported = reported;
        }
        for mut watch in [running, given] {
            match reported {
                0 => assert_eq!(watch.step(TICK, 0), Reply::Clean(0)),
                _ => is_refused(watch, refused::STATE, TICK, 0),
            }
        }
        match reported {
            255 => assert_eq!(asleep.step(TICK, 0), Reply::Clean(4)),
            _ => is_refused(asleep, refused::STATE, TICK, 0),
        }
    }
}

/// With a report due any thread may be the one reported; a Tick makes a Switch due to the chosen one. Once the report is given, the state is
/// asked again.
#[test]
fn reported_with_a_report_due() {
    for reported in 0..=255 {
        let mut watch = made_owing(&[(LATE, 0)]);
        watch.state.machine.reported = reported;
        if !matches!(reported, 0..=2 | 255) {
            is_refused(watch, refused::STATE, LATE, 0);
            continue;
        }
        let (mut calling, mut ticked) = (watch, watch);
        assert_eq!(calling.step(RELINQUISH, 0), Reply::Broken(breach::REPORT_DUE));
        steps(&mut ticked, &[(TICK, 0)]);
        match reported {
            0 => assert_eq!(owed(&ticked.state), [(LATE, 0)]),
            _ => assert_eq!(owed(&ticked.state), [(LATE, 0), (SWITCH, 0)]),
        }
        assert_eq!(watch.step(LATE, 0), Reply::Clean(0));
        assert_eq!((watch.state.machine.reported, ticked.state.machine.reported), (reported, reported));
        match reported {
            0 => assert_eq!(watch.step(TICK, 0), Reply::Clean(0)),
            _ => is_refused(watch, refused::STATE, TICK, 0),
        }
    }
}

/// A Switch due to the chosen thread puts a wrong one right, and one to another thread a right one wrong.
#[test]
fn reported_by_a_switch() {
    let mut watch = made_owing(&[(SWITCH, 0)]);
    watch.state.machine.reported = 2;
    steps(&mut watch, &[(SWITCH, 0), (TICK, 0)]);
    assert_eq!(watch.state.machine.reported, 0);
    for (operand, reported) in [(2, 2), (NOBODY, 255)] {
        let mut watch = made_owing(&[(SWITCH, operand)]);
        steps(&mut watch, &[(SWITCH, operand)]);
        assert_eq!(watch.state.machine.reported, reported);
        is_refused(watch, refused::STATE, TICK, 0);
    }
}
