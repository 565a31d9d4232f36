//! A state as it is lent to the library: what is in use stands where the header says, and what is not takes every number.

use std::collections::BTreeSet;
use std::mem::{offset_of, size_of};

use beltcairn::packed::numbers;
use beltcairn::{Holds, Machine, Watch};
use compare::random::Random;
use compare::state::{lend, parts, REPORTS};
use second::{Parts, Top};

/// Threads 2 and 0 in the line in this order, 6 and 1 asleep since Delays in this order, 3 dormant, 5 and 4 waiting in this order for
/// sections 2 and 0. Section 1 of ceiling 7 is taken by 2, and then 3 of ceiling 6 by 0. Timer 1 expires at 300 and every 258 ticks, 6 is
/// an alarm at 8. Timer 5 is being armed, from 515 on. Due are an Expire, a Late and a Switch to nobody.
fn seven_threads() -> Parts {
    Parts {
        threads: 7,
        sections: 4,
        bases: vec![1, 2, 3, 4, 5, 6, 7],
        needs: vec![15, 15, 15, 15, 15, 15, 7],
        tick: 7,
        conditions: vec![(1, 0), (2, 9), (1, 0), (0, 0), (3, 0), (3, 2), (2, 10)],
        line: vec![2, 0],
        holds: vec![(1, 2), (3, 0)],
        top: Top {
            owner: Some(2),
            ceiling: 7,
        },
        waits: vec![5, 4],
        delays: vec![6, 1],
        timers: [(0, 0), (300, 258), (0, 0), (0, 0), (0, 0), (0, 0), (8, 0), (0, 0)],
        arming: (2, 5, 515),
        given: 2,
        due: vec![(21, 7), (22, 772), (17, 65535)],
        stored: 0,
    }
}

/// The state lent over and over, filled otherwise each time.
fn lent() -> impl Iterator<Item = Watch> {
    lent_as(seven_threads())
}

fn lent_as(parts: Parts) -> impl Iterator<Item = Watch> {
    let mut random = Random::new(1);
    (0..2000).map(move |_| lend(&parts, &mut random))
}

/// A state of another layout would be read past its end by the library.
#[test]
fn the_library_is_of_the_layout_that_is_lent() {
    assert_eq!((beltcairn::abi(), beltcairn::ABI), (4, 4));
    assert_eq!((offset_of!(Holds, top.owner), offset_of!(Holds, top.ceiling)), (24, 25));
    assert_eq!((offset_of!(Machine, waits), offset_of!(Machine, delays)), (200, 216));
    assert_eq!((offset_of!(Machine, reported), offset_of!(Machine, timers)), (232, 236));
    assert_eq!((size_of::<Machine>(), size_of::<Watch>()), (288, 416));
}

#[test]
fn what_is_in_use_stands_where_the_header_says() {
    for watch in lent() {
        let m = &watch.state.machine;
        assert_eq!((m.slots.states & 0xfff_ffff, m.slots.wants & 0xff_0000), (0x233_0121, 0x20_0000));
        assert_eq!((m.tick, m.wakes[1], m.wakes[6], m.reported), (7, 9, 10, 2));
        assert_eq!((m.queue.items & 0xff, m.queue.count), (0x02, 2));
        assert_eq!((m.waits.items & 0xff, m.waits.count), (0x45, 2));
        assert_eq!((m.delays.items & 0xff, m.delays.count), (0x16, 2));
        assert_eq!((m.holds.sections & 0xff, m.holds.threads & 0xff, m.holds.count), (0x13, 0x20, 2));
        assert_eq!((m.holds.top.owner, m.holds.top.ceiling), (2, 7));
        assert_eq!(parts(&watch), seven_threads());
    }
}

#[test]
fn timers_and_reports_stand_where_the_header_says() {
    for watch in lent() {
        let timers = &watch.state.machine.timers;
        assert_eq!(timers.expiries, [0, 300, 0, 0, 0, 0, 8, 0]);
        assert_eq!((timers.periods[1], timers.periods[6]), (258, 0));
        assert_eq!((timers.arming.stage, timers.arming.timer, timers.arming.start), (2, 5, 515));
        let due = &watch.state.due.items[watch.state.given..watch.state.due.count];
        let numbers: Vec<(u8, u16)> = due.iter().map(|report| (report.kind, report.operand)).collect();
        assert_eq!(numbers, [(21, 7), (22, 772), (17, 65535)]);
    }
}

#[test]
fn an_owner_is_a_byte_and_255_is_nobody() {
    for (owner, byte) in [(None, 255), (Some(0), 0), (Some(254), 254)] {
        let top = Top { owner, ceiling: 255 };
        let lent = lend(&Parts { top, ..seven_threads() }, &mut Random::new(1));
        let held = lent.state.machine.holds.top;
        assert_eq!((held.owner, held.ceiling, parts(&lent).top), (byte, 255, top));
    }
}

/// For each entry of the word the numbers that it took, as bits.
fn taken(word: fn(&Watch) -> u64) -> [u16; 16] {
    lent().fold([0; 16], |bits, watch| {
        let numbers = numbers(word(&watch));
        std::array::from_fn(|place| bits[place] | 1 << numbers[place])
    })
}

#[test]
fn what_is_not_in_use_takes_every_number() {
    let every = u16::MAX;
    assert_eq!(taken(|w| w.state.machine.slots.states)[7..], [every; 9]);
    assert_eq!(taken(|w| w.state.machine.slots.wants)[..4], [every; 4]);
    assert_eq!(taken(|w| w.state.machine.slots.wants)[6..], [every; 10]);
    assert_eq!(taken(|w| w.state.machine.queue.items)[2..], [every; 14]);
    assert_eq!(taken(|w| w.state.machine.waits.items)[2..], [every; 14]);
    assert_eq!(taken(|w| w.state.machine.delays.items)[2..], [every; 14]);
    assert_eq!(taken(|w| w.state.machine.holds.sections)[2..], [every; 14]);
    assert_eq!(taken(|w| w.state.machine.holds.threads)[2..], [every; 14]);
}

#[test]
fn tick_numbers_of_threads_not_asleep_are_due_or_out_of_range() {
    for thread in (0..16).filter(|thread| ![1, 6].contains(thread)) {
        for tick in [7, 8, u32::MAX] {
            assert!(lent().any(|watch| watch.state.machine.wakes[thread] == tick), "{thread} {tick}");
        }
    }
}

#[test]
fn periods_of_timers_not_armed_are_any() {
    for timer in [0, 2, 3, 4, 5, 7] {
        let periods: BTreeSet<u16> = lent().map(|watch| watch.state.machine.timers.periods[timer]).collect();
        assert!(periods.len() > 1000, "{timer}");
    }
}

#[test]
fn what_an_arming_has_not_come_to_is_any() {
    let at = |arming| lent_as(Parts { arming, ..seven_threads() });
    let timers: BTreeSet<u8> = at((0, 0, 0)).map(|watch| watch.state.machine.timers.arming.timer).collect();
    assert!(timers.len() > 200 && timers.contains(&0) && timers.contains(&8));
    for arming in [(0, 0, 0), (1, 5, 0)] {
        let starts: BTreeSet<u16> = at(arming).map(|watch| watch.state.machine.timers.arming.start).collect();
        assert!(starts.len() > 1000, "{arming:?}");
        assert!(at(arming).all(|watch| parts(&watch).arming == arming));
    }
}

#[test]
fn reports_already_given_are_any() {
    let places: BTreeSet<usize> = lent().map(|watch| watch.state.given).collect();
    assert_eq!(places, (0..=REPORTS - 3).collect());
    assert!(lent().any(|watch| watch.state.given > 0 && watch.state.due.items[0].kind > 22));
}
