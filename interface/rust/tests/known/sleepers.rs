//! Threads that share a tick, worked out by hand from document 02's item 3: records and verdict, of two threads of equal priority.

use super::{breach, clean, started, Run};
use beltcairn::kind::{CREATE, DELAY, READY, SWITCH, TICK};
use beltcairn::NOBODY;

pub const PLAN: [u8; 8] = [2, 0, 1, 1, 0, 0, 0, 0];

/// The running thread sleeps for so many ticks and one more, and this one runs.
pub fn delayed(ticks: u16, next: u16) -> [(u8, u16); 2] {
    [(DELAY, ticks), (SWITCH, next)]
}

/// Both threads are ready, and this one runs.
pub fn both_ready(first: u16, other: u16) -> Vec<(u8, u16)> {
    [&started(first)[..], &[(CREATE, other), (READY, other)]].concat()
}

/// Both wake in this order, and the first runs.
fn awake(first: u16, other: u16) -> [(u8, u16); 3] {
    [(READY, first), (READY, other), (SWITCH, first)]
}

/// The higher number is delayed first, and both are due at tick number 2.
pub fn p14() -> Vec<(u8, u16)> {
    let parts: [&[(u8, u16)]; 5] = [
        &both_ready(1, 0),
        &delayed(1, 0),
        &delayed(1, NOBODY),
        &[(TICK, 0); 2],
        &awake(1, 0),
    ];
    parts.concat()
}

pub fn runs() -> Vec<Run> {
    let (one_ready, zero_ready) = (both_ready(1, 0), both_ready(0, 1));
    let (tick, ticks) = ([(TICK, 0)], [(TICK, 0); 2]);
    // thread 1 from tick number 0 and thread 0 from 1, both until 3
    let two_ticks: [&[(u8, u16)]; 6] = [&one_ready, &delayed(2, 0), &tick, &delayed(1, NOBODY), &ticks, &awake(1, 0)];
    // thread 1 until 2 and thread 0 until 4; at 2 thread 1 delays again, until 4 too, and is behind thread 0 now
    let again: [&[(u8, u16)]; 8] = [
        &one_ready,
        &delayed(1, 0),
        &delayed(3, NOBODY),
        &ticks,
        &[(READY, 1), (SWITCH, 1)],
        &delayed(1, NOBODY),
        &ticks,
        &awake(0, 1),
    ];
    vec![
        breach("P14, lower thread first", &PLAN, &[&p14()[..11], &awake(0, 1)], 11, 30),
        clean(
            "lower thread delayed first",
            &PLAN,
            &[&zero_ready, &delayed(1, 1), &delayed(1, NOBODY), &ticks, &awake(0, 1)],
            0,
        ),
        clean("delayed at two ticks", &PLAN, &two_ticks, 0),
        clean("delayed again", &PLAN, &again, 0),
    ]
}
