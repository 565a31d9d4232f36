//! Inputs of one pattern over and over.

use super::Recorder;
use crate::peer::*;

/// Four equal threads on one section: each gives it to the one that waits longest, and loses it when it takes it again.
pub fn contention(records: usize) -> (Vec<u8>, Vec<u8>) {
    let mut run = Recorder::new(1, &[(1, 1); 4], records);
    for thread in 0..4 {
        run.must(CREATE, thread);
    }
    run.must(TAKE, 0);
    run.must(RELINQUISH, 0);
    for _ in 1..4 {
        run.must(TAKE, 0);
    }
    while !run.full() {
        run.must(GIVE, 0);
        run.must(TAKE, 0);
    }
    run.finish()
}

/// Two equal threads take sixteen sections, one inside the other, and give them back, each in turn.
pub fn nested(records: usize) -> (Vec<u8>, Vec<u8>) {
    let mut run = Recorder::new(16, &[(1, 0xffff); 2], records);
    run.must(CREATE, 0);
    run.must(CREATE, 1);
    while !run.full() {
        for section in 0..16 {
            run.must(TAKE, section);
        }
        for section in (0..16).rev() {
            run.must(GIVE, section);
        }
        run.must(RELINQUISH, 0);
    }
    run.finish()
}

/// Four equal threads relinquish in turn.
pub fn relinquish(records: usize) -> (Vec<u8>, Vec<u8>) {
    let mut run = Recorder::new(0, &[(1, 0); 4], records);
    for thread in 0..4 {
        run.must(CREATE, thread);
    }
    while !run.full() {
        run.must(RELINQUISH, 0);
    }
    run.finish()
}

/// One thread runs and holds a section, the others sleep for longer than the dump; if `waits`, the last one waits for the section instead. Nothing
/// but Ticks follows.
pub fn ticks_alone(threads: u16, waits: bool, records: usize) -> (Vec<u8>, Vec<u8>) {
    let plan: Vec<(u8, u16)> = (0..threads).map(|thread| (1 + thread as u8, 1)).collect();
    let mut run = Recorder::new(1, &plan, records);
    run.must(CREATE, 0);
    run.must(TAKE, 0);
    for thread in 1..threads {
        run.must(CREATE, thread);
        if waits && thread + 1 == threads {
            run.must(TAKE, 0);
        } else {
            run.must(DELAY, 60_000);
        }
    }
    while !run.full() {
        run.must(TICK, 0);
    }
    run.finish()
}
