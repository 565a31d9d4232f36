//! The layout of the watch state: the sizes and offsets that interface/beltcairn.h states, what the library writes, and what it reads.
mod known;

use beltcairn::kind::{CREATE, DELAY, END, GIVE, READY, RELINQUISH, SWITCH, TAKE, TICK, WON};
use beltcairn::packed::{numbers, word};
use beltcairn::{
    abi, breach, refused, Arming, Holds, Machine, Plan, Queue, Reply, Report, Reports, Slots, State, Timers, Top, Watch, ABI, NOBODY,
};
use known::states::{held, is_refused, largest, listed, made, owed, steps, NOTHING_HELD};
use known::{run_a, PLAN_A};
use std::mem::{align_of, offset_of, size_of};

/// The linked library has the wrapper's number.
#[test]
fn one_interface() {
    assert_eq!(abi(), ABI);
}

#[test]
fn sizes() {
    assert_eq!(ABI, 4); // where a number below moves, this one rises
    let parts = [size_of::<Plan>(), size_of::<Slots>(), size_of::<Queue>()];
    assert_eq!(parts, [64, 16, 16]);
    assert_eq!([size_of::<Top>(), size_of::<Holds>()], [2, 32]);
    let wholes = [
        size_of::<Report>(),
        size_of::<Reports>(),
        size_of::<Arming>(),
        size_of::<Timers>(),
        size_of::<Machine>(),
        size_of::<State>(),
        size_of::<Watch>(),
    ];
    assert_eq!(wholes, [4, 112, 4, 52, 288, 408, 416]);
}

#[test]
fn alignments() {
    assert_eq!(ABI, 4); // where a number below moves, this one rises
    let eight = [
        align_of::<Plan>(),
        align_of::<Slots>(),
        align_of::<Queue>(),
        align_of::<Holds>(),
        align_of::<Reports>(),
        align_of::<Machine>(),
    ];
    assert_eq!(eight, [8; 6]);
    assert_eq!([align_of::<State>(), align_of::<Watch>()], [8; 2]);
    assert_eq!([align_of::<Report>(), align_of::<Arming>(), align_of::<Timers>()], [2, 2, 4]);
    assert_eq!(align_of::<Top>(), 1);
}

#[test]
fn offsets() {
    assert_eq!(ABI, 4); // where a number below moves, this one rises
    assert_eq!(
        [
            offset_of!(Plan, threads),
            offset_of!(Plan, sections),
            offset_of!(Plan, bases),
            offset_of!(Plan, needs)
        ],
        [0, 8, 16, 32]
    );
    assert_eq!([offset_of!(Slots, states), offset_of!(Slots, wants)], [0, 8]);
    assert_eq!([offset_of!(Queue, items), offset_of!(Queue, count)], [0, 8]);
    assert_eq!([offset_of!(Top, owner), offset_of!(Top, ceiling)], [0, 1]);
    assert_eq!([offset_of!(Holds, sections), offset_of!(Holds, threads)], [0, 8]);
    assert_eq!([offset_of!(Holds, count), offset_of!(Holds, top)], [16, 24]);
    assert_eq!([offset_of!(Report, kind), offset_of!(Report, operand)], [0, 2]);
    assert_eq!([offset_of!(Reports, items), offset_of!(Reports, count)], [0, 104]);
    assert_eq!([offset_of!(Machine, plan), offset_of!(Machine, tick)], [0, 64]);
    assert_eq!([offset_of!(Machine, slots), offset_of!(Machine, wakes)], [72, 88]);
    assert_eq!(
        [offset_of!(Machine, queue), offset_of!(Machine, holds), offset_of!(Machine, waits)],
        [152, 168, 200]
    );
    assert_eq!(
        [
            offset_of!(Machine, delays),
            offset_of!(Machine, reported),
            offset_of!(Machine, timers)
        ],
        [216, 232, 236]
    );
    assert_eq!(
        [offset_of!(State, machine), offset_of!(State, due), offset_of!(State, given)],
        [0, 288, 400]
    );
    assert_eq!([offset_of!(Watch, state), offset_of!(Watch, rule)], [0, 408]);
}

#[test]
fn offsets_of_the_timers() {
    assert_eq!(ABI, 4); // where a number below moves, this one rises
    assert_eq!(
        [offset_of!(Arming, stage), offset_of!(Arming, timer), offset_of!(Arming, start)],
        [0, 1, 2]
    );
    assert_eq!(
        [
            offset_of!(Timers, expiries),
            offset_of!(Timers, periods),
            offset_of!(Timers, arming)
        ],
        [0, 32, 48]
    );
}

#[test]
fn the_first_number_of_a_word_is_the_lowest() {
    let rising = [0, 1, 2, 3, 4, 5, 6, 7, 8, 9, 10, 11, 12, 13, 14, 15];
    assert_eq!((word(rising), numbers(0xfedc_ba98_7654_3210)), (0xfedc_ba98_7654_3210, rising));
    assert_eq!(word([0xf1; 16]), 0x1111_1111_1111_1111);
}

/// The condition of each thread, with the tick number or section that belongs to it and 0 where there is none.
fn conditions(m: &Machine) -> Vec<(u8, u32)> {
    let (states, wants) = (numbers(m.slots.states), numbers(m.slots.wants));
    let value = |thread: usize| match states[thread] {
        2 => m.wakes[thread],
        3 => wants[thread].into(),
        _ => 0,
    };
    (0..m.plan.threads).map(|thread| (states[thread], value(thread))).collect()
}

#[test]
fn largest_plan() {
    let watch = largest();
    let m = &watch.state.machine;
    assert_eq!((m.plan.threads, m.plan.sections), (16, 16));
    assert_eq!(m.plan.bases, [1, 2, 3, 4, 5, 6, 7, 8, 9, 10, 11, 12, 13, 14, 15, 16]);
    assert_eq!(m.plan.needs[..9], [1, 2, 4, 8, 16, 32, 64, 128, 256]);
    assert_eq!(m.plan.needs[9..], [512, 1024, 2048, 4096, 8192, 16384, 32768]);
    assert_eq!(conditions(m), [(0, 0); 16]);
    assert_eq!([m.queue.count, m.holds.count, m.waits.count, m.delays.count], [0; 4]);
    assert_eq!((m.tick, m.reported, m.holds.top), (0, 255, NOTHING_HELD));
    assert_eq!((watch.state.due.count, watch.state.given, watch.rule), (0, 0, 0));
}

/// Sixteen threads start, each more urgent than those before it: every entry of the line is in use.
#[test]
fn all_threads_in_the_line() {
    let mut watch = largest();
    for thread in 0..16 {
        steps(&mut watch, &[(CREATE, thread), (READY, thread), (SWITCH, thread)]);
    }
    let m = &watch.state.machine;
    assert_eq!((m.queue.items, m.queue.count), (0xfedc_ba98_7654_3210, 16));
    assert_eq!(m.slots.states, 0x1111_1111_1111_1111);
    steps(&mut watch, &[(END, 0)]);
    let m = &watch.state.machine;
    assert_eq!((m.queue.items << 4, m.queue.count), (0xedcb_a987_6543_2100, 15));
    assert_eq!(m.slots.states, 0x0111_1111_1111_1111);
}

/// One thread takes sixteen sections: every entry of the holds is in use, the latest first.
#[test]
fn all_sections_held() {
    let mut watch = Watch::begin(&[1, 16, 1, 0xff, 0xff]).unwrap();
    steps(&mut watch, &[(CREATE, 0), (READY, 0), (SWITCH, 0)]);
    for section in 0..16 {
        steps(&mut watch, &[(TAKE, section), (WON, 0)]);
    }
    let holds = &watch.state.machine.holds;
    assert_eq!((holds.sections, holds.threads, holds.count), (0x0123_4567_89ab_cdef, 0, 16));
    steps(&mut watch, &[(GIVE, 15)]);
    let holds = &watch.state.machine.holds;
    assert_eq!(
        (holds.sections << 4, holds.threads << 4, holds.count),
        (0x0123_4567_89ab_cde0, 0, 15)
    );
}

/// Up to its first Lost thread 2 waits for the section that thread 0 holds; at the end it has been handed it.
#[test]
fn states_of_run_a() {
    let mut watch = Watch::begin(&PLAN_A).unwrap();
    steps(&mut watch, &run_a()[..10]);
    let m = &watch.state.machine;
    assert_eq!(
        (listed(&m.queue), listed(&m.waits), held(&m.holds)),
        (vec![0], vec![2], vec![(0, 0)])
    );
    assert_eq!((conditions(m), m.reported, m.tick), (vec![(1, 0), (0, 0), (3, 0)], 2, 0));
    assert_eq!(owed(&watch.state), [(SWITCH, 0)]);
    steps(&mut watch, &run_a()[10..14]);
    assert_eq!(
        (owed(&watch.state), watch.state.machine.reported),
        (vec![(WON, 2), (READY, 2), (SWITCH, 2)], 0)
    );
    steps(&mut watch, &run_a()[14..]);
    let m = &watch.state.machine;
    assert_eq!(
        (listed(&m.queue), listed(&m.waits), held(&m.holds)),
        (vec![0, 1, 2], vec![], vec![(0, 2)])
    );
    assert_eq!((conditions(m), m.reported, watch.rule), (vec![(1, 0); 3], 2, 0));
    assert_eq!(owed(&watch.state), []);
}

/// One thread holds sections 0 and then 1, gives them back and sleeps, until tick number 0 + 300 + 1. Then a Ready that is not due.
#[test]
fn states_of_one_thread() {
    let mut watch = Watch::begin(&[1, 2, 1, 3, 0]).unwrap();
    steps(
        &mut watch,
        &[(CREATE, 0), (READY, 0), (SWITCH, 0), (TAKE, 0), (WON, 0), (TAKE, 1), (WON, 0)],
    );
    assert_eq!(held(&watch.state.machine.holds), [(1, 0), (0, 0)]);
    steps(&mut watch, &[(GIVE, 1), (GIVE, 0), (DELAY, 300)]);
    assert_eq!(
        (conditions(&watch.state.machine), owed(&watch.state)),
        (vec![(2, 301)], vec![(SWITCH, NOBODY)])
    );
    assert_eq!(listed(&watch.state.machine.delays), [0]);
    steps(&mut watch, &[(SWITCH, NOBODY), (TICK, 0)]);
    assert_eq!((watch.state.machine.tick, watch.state.machine.reported, watch.rule), (1, 255, 0));
    assert_eq!(watch.step(READY, 0), Reply::Broken(breach::NONE_DUE));
    assert_eq!((watch.state.machine.tick, watch.rule), (1, breach::NONE_DUE));
}

/// `made` with this number in every entry of a word that is not in use, and this tick number with every thread that is not asleep.
fn made_with_unused(number: u8, tick: u32) -> Watch {
    let mut watch = made();
    let m = &mut watch.state.machine;
    let filled = word([number; 16]);
    m.slots.states |= filled << 12;
    m.slots.wants |= filled << 12 | (filled & 0xff); // but for thread 2, which waits
    for list in [&mut m.queue.items, &mut m.waits.items, &mut m.delays.items] {
        *list |= filled << 4;
    }
    m.holds.sections |= filled << 4;
    m.holds.threads |= filled << 4;
    m.wakes = [tick; 16];
    m.wakes[1] = 9;
    watch
}

/// Two Ticks wake thread 1, and a Give hands the section to thread 2.
fn goes_on_cleanly(mut watch: Watch) {
    assert_eq!(watch.step(TICK, 0), Reply::Clean(0));
    assert_eq!(conditions(&watch.state.machine), [(1, 0), (2, 9), (3, 0)]);
    assert_eq!(listed(&watch.state.machine.delays), [1]);
    assert_eq!(watch.step(TICK, 0), Reply::Clean(1));
    assert_eq!((watch.state.machine.tick, owed(&watch.state)), (9, vec![(READY, 1)]));
    assert_eq!(listed(&watch.state.machine.delays), []);
    assert_eq!(watch.step(READY, 1), Reply::Clean(0));
    assert_eq!(watch.step(GIVE, 0), Reply::Clean(3));
    let m = &watch.state.machine;
    assert_eq!((held(&m.holds), listed(&m.waits)), (vec![(0, 2)], vec![]));
    assert_eq!((listed(&m.queue), conditions(m)), (vec![0, 1, 2], vec![(1, 0); 3]));
}

#[test]
fn clean_lent_states() {
    goes_on_cleanly(made());
    for number in 0..16 {
        for tick in [8, 9, u32::MAX] {
            goes_on_cleanly(made_with_unused(number, tick));
        }
    }
}

/// The parts of 12, each of a state that differs from `made` in that alone; 12 is asked before 7.
#[test]
fn ill_formed_states() {
    let changes: [fn(&mut Watch); 27] = [
        |w| w.state.machine.plan.threads = 0,
        |w| w.state.machine.plan.threads = 17,
        |w| w.state.machine.plan.sections = usize::MAX,
        |w| w.state.machine.plan.bases[1] = 65,
        |w| w.state.machine.plan.needs[2] = 3,
        |w| w.state.machine.tick = 4_000_000_001,
        |w| w.state.machine.wakes[1] = 4_000_065_537,
        |w| w.state.machine.slots.states = 0x341,
        |w| w.state.machine.slots.states = 0x361,
        |w| w.state.machine.slots.states = 0x325,
        |w| w.state.machine.slots.states = 0xb21,
        |w| w.state.machine.slots.wants = 0x100,
        |w| w.state.machine.queue.items = 3,
        |w| w.state.machine.queue.count = 2,
        |w| w.state.machine.queue.count = 17,
        |w| w.state.machine.queue.count = usize::MAX,
        |w| w.state.machine.waits.items = 0,
        |w| w.state.machine.waits.items = 3,
        |w| w.state.machine.waits.count = 17,
        |w| w.state.machine.holds.count = 2,
        |w| w.state.machine.holds.count = 17,
        |w| (w.state.machine.holds.sections, w.state.machine.holds.top.ceiling) = (1, 0), // no thread needs section 1
        |w| (w.state.machine.holds.threads, w.state.machine.holds.top.owner) = (3, 3),
        |w| w.state.machine.reported = 3,
        |w| w.state.due.count = 1,
        |w| w.state.due.count = usize::MAX,
        |w| w.rule = 33,
    ];
    for change in changes {
        let mut watch = made();
        change(&mut watch);
        is_refused(watch, refused::STATE, TICK, 0);
        is_refused(watch, refused::STATE, 0, 0);
    }
}

#[test]
fn refused_steps() {
    let mut watch = made();
    is_refused(watch, refused::KIND, 0, 0);
    is_refused(watch, refused::KIND, 12, 0);
    is_refused(watch, refused::KIND, 23, 0);
    is_refused(watch, refused::OPERAND, SWITCH, 255);
    watch.state.machine.tick = 4_000_000_000;
    is_refused(watch, refused::OPERAND, TICK, 1);
    is_refused(watch, refused::TICK, TICK, 0);
    watch.rule = breach::NOT_NEEDED;
    is_refused(watch, refused::TICK, TICK, 0);
    assert_eq!(watch.step(RELINQUISH, 0), Reply::Broken(breach::NOT_NEEDED));
    (watch.rule, watch.state.machine.wakes[1]) = (0, 4_000_065_536);
    assert_eq!(watch.step(RELINQUISH, 0), Reply::Clean(0));
    watch.state.machine.tick = 3_999_999_999;
    assert_eq!(watch.step(TICK, 0), Reply::Clean(0));
    assert_eq!(watch.state.machine.tick, 4_000_000_000);
}
