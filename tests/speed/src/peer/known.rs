//! The known runs of document 01, P1 to P13, with the verdicts written there, P14 of document 02, and runs of timers worked out by hand.

use super::*;

const STARTED: [(u8, u16); 3] = [(CREATE, 0), (READY, 0), (SWITCH, 0)];

fn plan(sections: u8, threads: &[(u8, u16)]) -> Vec<u8> {
    let mut bytes = vec![threads.len() as u8, sections];
    bytes.extend(threads.iter().map(|thread| thread.0));
    bytes.extend(threads.iter().flat_map(|thread| thread.1.to_le_bytes()));
    bytes
}

fn dump(records: &[(u8, u16)]) -> Vec<u8> {
    let mut bytes = (records.len() as u16).to_le_bytes().to_vec();
    bytes.extend(records.iter().map(|record| record.0));
    bytes.extend(records.iter().flat_map(|record| record.1.to_le_bytes()));
    bytes
}

fn judged(plan: &[u8], dump: &[u8]) -> Verdict {
    let verdict = check::<false>(plan, dump);
    assert_eq!(check::<true>(plan, dump), verdict);
    verdict
}

/// The verdict on one thread of priority 1 that needs sections 0 and 1, started by records 0 to 2.
fn alone(records: &[(u8, u16)]) -> Verdict {
    judged(&plan(2, &[(1, 3)]), &dump(&[&STARTED, records].concat()))
}

fn clean(records: u64, due: u64) -> Verdict {
    Verdict::Clean { records, due }
}

fn breach(record: u64, rule: u8) -> Verdict {
    Verdict::Breach { record, rule }
}

/// Run A in the paper's bytes.
fn run_a() -> (Vec<u8>, Vec<u8>) {
    let plan = vec![0x03, 0x01, 0x01, 0x02, 0x03, 0x01, 0x00, 0x00, 0x00, 0x01, 0x00];
    let mut dump = vec![0x11, 0x00];
    dump.extend([
        0x01, 0x10, 0x11, 0x05, 0x12, 0x01, 0x10, 0x11, 0x05, 0x13, 0x11, 0x01, 0x10, 0x06, 0x12, 0x10, 0x11,
    ]);
    let operands: [u16; 17] = [0, 0, 0, 0, 0, 2, 2, 2, 0, 2, 0, 1, 1, 0, 2, 2, 2];
    dump.extend(operands.iter().flat_map(|x| x.to_le_bytes()));
    (plan, dump)
}

#[test]
fn p1_run_a() {
    let (plan, dump) = run_a();
    assert_eq!(judged(&plan, &dump), clean(17, 0));
}

#[test]
fn p2_switch_to_another() {
    let (plan, mut dump) = run_a();
    dump[2 + 17 + 2 * 10] = 1;
    assert_eq!(judged(&plan, &dump), breach(10, 30));
}

#[test]
fn p3_no_records() {
    assert_eq!(judged(&plan(0, &[(1, 0)]), &dump(&[])), clean(0, 0));
}

const ASLEEP: [(u8, u16); 2] = [(DELAY, 1), (SWITCH, NOBODY)];

#[test]
fn p4_to_p6_delay() {
    let after = |rest: &[(u8, u16)]| alone(&[&ASLEEP, rest].concat());
    assert_eq!(after(&[(TICK, 0), (TICK, 0), (READY, 0), (SWITCH, 0)]), clean(9, 0));
    assert_eq!(after(&[(TICK, 0), (READY, 0)]), breach(6, 28));
    assert_eq!(after(&[(TICK, 0), (TICK, 0), (TICK, 0)]), clean(8, 2));
}

#[test]
fn p7_lone_relinquish() {
    assert_eq!(alone(&[(RELINQUISH, 0)]), clean(4, 0));
}

#[test]
fn p8_give_out_of_order() {
    assert_eq!(alone(&[(TAKE, 0), (WON, 0), (TAKE, 1), (WON, 0), (GIVE, 0)]), breach(7, 27));
}

#[test]
fn p9_delay_while_holding() {
    assert_eq!(alone(&[(TAKE, 0), (WON, 0), (DELAY, 1)]), breach(5, 24));
}

#[test]
fn p10_relinquish_between_equals() {
    let two = plan(0, &[(1, 0), (1, 0)]);
    let records = [&STARTED[..], &[(CREATE, 1), (READY, 1), (RELINQUISH, 0), (YIELD, 0), (SWITCH, 1)]].concat();
    assert_eq!(judged(&two, &dump(&records)), clean(8, 0));
    assert_eq!(judged(&two, &dump(&records[..7])), clean(7, 1));
}

#[test]
fn p11_free_section_under_a_ceiling() {
    let holding = [(TAKE, 0), (WON, 0), (CREATE, 1), (READY, 1), (SWITCH, 1)];
    let records = [&STARTED[..], &holding, &[(TAKE, 1), (LOST, 1), (SWITCH, 0)]].concat();
    assert_eq!(judged(&plan(2, &[(1, 1), (2, 3)]), &dump(&records)), clean(11, 0));
}

#[test]
fn p12_delay_of_256() {
    let mut records = vec![(DELAY, u16::from_le_bytes([0x00, 0x01])), (SWITCH, NOBODY)];
    records.extend([(TICK, 0); 257]);
    records.extend([(READY, 0), (SWITCH, 0)]);
    assert_eq!(alone(&records), clean(264, 0));
}

#[test]
fn p13_most_urgent_waiter() {
    let loses = |thread| {
        [
            (CREATE, thread),
            (READY, thread),
            (SWITCH, thread),
            (TAKE, 0),
            (LOST, thread),
            (SWITCH, 0),
        ]
    };
    let mut records = STARTED.to_vec();
    records.extend([(TAKE, 0), (WON, 0)]);
    records.extend(loses(1));
    records.extend(loses(2));
    records.extend([(GIVE, 0), (WON, 2), (READY, 2), (SWITCH, 2)]);
    records.extend([(GIVE, 0), (WON, 1), (READY, 1)]);
    records.extend([(TAKE, 0), (LOST, 2), (SWITCH, 1)]);
    records.extend([(GIVE, 0), (WON, 2), (READY, 2), (SWITCH, 2)]);
    assert_eq!(judged(&plan(1, &[(1, 1), (2, 1), (3, 1)]), &dump(&records)), clean(31, 0));
}

#[test]
fn p14_sleepers_in_order_of_their_delays() {
    let started = [(CREATE, 1), (READY, 1), (SWITCH, 1), (CREATE, 0), (READY, 0)];
    let asleep = [(DELAY, 1), (SWITCH, 0), (DELAY, 1), (SWITCH, NOBODY), (TICK, 0), (TICK, 0)];
    let after = |reports: &[(u8, u16)]| {
        let records = [&started[..], &asleep, reports].concat();
        judged(&plan(0, &[(1, 0), (1, 0)]), &dump(&records))
    };
    assert_eq!(after(&[(READY, 1), (READY, 0), (SWITCH, 1)]), clean(14, 0));
    assert_eq!(after(&[(READY, 0), (READY, 1), (SWITCH, 1)]), breach(11, 30));
}

/// Behind seven Ticks, records 3 to 9.
fn at_seven(records: &[&[(u8, u16)]]) -> Verdict {
    alone(&[&[(TICK, 0); 7], &records.concat()[..]].concat())
}

fn armed(timer: u16, start: u16, period: u16, late: u16) -> [(u8, u16); 4] {
    [(ARM, timer), (START, start), (PERIOD, period), (LATE, late)]
}

#[test]
fn timers_that_are_in_time_and_late() {
    let (tick, expire, cancel) = ([(TICK, 0)], [(EXPIRE, 0)], [(CANCEL, 0)]);
    assert_eq!(at_seven(&[&armed(0, 8, 0, 0), &tick, &expire, &tick]), clean(17, 0));
    assert_eq!(at_seven(&[&armed(0, 8, 0, 0), &tick, &expire, &cancel]), breach(16, 32));
    assert_eq!(at_seven(&[&armed(0, 7, 0, 1), &tick, &tick]), clean(16, 0));
    assert_eq!(at_seven(&[&armed(0, 7, 0, 1), &cancel]), breach(14, 32));
    let by_3 = armed(0, 2, 3, 2); // 2 and 5 are lost, 8 and 11 come
    assert_eq!(at_seven(&[&by_3, &tick, &expire, &tick, &tick, &tick]), clean(19, 1));
    let from_1 = armed(0, 1, 3, 3); // 1, 4 and 7 are lost, 10 comes
    assert_eq!(at_seven(&[&from_1, &tick, &tick, &tick, &expire]), clean(18, 0));
    assert_eq!(at_seven(&[&armed(0, 2, 3, 3)]), breach(13, 30));
}

#[test]
fn expire_comes_before_ready() {
    let both = [&armed(1, 2, 0, 0)[..], &armed(0, 2, 5, 0), &ASLEEP, &[(TICK, 0), (TICK, 0)]].concat();
    let after = |reports: &[(u8, u16)]| alone(&[&both, reports].concat());
    assert_eq!(after(&[(EXPIRE, 0), (EXPIRE, 1), (READY, 0), (SWITCH, 0)]), clean(19, 0));
    assert_eq!(after(&[(EXPIRE, 1)]), breach(15, 30));
    assert_eq!(after(&[(READY, 0)]), breach(15, 29));
}

#[test]
fn an_arming_stands_together() {
    let arm = armed(0, 1, 0, 0);
    assert_eq!(
        [alone(&arm[..1]), alone(&arm[..2]), alone(&arm[..3])],
        [clean(4, 0), clean(5, 0), clean(6, 1)]
    );
    assert_eq!([alone(&arm[1..]), alone(&arm[2..])], [breach(3, 31), breach(3, 31)]);
    assert_eq!(alone(&[(ARM, 0), (TICK, 0)]), breach(4, 31));
    assert_eq!(alone(&[(ARM, 0), (START, 1), (LATE, 0)]), breach(5, 31));
    assert_eq!(alone(&[(ARM, 0), (START, 1), (PERIOD, 0), (PERIOD, 0)]), breach(6, 31));
}
