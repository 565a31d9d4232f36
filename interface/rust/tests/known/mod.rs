//! The known runs of document 01, typed from its text: plan, records, and the verdict that it states. That of P6 is document 02's item 4.
//! P14 is that of item 3, which says in words what happens; its records are worked out by hand.
#![allow(dead_code)] // each test file uses a part

pub mod interrupts;
pub mod sleepers;
pub mod states;
pub mod timers;

use beltcairn::kind::{CREATE, DELAY, GIVE, LOST, READY, RELINQUISH, SWITCH, TAKE, TICK, WON, YIELD};
use beltcairn::{Verdict, NOBODY};

pub const PLAN_A: [u8; 11] = [0x03, 0x01, 0x01, 0x02, 0x03, 0x01, 0x00, 0x00, 0x00, 0x01, 0x00];

pub struct Run {
    pub name: &'static str,
    pub plan: Vec<u8>,
    pub records: Vec<(u8, u16)>,
    pub verdict: Verdict,
}

/// Numbers in no order, the same in every run (xorshift).
pub struct Numbers(pub u64);

impl Numbers {
    pub fn below(&mut self, n: usize) -> usize {
        self.0 ^= self.0 << 13;
        self.0 ^= self.0 >> 7;
        self.0 ^= self.0 << 17;
        (self.0 % n as u64) as usize
    }

    pub fn bytes(&mut self, most: usize) -> Vec<u8> {
        let n = self.below(most + 1);
        (0..n).map(|_| self.below(256) as u8).collect()
    }
}

/// The bytes of a dump or a call list.
pub fn bytes(records: &[(u8, u16)]) -> Vec<u8> {
    let mut bytes = (records.len() as u16).to_le_bytes().to_vec();
    bytes.extend(records.iter().map(|r| r.0));
    bytes.extend(records.iter().flat_map(|r| r.1.to_le_bytes()));
    bytes
}

pub fn run_a() -> Vec<(u8, u16)> {
    let kinds = [
        0x01, 0x10, 0x11, 0x05, 0x12, 0x01, 0x10, 0x11, 0x05, 0x13, 0x11, 0x01, 0x10, 0x06, 0x12, 0x10, 0x11,
    ];
    let operands = [0, 0, 0, 0, 0, 2, 2, 2, 0, 2, 0, 1, 1, 0, 2, 2, 2];
    kinds.into_iter().zip(operands).collect()
}

fn clean(name: &'static str, plan: &[u8], records: &[&[(u8, u16)]], due: u64) -> Run {
    let records = records.concat();
    let verdict = Verdict::Clean {
        records: records.len() as u64,
        due,
    };
    Run {
        name,
        plan: plan.to_vec(),
        records,
        verdict,
    }
}

fn breach(name: &'static str, plan: &[u8], records: &[&[(u8, u16)]], record: u64, rule: u8) -> Run {
    Run {
        name,
        plan: plan.to_vec(),
        records: records.concat(),
        verdict: Verdict::Breach { record, rule },
    }
}

pub fn started(thread: u16) -> [(u8, u16); 3] {
    [(CREATE, thread), (READY, thread), (SWITCH, thread)]
}

fn of_one_thread() -> Vec<Run> {
    let plan = [1, 0, 1, 0, 0];
    let start = started(0);
    let asleep = [(DELAY, 1), (SWITCH, NOBODY), (TICK, 0)];
    let awake = [(READY, 0), (SWITCH, 0)];
    let taken = |section| [(TAKE, section), (WON, 0)];
    vec![
        clean("P3", &plan, &[], 0),
        clean("P4", &plan, &[&start, &asleep, &[(TICK, 0)], &awake], 0),
        breach("P5", &plan, &[&start, &asleep, &[(READY, 0)]], 6, 28),
        clean("P6", &plan, &[&start, &asleep, &[(TICK, 0), (TICK, 0)]], 2),
        clean("P7", &plan, &[&start, &[(RELINQUISH, 0)]], 0),
        breach("P8", &[1, 2, 1, 3, 0], &[&start, &taken(0), &taken(1), &[(GIVE, 0)]], 7, 27),
        breach("P9", &[1, 1, 1, 1, 0], &[&start, &taken(0), &[(DELAY, 1)]], 5, 24),
        clean(
            "P12",
            &plan,
            &[&start, &[(DELAY, 0x0100), (SWITCH, NOBODY)], &[(TICK, 0); 257], &awake],
            0,
        ),
    ]
}

pub fn known() -> Vec<Run> {
    let mut renamed = run_a();
    renamed[10].1 = 1;
    let equal = [2, 0, 1, 1, 0, 0, 0, 0];
    let relinquished = [started(0).to_vec(), vec![(CREATE, 1), (READY, 1), (RELINQUISH, 0), (YIELD, 0)]].concat();
    let p11 = [
        (TAKE, 0),
        (WON, 0),
        (CREATE, 1),
        (READY, 1),
        (SWITCH, 1),
        (TAKE, 1),
        (LOST, 1),
        (SWITCH, 0),
    ];
    let lost = |thread| [started(thread).to_vec(), vec![(TAKE, 0), (LOST, thread), (SWITCH, 0)]].concat();
    let handed = [(GIVE, 0), (WON, 2), (READY, 2), (SWITCH, 2)];
    let given = [(GIVE, 0), (WON, 1), (READY, 1), (TAKE, 0), (LOST, 2), (SWITCH, 1)];
    let p13: &[&[(u8, u16)]] = &[&started(0), &[(TAKE, 0), (WON, 0)], &lost(1), &lost(2), &handed, &given, &handed];
    let mut runs = vec![
        clean("P1", &PLAN_A, &[&run_a()], 0),
        breach("P2", &PLAN_A, &[&renamed], 10, 30),
        clean("P10", &equal, &[&relinquished, &[(SWITCH, 1)]], 0),
        clean("P10 without its last record", &equal, &[&relinquished], 1),
        clean("P11", &[2, 2, 1, 2, 1, 0, 3, 0], &[&started(0), &p11], 0),
        clean("P13", &[3, 1, 1, 2, 3, 1, 0, 1, 0, 1, 0], p13, 0),
        clean("P14", &equal, &[&sleepers::p14()], 0),
    ];
    runs.extend(of_one_thread());
    runs
}
