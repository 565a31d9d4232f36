//! Watch states that several tests start from, and what they read there.

use super::PLAN_A;
use beltcairn::packed::numbers;
use beltcairn::{Holds, Machine, Queue, Reply, Report, State, Top, Watch};

/// Nobody and 0, as nothing is held.
pub const NOTHING_HELD: Top = Top { owner: 255, ceiling: 0 };

/// Clean steps.
pub fn steps(watch: &mut Watch, records: &[(u8, u16)]) {
    for (kind, operand) in records {
        assert!(matches!(watch.step(*kind, *operand), Reply::Clean(_)), "{kind} {operand}");
    }
}

pub fn is_refused(mut watch: Watch, question: u8, kind: u8, operand: u16) {
    let before = watch;
    assert_eq!(watch.step(kind, operand), Reply::Refused(question));
    assert_eq!(watch, before);
}

pub fn listed(queue: &Queue) -> Vec<u8> {
    numbers(queue.items)[..queue.count].to_vec()
}

/// The owner and the greatest ceiling that are kept.
pub fn top(watch: &Watch) -> (u8, u8) {
    let Top { owner, ceiling } = watch.state.machine.holds.top;
    (owner, ceiling)
}

/// Section and thread of each hold, the latest first.
pub fn held(holds: &Holds) -> Vec<(u8, u8)> {
    let pairs = numbers(holds.sections).into_iter().zip(numbers(holds.threads));
    pairs.take(holds.count).collect()
}

/// The greatest base priority among threads that need the section, 0 if none does.
fn ceiling(m: &Machine, section: u8) -> u8 {
    let needs = |thread: &usize| m.plan.needs[*thread] >> section & 1 == 1;
    let bases = (0..m.plan.threads).filter(needs).map(|thread| m.plan.bases[thread]);
    bases.max().unwrap_or(0)
}

/// What a walk over the holds finds. They stand with the latest first, so on a tie the one found first counts.
pub fn walked(m: &Machine) -> Top {
    held(&m.holds).into_iter().fold(NOTHING_HELD, |top, (section, owner)| {
        let ceiling = ceiling(m, section);
        match top {
            Top { owner: 255, .. } => Top { owner, ceiling },
            _ if ceiling > top.ceiling => Top { owner, ceiling },
            _ => top,
        }
    })
}

pub fn owed(state: &State) -> Vec<(u8, u16)> {
    state.owed().iter().map(|report| (report.kind, report.operand)).collect()
}

/// 16 threads and 16 sections: thread i has priority i + 1 and needs section i.
pub fn largest() -> Watch {
    let mut plan = vec![16, 16];
    plan.extend(1..=16);
    plan.extend((0..16).flat_map(|i| (1u16 << i).to_le_bytes()));
    Watch::begin(&plan).unwrap()
}

/// A state made by hand: thread 0 runs and holds the section that thread 2 waits for, thread 1 sleeps until tick number 9, and it is 7.
pub fn made() -> Watch {
    let mut watch = Watch::begin(&PLAN_A).unwrap();
    let m = &mut watch.state.machine;
    m.tick = 7;
    (m.slots.states, m.slots.wants) = (0x321, 0x000);
    m.wakes[1] = 9;
    (m.queue.items, m.queue.count) = (0, 1);
    (m.holds.sections, m.holds.threads, m.holds.count) = (0, 0, 1);
    m.holds.top = Top { owner: 0, ceiling: 3 };
    (m.waits.items, m.waits.count) = (2, 1);
    (m.delays.items, m.delays.count) = (1, 1);
    m.reported = 0;
    watch
}

/// `made` with these reports due.
pub fn made_owing(reports: &[(u8, u16)]) -> Watch {
    let mut watch = made();
    owe(&mut watch, reports);
    watch
}

/// These reports are due and no others, and none was given.
pub fn owe(watch: &mut Watch, reports: &[(u8, u16)]) {
    for (item, (kind, operand)) in watch.state.due.items.iter_mut().zip(reports) {
        *item = Report {
            kind: *kind,
            operand: *operand,
        };
    }
    (watch.state.due.count, watch.state.given) = (reports.len(), 0);
}
