//! The owner and the greatest ceiling of states made here: 12 asks for those of the holds and no others, and the calls set them.
mod known;

use beltcairn::kind::{GIVE, LATE, LOST, READY, SWITCH, TAKE, TICK, WON};
use beltcairn::packed::word;
use beltcairn::{breach, refused, Reply, Top, Watch, NOBODY};
use known::states::{held, is_refused, made, made_owing, owe, steps, top};

/// Three threads and five sections: threads 0 and 1 have priority 1, thread 2 has 7; thread 0 needs section 0, thread 2 needs 1 and 2, and
/// nobody needs 3 and 4. The ceilings are 1, 7, 7, 0 and 0.
const PLAN: [u8; 11] = [3, 5, 1, 1, 7, 1, 0, 0, 0, 6, 0];

fn set_top(watch: &mut Watch, (owner, ceiling): (u8, u8)) {
    watch.state.machine.holds.top = Top { owner, ceiling };
}

/// These sections and threads, the latest first, and 0 behind them.
fn hold(watch: &mut Watch, pairs: &[(u8, u8)]) {
    let (mut sections, mut threads) = ([0; 16], [0; 16]);
    for (i, (section, thread)) in pairs.iter().enumerate() {
        (sections[i], threads[i]) = (*section, *thread);
    }
    let holds = &mut watch.state.machine.holds;
    (holds.sections, holds.threads, holds.count) = (word(sections), word(threads), pairs.len());
}

/// Threads 0 and 1 stand in the line in this order, and thread 0 runs; thread 2 is dormant. These sections are held, the latest first.
fn holding(pairs: &[(u8, u8)], right: (u8, u8)) -> Watch {
    let mut watch = Watch::begin(&PLAN).unwrap();
    let m = &mut watch.state.machine;
    m.slots.states = 0x011;
    (m.queue.items, m.queue.count) = (0x10, 2);
    m.reported = 0;
    hold(&mut watch, pairs);
    set_top(&mut watch, right);
    watch
}

/// `holding` with thread 2 waiting for this section. The owner's current priority is 7, so this one runs.
fn awaited(section: u64, running: u8, pairs: &[(u8, u8)], right: (u8, u8)) -> Watch {
    let mut watch = holding(pairs, right);
    let m = &mut watch.state.machine;
    (m.slots.states, m.slots.wants) = (0x311, section << 8);
    (m.waits.items, m.waits.count) = (2, 1);
    m.reported = running;
    watch
}

/// Holds, and the pair that they have.
type Case = (&'static [(u8, u8)], (u8, u8));

/// A lower section, or one that nobody needs, in front of the greatest, behind it and between two equal ones. A holder may be dormant.
const CASES: [Case; 18] = [
    (&[], (255, 0)),
    (&[(0, 0)], (0, 1)),
    (&[(1, 1)], (1, 7)),
    (&[(1, 2)], (2, 7)),
    (&[(1, 0), (2, 0)], (0, 7)),
    (&[(1, 1), (2, 0)], (1, 7)),
    (&[(2, 0), (1, 1)], (0, 7)),
    (&[(1, 1), (0, 0), (2, 0)], (1, 7)),
    (&[(2, 0), (0, 0), (1, 1)], (0, 7)),
    (&[(0, 0), (1, 1), (2, 0)], (1, 7)),
    (&[(0, 0), (2, 0), (1, 1)], (0, 7)),
    (&[(2, 0), (1, 1), (0, 0)], (0, 7)),
    (&[(3, 0)], (0, 0)),
    (&[(4, 1)], (1, 0)),
    (&[(3, 1), (0, 0)], (0, 1)),
    (&[(0, 0), (3, 1)], (0, 1)),
    (&[(3, 1), (4, 0)], (1, 0)),
    (&[(4, 0), (3, 1)], (0, 0)),
];

/// Every owner with the right ceiling, every ceiling with the right owner, and what may be mistaken for both.
fn other_tops((owner, ceiling): (u8, u8)) -> impl Iterator<Item = (u8, u8)> {
    let near = [0, 1, 2, 3, 254, 255]
        .into_iter()
        .flat_map(|owner| (0..=8).map(move |ceiling| (owner, ceiling)));
    let owners = (0..=255).map(move |owner| (owner, ceiling));
    let ceilings = (0..=255).map(move |ceiling| (owner, ceiling));
    near.chain(owners).chain(ceilings).filter(move |other| *other != (owner, ceiling))
}

/// The state passes with its pair, which a Tick leaves as it is, and with no other; 12 is asked before 7 and before a stored breach.
fn passes_alone(watch: Watch) {
    let mut ticked = watch;
    steps(&mut ticked, &[(TICK, 0)]);
    let of = |watch: &Watch| (held(&watch.state.machine.holds), top(watch));
    assert_eq!(of(&ticked), of(&watch));
    let mut broken = watch;
    broken.rule = breach::NOT_NEEDED;
    is_refused(broken, refused::KIND, 0, 0);
    assert_eq!(broken.step(GIVE, 0), Reply::Broken(breach::NOT_NEEDED));
    for other in other_tops(top(&watch)) {
        for mut wrong in [watch, broken] {
            set_top(&mut wrong, other);
            is_refused(wrong, refused::STATE, TICK, 0);
            is_refused(wrong, refused::STATE, 0, 0);
        }
    }
}

#[test]
fn with_nothing_due() {
    for (pairs, right) in CASES {
        passes_alone(holding(pairs, right));
    }
}

/// Whatever is due, and whoever was reported.
#[test]
fn with_reports_due() {
    let reports: [&[(u8, u16)]; 4] = [&[(LATE, 0)], &[(WON, 0)], &[(LATE, 0), (SWITCH, 1)], &[(SWITCH, NOBODY)]];
    for (pairs, right) in CASES {
        for (due, reported) in reports.into_iter().zip([0, 1, 2, 255]) {
            let mut watch = holding(pairs, right);
            owe(&mut watch, due);
            watch.state.machine.reported = reported;
            passes_alone(watch);
        }
    }
}

/// All 65,536 pairs: of `made`, with nothing due and with a Late, and of a state in which nothing is held.
#[test]
fn every_top() {
    for watch in [made(), made_owing(&[(LATE, 0)]), holding(&[], (255, 0))] {
        let right = top(&watch);
        let all = (0..=255).flat_map(|owner| (0..=255).map(move |ceiling| (owner, ceiling)));
        let passing = all.filter(|pair| {
            let (mut lent, mut before) = (watch, watch);
            set_top(&mut lent, *pair);
            set_top(&mut before, *pair);
            let reply = lent.step(TICK, 0);
            assert!(matches!(reply, Reply::Clean(_)) || (reply, lent) == (Reply::Refused(refused::STATE), before));
            matches!(reply, Reply::Clean(_))
        });
        assert_eq!(passing.collect::<Vec<_>>(), [right]);
    }
}

/// What is not in use changes nothing: threads from T on, urgent and in need of every section, and holds from `count` on.
#[test]
fn unused_entries() {
    for (pairs, right) in CASES {
        for number in [0, 1, 2, 15] {
            let mut watch = holding(pairs, right);
            let m = &mut watch.state.machine;
            m.plan.bases[3..].fill(64);
            m.plan.needs[3..].fill(0xffff);
            let behind = word([number; 16]) << (4 * pairs.len());
            m.holds.sections |= behind;
            m.holds.threads |= behind;
            passes_alone(watch);
        }
    }
}

/// Sections 1 and 2 are held by threads 0 and 1, and thread 2 waits for one of them: the later taken decides who runs. An owner that is wrong
/// is refused also with the thread reported that would run then.
#[test]
fn owner_and_thread_reported() {
    for (pairs, owner) in [([(1, 1), (2, 0)], 1), ([(2, 0), (1, 1)], 0)] {
        for (kept, reported) in (0..=255).flat_map(|kept| [0, 1, 2, 255].map(|reported| (kept, reported))) {
            let mut watch = awaited(1, reported, &pairs, (kept, 7));
            if (kept, reported) == (owner, owner) {
                passes_alone(watch);
            } else {
                is_refused(watch, refused::STATE, TICK, 0);
            }
            owe(&mut watch, &[(LATE, 0)]);
            if kept == owner {
                passes_alone(watch);
            } else {
                is_refused(watch, refused::STATE, LATE, 0);
            }
        }
    }
}

/// A call and its reports: the holds, and the pair behind each record.
fn leads_to(watch: &mut Watch, records: &[(u8, u16)], pairs: &[(u8, u8)], right: (u8, u8)) {
    for record in records {
        steps(watch, &[*record]);
        assert_eq!(
            (held(&watch.state.machine.holds), top(watch)),
            (pairs.to_vec(), right),
            "{record:?}"
        );
    }
}

/// Gives, most of them of a section that is not the latest taken in the module, which no run from the start has.
#[test]
fn gives() {
    let give = |section, pairs: &[(u8, u8)], before, left: &[(u8, u8)], behind| {
        leads_to(&mut holding(pairs, before), &[(GIVE, section)], left, behind);
    };
    give(2, &[(1, 1), (2, 0)], (1, 7), &[(1, 1)], (1, 7));
    give(2, &[(2, 0), (1, 1)], (0, 7), &[(1, 1)], (1, 7)); // of two equal ones the earlier is left
    give(2, &[(0, 1), (2, 0)], (0, 7), &[(0, 1)], (1, 1));
    give(0, &[(1, 1), (0, 0), (2, 0)], (1, 7), &[(1, 1), (2, 0)], (1, 7));
    give(0, &[(0, 0), (1, 1), (2, 1)], (1, 7), &[(1, 1), (2, 1)], (1, 7));
    give(3, &[(4, 1), (3, 0)], (1, 0), &[(4, 1)], (1, 0));
    give(3, &[(3, 0), (4, 1)], (0, 0), &[(4, 1)], (1, 0));
    give(3, &[(3, 0)], (0, 0), &[], (255, 0));
    let mut watch = holding(&[(0, 0), (2, 1), (1, 0)], (1, 7));
    leads_to(&mut watch, &[(GIVE, 0)], &[(2, 1), (1, 0)], (1, 7));
    leads_to(&mut watch, &[(GIVE, 1)], &[(2, 1)], (1, 7));
}

/// Takes: above sections that nobody needs, below one's own, and one that is lost.
#[test]
fn takes() {
    let won = [(TAKE, 0), (WON, 0)];
    leads_to(&mut holding(&[(3, 1)], (1, 0)), &won, &[(0, 0), (3, 1)], (0, 1));
    leads_to(&mut holding(&[(3, 0)], (0, 0)), &won, &[(0, 0), (3, 0)], (0, 1));
    leads_to(&mut holding(&[(1, 0)], (0, 7)), &won, &[(0, 0), (1, 0)], (0, 7));
    let lost = [(TAKE, 0), (LOST, 0), (SWITCH, 1)];
    leads_to(&mut holding(&[(1, 1)], (1, 7)), &lost, &[(1, 1)], (1, 7));
    leads_to(&mut holding(&[(0, 1)], (1, 1)), &lost, &[(0, 1)], (1, 1));
}

/// Thread 2 waits, and thread 0 gives section 1. The heir may want a section that it does not need, whose ceiling is not above those still held.
#[test]
fn heirs() {
    let won = |section, pairs: &[(u8, u8)], left: &[(u8, u8)], behind| {
        let mut watch = awaited(section, 0, pairs, (0, 7));
        leads_to(&mut watch, &[(GIVE, 1), (WON, 2), (READY, 2), (SWITCH, 2)], left, behind);
        leads_to(&mut watch, &[(TICK, 0)], left, behind);
        watch
    };
    won(2, &[(1, 0)], &[(2, 2)], (2, 7));
    won(2, &[(1, 0), (0, 1)], &[(2, 2), (0, 1)], (2, 7));
    won(0, &[(1, 0)], &[(0, 2)], (2, 1));
    won(3, &[(1, 0), (0, 1)], &[(3, 2), (0, 1)], (1, 1));
    won(3, &[(1, 0), (4, 1)], &[(3, 2), (4, 1)], (2, 0));
    let mut watch = won(3, &[(1, 0)], &[(3, 2)], (2, 0));
    leads_to(&mut watch, &[(GIVE, 3)], &[], (255, 0));
}

/// The heir stays barred by a ceiling equal to its base. In the second state the owner changes, and with it the thread that runs.
#[test]
fn barred_heirs() {
    let mut watch = awaited(1, 0, &[(1, 0), (2, 0)], (0, 7));
    leads_to(&mut watch, &[(GIVE, 1), (LOST, 2), (TICK, 0)], &[(2, 0)], (0, 7));
    watch = awaited(1, 0, &[(1, 0), (2, 1)], (0, 7));
    leads_to(&mut watch, &[(GIVE, 1), (LOST, 2), (SWITCH, 1), (TICK, 0)], &[(2, 1)], (1, 7));
}
