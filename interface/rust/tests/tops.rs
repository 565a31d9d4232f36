//! The owner and the greatest ceiling in the watch state, behind each record of runs from the start: worked out by hand from documents 01
//! and 02, but for the last test, which walks.
mod known;

use beltcairn::kind::{CANCEL, CREATE, DELAY, END, EXPIRE, GIVE, LOST, READY, RELINQUISH, START, SWITCH, TAKE, TICK, WON, YIELD};
use beltcairn::{breach, refused, Reply, Watch, NOBODY};
use known::states::{is_refused, owed, steps, top, walked, NOTHING_HELD};
use known::timers::armed;
use known::{known, started, Numbers, Run, PLAN_A};

/// Three threads and four sections: thread 0 (priority 1) needs them all, thread 1 (5) needs 1 and 3, thread 2 (9) needs 2. The ceilings are
/// 1, 5, 9 and 5.
const PLAN: [u8; 11] = [3, 4, 1, 5, 9, 15, 0, 10, 0, 4, 0];

const NONE: (u8, u8) = (255, 0);

/// Owner and ceiling, and records behind each of which they are so.
type Stretch<'a> = ((u8, u8), &'a [(u8, u16)]);

/// Clean steps.
fn go(watch: &mut Watch, stretches: &[Stretch]) {
    for (expected, records) in stretches {
        for record in *records {
            steps(watch, &[*record]);
            assert_eq!(top(watch), *expected, "{record:?}");
        }
    }
}

/// The run in which nobody sleeps, plain and with a Tick behind each record, which changes neither.
fn goes(plan: &[u8], stretches: &[Stretch]) -> Watch {
    let (mut plain, mut ticked) = (Watch::begin(plan).unwrap(), Watch::begin(plan).unwrap());
    assert_eq!((top(&plain), plain.state.machine.holds.top), (NONE, NOTHING_HELD));
    go(&mut plain, stretches);
    for (expected, records) in stretches {
        for record in *records {
            go(&mut ticked, &[(*expected, &[*record, (TICK, 0)])]);
        }
    }
    plain
}

/// The known run of this name, whose records up to a breach are those of the stretches.
fn known_run(name: &str, stretches: &[Stretch]) -> Run {
    let run = known().into_iter().find(|run| run.name == name).unwrap();
    let records: Vec<(u8, u16)> = stretches.iter().flat_map(|stretch| stretch.1).copied().collect();
    assert_eq!(run.records[..records.len()], records[..]);
    run
}

/// The Take is lost, and thread 0 runs on.
fn lost(thread: u16, section: u16) -> [(u8, u16); 6] {
    let [created, ready, switched] = started(thread);
    [created, ready, switched, (TAKE, section), (LOST, thread), (SWITCH, 0)]
}

/// Create 0 to Switch 0, and then these.
fn from_start<'a>(start: &'a [(u8, u16); 3], stretches: &[Stretch<'a>]) -> Vec<Stretch<'a>> {
    [&[(NONE, &start[..])], stretches].concat()
}

/// The ceiling is 3. Thread 2 loses its Take, and is handed the section.
#[test]
fn run_p1() {
    let (start, held) = (
        started(0),
        [&[(TAKE, 0), (WON, 0)], &lost(2, 0)[..], &[(CREATE, 1), (READY, 1)]].concat(),
    );
    let handed: Stretch = ((2, 3), &[(GIVE, 0), (WON, 2), (READY, 2), (SWITCH, 2)]);
    let stretches = from_start(&start, &[((0, 3), &held), handed]);
    let run = known_run("P1", &stretches);
    assert_eq!((run.plan, run.records.len()), (PLAN_A.to_vec(), 17));
    goes(&PLAN_A, &stretches);
}

/// The ceiling is 3 all the time. The section goes from thread 0 to 2, to 1 and to 2 again; the second Take of 2 is lost.
#[test]
fn run_p13() {
    let (start, held) = (started(0), [&[(TAKE, 0), (WON, 0)], &lost(1, 0)[..], &lost(2, 0)].concat());
    let handed: Stretch = ((2, 3), &[(GIVE, 0), (WON, 2), (READY, 2), (SWITCH, 2)]);
    let given: Stretch = ((1, 3), &[(GIVE, 0), (WON, 1), (READY, 1), (TAKE, 0), (LOST, 2), (SWITCH, 1)]);
    let stretches = from_start(&start, &[((0, 3), &held), handed, given, handed]);
    let run = known_run("P13", &stretches);
    assert_eq!(run.records.len(), 31);
    goes(&run.plan, &stretches);
}

/// P11, in which a free section is barred, and the two runs that end with a breach while something is held.
#[test]
fn other_known_runs() {
    let start = started(0);
    let barred = [&[(TAKE, 0), (WON, 0)], &lost(1, 1)[..]].concat();
    let p11 = from_start(&start, &[((0, 2), &barred)]);
    goes(&known_run("P11", &p11).plan, &p11);
    let p8 = from_start(&start, &[((0, 1), &[(TAKE, 0), (WON, 0), (TAKE, 1), (WON, 0)])]);
    let p9 = from_start(&start, &[((0, 1), &[(TAKE, 0), (WON, 0)])]);
    for (name, stretches, rule) in [("P8", p8, breach::NOT_TAKEN_LAST), ("P9", p9, breach::HOLDS_SECTION)] {
        let run = known_run(name, &stretches);
        let mut watch = goes(&run.plan, &stretches);
        let (kind, operand) = *run.records.last().unwrap();
        assert_eq!((watch.step(kind, operand), top(&watch)), (Reply::Broken(rule), (0, 1)));
    }
}

/// One thread: Takes above the ceiling kept, below it and equal to it, Gives of the greatest, of a lower one and of one of two equal ones.
#[test]
fn nested_holds() {
    let start = started(0);
    let stretches: &[Stretch] = &[
        ((0, 1), &[(TAKE, 0), (WON, 0)]),
        (
            (0, 9),
            &[(TAKE, 2), (WON, 0), (TAKE, 1), (WON, 0), (TAKE, 3), (WON, 0), (GIVE, 3), (GIVE, 1)],
        ),
        ((0, 1), &[(GIVE, 2)]),
        ((0, 5), &[(TAKE, 3), (WON, 0), (TAKE, 1), (WON, 0), (GIVE, 1)]),
        ((0, 1), &[(GIVE, 3)]),
        (NONE, &[(GIVE, 0)]),
    ];
    goes(&PLAN, &from_start(&start, stretches));
}

/// Each thread takes a section above those of the threads before it. Thread 2 sleeps, wakes and ends while threads 0 and 1 hold theirs.
#[test]
fn three_holders() {
    let (start, second, third) = (started(0), started(1), started(2));
    let slept = [
        (DELAY, 1),
        (SWITCH, 1),
        (TICK, 0),
        (TICK, 0),
        (READY, 2),
        (SWITCH, 2),
        (END, 0),
        (SWITCH, 1),
    ];
    let stretches: &[Stretch] = &[
        ((0, 1), &[(TAKE, 0), (WON, 0)]),
        ((0, 1), &second),
        ((1, 5), &[(TAKE, 1), (WON, 1), (TAKE, 3), (WON, 1)]),
        ((1, 5), &third),
        ((2, 9), &[(TAKE, 2), (WON, 2)]),
        ((1, 5), &[(GIVE, 2)]),
        ((1, 5), &slept),
        ((1, 5), &[(GIVE, 3)]),
        ((0, 1), &[(GIVE, 1), (END, 0), (SWITCH, 0)]),
        (NONE, &[(GIVE, 0)]),
    ];
    go(&mut Watch::begin(&PLAN).unwrap(), &from_start(&start, stretches));
}

/// Thread 1 waits for section 3, which is free. It stays barred by a ceiling equal to its base, and wins when nothing is held any more.
#[test]
fn heir_barred() {
    let (start, lost) = (started(0), lost(1, 3));
    let stretches: &[Stretch] = &[
        ((0, 5), &[(TAKE, 1), (WON, 0)]),
        ((0, 9), &[(TAKE, 2), (WON, 0)]),
        ((0, 9), &lost),
        ((0, 5), &[(GIVE, 2), (LOST, 1)]),
        ((1, 5), &[(GIVE, 1), (WON, 1), (READY, 1), (SWITCH, 1)]),
        ((1, 5), &[(TAKE, 1), (WON, 1), (GIVE, 1)]),
        (NONE, &[(GIVE, 3)]),
    ];
    goes(&PLAN, &from_start(&start, stretches));
}

/// The same wait; the heir wins while thread 0 keeps section 0, whose ceiling is lower.
#[test]
fn heir_above_what_is_kept() {
    let (start, lost) = (started(0), lost(1, 3));
    let stretches: &[Stretch] = &[
        ((0, 1), &[(TAKE, 0), (WON, 0)]),
        ((0, 5), &[(TAKE, 1), (WON, 0)]),
        ((0, 5), &lost),
        ((1, 5), &[(GIVE, 1), (WON, 1), (READY, 1), (SWITCH, 1)]),
        ((0, 1), &[(GIVE, 3), (RELINQUISH, 0), (END, 0), (SWITCH, 0)]),
        (NONE, &[(GIVE, 0)]),
    ];
    goes(&PLAN, &from_start(&start, stretches));
}

/// Two threads wait: 2, the more urgent, is the first heir, and 1 the second while 2 runs on. Thread 0 keeps section 0 all the time.
#[test]
fn two_heirs() {
    let (start, one, two) = (started(0), lost(1, 1), lost(2, 2));
    let stretches: &[Stretch] = &[
        ((0, 1), &[(TAKE, 0), (WON, 0)]),
        ((0, 9), &[(TAKE, 2), (WON, 0)]),
        ((0, 9), &one),
        ((0, 9), &two),
        ((2, 9), &[(GIVE, 2), (WON, 2), (READY, 2), (SWITCH, 2)]),
        ((1, 5), &[(GIVE, 2), (WON, 1), (READY, 1)]),
        ((2, 9), &[(TAKE, 2), (WON, 2)]),
        ((1, 5), &[(GIVE, 2), (END, 0), (SWITCH, 1)]),
        ((0, 1), &[(GIVE, 1), (END, 0), (SWITCH, 0)]),
        (NONE, &[(GIVE, 0)]),
    ];
    goes(&PLAN, &from_start(&start, stretches));
}

/// Sixteen threads of priorities 4, 8, and so on to 64, each with a section of its own, which it takes while those before it hold theirs.
#[test]
fn sixteen_holders() {
    let mut plan = vec![16, 16];
    plan.extend((1..=16).map(|i| 4 * i));
    plan.extend((0..16).flat_map(|i| (1u16 << i).to_le_bytes()));
    let mut watch = Watch::begin(&plan).unwrap();
    for thread in 0..16 {
        steps(&mut watch, &started(thread));
        go(
            &mut watch,
            &[((thread as u8, 4 * (thread as u8 + 1)), &[(TAKE, thread), (WON, thread)])],
        );
    }
    for thread in (1..16).rev() {
        let given = [(GIVE, thread), (END, 0), (SWITCH, thread - 1)];
        go(&mut watch, &[((thread as u8 - 1, 4 * thread as u8), &given)]);
    }
    go(&mut watch, &[(NONE, &[(GIVE, 0), (END, 0), (SWITCH, NOBODY)])]);
}

/// Threads 0 and 1 have priority 2, thread 2 has 3; 0 and 2 need the section. Every other call is made while thread 0 holds it, and with
/// nothing held.
#[test]
fn calls_that_move_no_hold() {
    let start = started(0);
    let yielded = [(RELINQUISH, 0), (YIELD, 0), (SWITCH, 1)];
    let woken = [(TICK, 0), (EXPIRE, 3), (TICK, 0), (EXPIRE, 3), (READY, 1)];
    let parts: [&[(u8, u16)]; 8] = [
        &[(CREATE, 1), (READY, 1)],
        &yielded,
        &armed(3, 2, 1, 0),
        &[(TICK, 0), (DELAY, 1), (SWITCH, 0)],
        &woken,
        &[(CANCEL, 3), (RELINQUISH, 0), (YIELD, 0), (SWITCH, 1), (END, 0), (SWITCH, 0)],
        &[(CREATE, 2), (READY, 2), (SWITCH, 2), (END, 0), (SWITCH, 0)],
        &[(RELINQUISH, 0)],
    ];
    let held = parts.concat();
    let free = [
        &held[..5],
        &armed(3, 5, 0, 0),
        &[(DELAY, 9), (SWITCH, 0), (END, 0), (SWITCH, NOBODY), (TICK, 0)],
    ]
    .concat();
    let mut watch = Watch::begin(&[3, 1, 2, 2, 3, 1, 0, 0, 0, 1, 0]).unwrap();
    go(
        &mut watch,
        &from_start(
            &start,
            &[
                ((0, 3), &[(TAKE, 0), (WON, 0)]),
                ((0, 3), &held),
                (NONE, &[(GIVE, 0)]),
                (NONE, &free),
            ],
        ),
    );
}

/// A record that breaks this rule: nothing changes but `rule`, now or at a Give and a Tick behind it.
fn breaks(mut watch: Watch, rule: u8, kind: u8, operand: u16) {
    let (before, expected) = (watch, top(&watch));
    for (kind, operand) in [(kind, operand), (GIVE, 2), (TICK, 0)] {
        assert_eq!(watch.step(kind, operand), Reply::Broken(rule));
        assert_eq!((watch, top(&watch)), (Watch { rule, ..before }, expected));
    }
}

/// Every rule, and 7, 8 and 13.
#[test]
fn breaches_and_refusals() {
    let nothing = Watch::begin(&PLAN).unwrap();
    breaks(nothing, breach::NOBODY_RUNS, TAKE, 0);
    breaks(nothing, breach::NOBODY_RUNS, GIVE, 0);
    let (start, lost) = (started(0), lost(1, 1));
    let mut held = goes(
        &PLAN,
        &from_start(&start, &[((0, 9), &[(TAKE, 2), (WON, 0), (TAKE, 0), (WON, 0)]), ((0, 9), &lost)]),
    );
    let calls = [
        (CREATE, 0),
        (CREATE, 1),
        (DELAY, 1),
        (END, 0),
        (TAKE, 2),
        (GIVE, 2),
        (GIVE, 1),
        (CANCEL, 0),
    ];
    let rules = [23, 23, 24, 24, 26, 27, 27, 32];
    for ((kind, operand), rule) in calls.into_iter().zip(rules) {
        breaks(held, rule, kind, operand);
    }
    breaks(held, breach::NONE_DUE, WON, 0);
    breaks(held, breach::ARMING_ORDER, START, 1);
    for (question, kind, operand) in [(refused::KIND, 0, 0), (refused::OPERAND, TAKE, 4), (refused::OPERAND, GIVE, 4)] {
        is_refused(held, question, kind, operand);
    }
    let mut other = held;
    go(&mut other, &[((0, 9), &started(2))]);
    breaks(other, breach::NOT_NEEDED, TAKE, 0);
    go(&mut held, &[((0, 9), &[(TAKE, 3)])]);
    for (rule, kind, operand) in [(21, GIVE, 3), (21, TAKE, 1), (29, LOST, 0), (30, WON, 1)] {
        breaks(held, rule, kind, operand);
    }
    held.state.machine.tick = 4_000_000_000;
    is_refused(held, refused::TICK, TICK, 0);
    assert_eq!(top(&held), (0, 9));
}

/// A plan of up to six threads and sections with few priorities, so that many are equal.
fn any_plan(numbers: &mut Numbers) -> Vec<u8> {
    let (threads, sections) = (1 + numbers.below(6), 1 + numbers.below(6));
    let mut plan = vec![threads as u8, sections as u8];
    plan.extend((0..threads).map(|_| 1 + numbers.below(4) as u8));
    plan.extend((0..threads).flat_map(|_| [numbers.below(1 << sections) as u8, 0]));
    plan
}

/// A call, more often one that may move a hold than another.
fn any_call(numbers: &mut Numbers, watch: &Watch) -> (u8, u16) {
    let plan = &watch.state.machine.plan;
    match numbers.below(12) {
        0 => (CREATE, numbers.below(plan.threads) as u16),
        1 => (DELAY, 1 + numbers.below(3) as u16),
        2 => ([RELINQUISH, END, TICK][numbers.below(3)], 0),
        3..=6 => (GIVE, numbers.below(plan.sections) as u16),
        _ => (TAKE, numbers.below(plan.sections) as u16),
    }
}

/// Calls in no order, each with its reports behind it. A call that breaks a rule is left out.
#[test]
fn calls_in_no_order() {
    let (mut numbers, mut moved) = (Numbers(3), 0);
    for _ in 0..400 {
        let mut watch = Watch::begin(&any_plan(&mut numbers)).unwrap();
        for _ in 0..200 {
            let (before, (kind, operand)) = (watch, any_call(&mut numbers, &watch));
            match watch.step(kind, operand) {
                Reply::Clean(_) => {}
                Reply::Broken(rule) => {
                    assert_eq!(watch, Watch { rule, ..before });
                    watch = before;
                }
                refused => panic!("{refused:?}"),
            }
            let expected = walked(&watch.state.machine);
            assert_eq!(watch.state.machine.holds.top, expected);
            moved += usize::from(before.state.machine.holds.top != expected);
            for report in owed(&watch.state) {
                steps(&mut watch, &[report]);
                assert_eq!(watch.state.machine.holds.top, expected);
            }
        }
    }
    assert!(moved > 1000, "{moved}");
}
