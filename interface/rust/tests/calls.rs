//! The functions on the known runs and those of sleepers, timers and Ticks among reports, on what they refuse, and on any bytes.
mod known;

use beltcairn::kind::{
    ARM, CANCEL, CREATE, DELAY, END, EXPIRE, GIVE, LATE, LOST, PERIOD, READY, RELINQUISH, START, SWITCH, TAKE, TICK, WON, YIELD,
};
use beltcairn::{bench, check, Reply, Verdict, Watch, Written};
use known::interrupts::run_of_interrupts;
use known::states::walked;
use known::timers::{armed, run_of_timers};
use known::{bytes, interrupts, known, run_a, sleepers, started, timers, Numbers, Run, PLAN_A};

const KINDS: [u8; 18] = [
    CREATE, DELAY, RELINQUISH, END, TAKE, GIVE, TICK, ARM, START, PERIOD, CANCEL, READY, SWITCH, WON, LOST, YIELD, EXPIRE, LATE,
];

/// Those in which each call that is admitted is made with nothing due, but for P6.
fn rested_runs() -> impl Iterator<Item = Run> {
    known().into_iter().chain(sleepers::runs()).chain(timers::runs())
}

fn all_runs() -> impl Iterator<Item = Run> {
    rested_runs().chain(interrupts::runs())
}

/// The verdict of live steps, one for each record until one breaks a rule; owner and greatest ceiling are those of a walk behind each.
fn step_by_step(plan: &[u8], records: &[(u8, u16)]) -> Verdict {
    let mut watch = Watch::begin(plan).expect("a plan that passes");
    let mut due = 0;
    for (i, record) in records.iter().enumerate() {
        let reply = watch.step(record.0, record.1);
        assert_eq!(watch.state.machine.holds.top, walked(&watch.state.machine), "{records:?} at {i}");
        match reply {
            Reply::Clean(n) => due = n,
            Reply::Broken(rule) => return Verdict::Breach { record: i as u64, rule },
            Reply::Refused(question) => return Verdict::Refused(question),
        }
    }
    Verdict::Clean {
        records: records.len() as u64,
        due,
    }
}

#[test]
fn known_runs_whole_and_step_by_step() {
    assert_eq!(known().len(), 15);
    for run in all_runs() {
        assert_eq!(check(&run.plan, &bytes(&run.records)), run.verdict, "{}", run.name);
        assert_eq!(step_by_step(&run.plan, &run.records), run.verdict, "{}", run.name);
    }
}

fn calls_of(records: &[(u8, u16)]) -> Vec<(u8, u16)> {
    records.iter().copied().filter(|record| record.0 < READY).collect()
}

#[test]
fn calls_of_a_clean_run_make_its_dump() {
    let ends_inside_arming = |run: &Run| matches!(run.records.last(), Some((ARM | START, _)));
    let settled = |run: &Run| matches!(run.verdict, Verdict::Clean { due: 0, .. }) && !ends_inside_arming(run);
    for run in rested_runs().filter(settled) {
        let calls = calls_of(&run.records);
        let dump = bytes(&run.records);
        let mut out = vec![0xaa; dump.len() + 7];
        assert_eq!(
            bench(&run.plan, &bytes(&calls), &mut out),
            Written::Wrote(run.records.len() as u64),
            "{}",
            run.name
        );
        assert_eq!(out[..dump.len()], dump[..], "{}", run.name);
        assert_eq!(out[dump.len()..], [0xaa; 7], "{}", run.name);
        let mut short = vec![0xaa; dump.len() - 1];
        assert_eq!(bench(&run.plan, &bytes(&calls), &mut short), Written::Refused(11), "{}", run.name);
        assert!(short.iter().all(|b| *b == 0xaa), "{}", run.name);
    }
}

/// The known runs in which nobody sleeps, with a Tick behind each record. No timer is armed there, so that a Tick adds nothing and makes the
/// Switch due again that it drops: the verdict is that of the run, at a record twice as far.
#[test]
fn known_runs_with_many_ticks() {
    let wakeful = |run: &Run| !run.records.iter().any(|record| record.0 == DELAY);
    for run in known().into_iter().filter(wakeful) {
        let records: Vec<(u8, u16)> = run.records.iter().flat_map(|record| [*record, (TICK, 0)]).collect();
        let verdict = match run.verdict {
            Verdict::Clean { records, due } => Verdict::Clean { records: 2 * records, due },
            Verdict::Breach { record, rule } => Verdict::Breach { record: 2 * record, rule },
            refused => refused,
        };
        assert_eq!(check(&run.plan, &bytes(&records)), verdict, "{}", run.name);
        assert_eq!(step_by_step(&run.plan, &records), verdict, "{}", run.name);
    }
}

/// The bench kernel gives every report before its next call: of the calls of this run it makes the dump with each Tick behind the reports.
#[test]
fn the_bench_makes_no_interrupts() {
    let parts: [&[(u8, u16)]; 8] = [
        &started(2),
        &[(TICK, 0)],
        &armed(0, 2, 1, 0),
        &[(CREATE, 1), (READY, 1), (TICK, 0), (EXPIRE, 0), (TICK, 0), (EXPIRE, 0)],
        &[(DELAY, 1), (SWITCH, 1), (TICK, 0), (EXPIRE, 0)],
        &[(TICK, 0), (EXPIRE, 0), (READY, 2), (SWITCH, 2)],
        &[(TAKE, 0), (WON, 2), (TICK, 0), (EXPIRE, 0)],
        &[(GIVE, 0), (CANCEL, 0)],
    ];
    let (interrupted, rested) = (run_of_interrupts(), parts.concat());
    let clean = |records| Verdict::Clean { records, due: 0 };
    assert_eq!(check(&PLAN_A, &bytes(&interrupted)), clean(25));
    assert_eq!(check(&PLAN_A, &bytes(&rested)), clean(28));
    let mut out = vec![0xaa; 2 + 3 * 28];
    assert_eq!(bench(&PLAN_A, &bytes(&calls_of(&interrupted)), &mut out), Written::Wrote(28));
    assert_eq!(out, bytes(&rested));
}

#[test]
fn a_breach_is_stored_and_answered_from_then_on() {
    for run in all_runs() {
        let Verdict::Breach { record, rule } = run.verdict else { continue };
        let mut watch = Watch::begin(&run.plan).unwrap();
        for (kind, operand) in &run.records[..record as usize] {
            assert!(matches!(watch.step(*kind, *operand), Reply::Clean(_)), "{}", run.name);
        }
        let before = watch;
        let (kind, operand) = run.records[record as usize];
        assert_eq!(watch.step(kind, operand), Reply::Broken(rule), "{}", run.name);
        assert_eq!(watch, Watch { rule, ..before }, "{}", run.name);
        assert_eq!(watch.step(TICK, 0), Reply::Broken(rule), "{}", run.name);
        assert_eq!(watch, Watch { rule, ..before }, "{}", run.name);
    }
}

#[test]
fn refused_plans() {
    let plans: [(u8, &[u8]); 9] = [
        (1, &[]),
        (1, &[0, 0]),
        (1, &[17, 0]),
        (1, &[1, 17, 1, 0, 0]),
        (2, &[1, 0, 1, 0]),
        (2, &[1, 0, 1, 0, 0, 0]),
        (3, &[1, 0, 0, 0, 0]),
        (3, &[1, 0, 65, 0, 0]),
        (4, &[1, 0, 1, 1, 0]),
    ];
    for (question, plan) in plans {
        let mut out = [0xaa; 8];
        assert_eq!(check(plan, &[0, 0]), Verdict::Refused(question), "{plan:?}");
        assert_eq!(bench(plan, &[0, 0], &mut out), Written::Refused(question), "{plan:?}");
        assert_eq!(Watch::begin(plan), Err(question), "{plan:?}");
        assert_eq!(out, [0xaa; 8]);
    }
}

#[test]
fn refused_dumps_and_lists() {
    let cases: [(u8, &[u8]); 11] = [
        (5, &[]),
        (5, &[0x21, 0x4e]),
        (6, &[0x20, 0x4e]),
        (6, &[0, 0, 0]),
        (7, &[1, 0, 12, 0, 0]),
        (7, &[1, 0, 23, 0, 0]),
        (8, &[1, 0, CREATE, 3, 0]),
        (8, &[1, 0, TICK, 1, 0]),
        (8, &[1, 0, ARM, 8, 0]),
        (8, &[1, 0, START, 0, 0]),
        (8, &[1, 0, CANCEL, 8, 0]),
    ];
    for (question, list) in cases {
        let mut out = [0xaa; 60];
        assert_eq!(check(&PLAN_A, list), Verdict::Refused(question), "{list:?}");
        assert_eq!(bench(&PLAN_A, list, &mut out), Written::Refused(question), "{list:?}");
        assert_eq!(out, [0xaa; 60]);
    }
    let mut out = [0xaa; 60];
    assert_eq!(bench(&PLAN_A, &bytes(&[(READY, 0)]), &mut out), Written::Refused(7));
    assert_eq!(bench(&PLAN_A, &bytes(&[(RELINQUISH, 0)]), &mut out), Written::Refused(9));
    assert_eq!(check(&PLAN_A, &bytes(&[(EXPIRE, 8)])), Verdict::Refused(8));
    let inside = [(CREATE, 0), (ARM, 0), (START, 1)]; // a list that ends inside an arming
    assert_eq!(bench(&PLAN_A, &bytes(&inside[..2]), &mut out), Written::Refused(9));
    assert_eq!(bench(&PLAN_A, &bytes(&inside), &mut out), Written::Refused(9));
    assert_eq!(out, [0xaa; 60]);
}

#[test]
fn most_records() {
    let mut calls = vec![(RELINQUISH, 0); 6668];
    (calls[0], calls[1]) = ((CREATE, 0), (CREATE, 1));
    let plan = [2, 0, 1, 1, 0, 0, 0, 0];
    let mut out = vec![0xaa; 60002];
    assert_eq!(bench(&plan, &bytes(&calls), &mut out), Written::Refused(10));
    assert!(out.iter().all(|b| *b == 0xaa));
    assert_eq!(bench(&plan, &bytes(&calls[..6667]), &mut out), Written::Wrote(20000));
    assert_eq!(check(&plan, &out), Verdict::Clean { records: 20000, due: 0 });
}

#[test]
fn any_bytes_are_answered() {
    let mut numbers = Numbers(1);
    for _ in 0..20_000 {
        let (plan, list, mut out) = (numbers.bytes(60), numbers.bytes(60), numbers.bytes(90));
        let before = out.clone();
        let verdict = check(&plan, &list);
        assert!(matches!(
            verdict,
            Verdict::Refused(1..=8) | Verdict::Clean { .. } | Verdict::Breach { rule: 21..=32, .. }
        ));
        match bench(&plan, &list, &mut out) {
            Written::Refused(question) => assert!((1..=11).contains(&question) && out == before),
            Written::Wrote(n) => assert!(2 + 3 * n as usize <= out.len()),
        }
        assert!(!matches!(Watch::begin(&plan), Err(0 | 5..)));
    }
}

/// Run A, a run of timers and one of Ticks among reports with up to three numbers changed: the whole check says what live steps say.
#[test]
fn changed_runs_are_judged_alike() {
    let mut numbers = Numbers(2);
    let (mut clean, mut broken) = (0, 0);
    for i in 0..40_000 {
        let mut records = [run_a, run_of_timers, run_of_interrupts][i % 3]();
        for _ in 0..numbers.below(4) {
            let i = numbers.below(records.len());
            match numbers.below(3) {
                0 => records[i].0 = KINDS[numbers.below(18)],
                1 => records[i].1 = numbers.below(4) as u16,
                _ => records.truncate(i + 1),
            }
        }
        let whole = check(&PLAN_A, &bytes(&records));
        match whole {
            Verdict::Refused(question) => assert!(question == 8),
            Verdict::Clean { .. } => clean += 1,
            Verdict::Breach { .. } => broken += 1,
        }
        if !matches!(whole, Verdict::Refused(_)) {
            assert_eq!(step_by_step(&PLAN_A, &records), whole);
        }
    }
    assert!(clean > 1000 && broken > 1000);
}
