//! Random runs: check, bench and live step say the same, and demand 3 holds of them.

mod common;
mod lists;

use common::{interrupted_run, numbers, random_plan, random_run, Random};
use lists::{bytes, calls_only};
use second::{bench, bench_with, check, check_with, promise, promise_with, Fault, Reply, Seen, Verdict, Watch};

#[test]
fn bench_check_and_step_agree() {
    for seed in 0..300 {
        let mut random = Random::new(seed);
        let plan = random_plan(&mut random);
        let records = numbers(&random_run(&mut random, &plan, Fault::None, 80));
        let list = bytes(&calls_only(&records));
        let dump = bytes(&records);
        let mut out = vec![0xAA; dump.len() + 3];
        assert_eq!(bench(&plan, &list, &mut out), Ok(records.len()));
        assert_eq!(out[..dump.len()], dump);
        assert_eq!(out[dump.len()..], [0xAA; 3]);
        let clean = Verdict::Clean {
            records: records.len(),
            due: 0,
        };
        assert_eq!(check(&plan, &dump), clean);
        check_and_step_agree(&plan, &records);
    }
}

/// Every record is clean, with the same number due by both.
fn check_and_step_agree(plan: &[u8], records: &[(u8, u16)]) {
    let mut watch = Watch::new(plan).unwrap();
    for k in 0..records.len() {
        let (kind, operand) = records[k];
        let Reply::Clean { due } = watch.step(kind, operand) else {
            panic!("record {k}")
        };
        let verdict = check(plan, &bytes(&records[..=k]));
        assert_eq!(verdict, Verdict::Clean { records: k + 1, due });
    }
}

#[test]
fn check_and_step_agree_with_ticks_among_reports() {
    for seed in 0..300 {
        let mut random = Random::new(seed);
        let plan = random_plan(&mut random);
        let records = numbers(&interrupted_run(&mut random, &plan, Fault::None, 80));
        check_and_step_agree(&plan, &records);
        // The same calls, each made with earlier reports given, are admitted too.
        let mut out = vec![0; 5000];
        assert!(bench(&plan, &bytes(&calls_only(&records)), &mut out).is_ok());
    }
}

#[test]
fn a_changed_record_gives_the_same_breach_everywhere() {
    for seed in 0..300 {
        let mut random = Random::new(seed);
        let plan = random_plan(&mut random);
        let mut records = numbers(&interrupted_run(&mut random, &plan, Fault::None, 60));
        if records.is_empty() {
            continue;
        }
        let place = random.below(records.len());
        records[place] = (1 + random.below(22) as u8, random.below(3) as u16);
        let mut watch = Watch::new(&plan).unwrap();
        let replies: Vec<Reply> = records.iter().map(|(k, n)| watch.step(*k, *n)).collect();
        let broken = replies.iter().position(|r| matches!(r, Reply::Broken(_)));
        match check(&plan, &bytes(&records)) {
            Verdict::Refused(q) => assert!(replies.contains(&Reply::Refused(q))),
            Verdict::Clean { .. } => assert_eq!(broken, None),
            Verdict::Breach { record, rule } => {
                assert_eq!(broken, Some(record));
                assert!(replies[record..].iter().all(|r| *r == Reply::Broken(rule)));
                promise(&plan, &records[..record]).unwrap();
            }
        }
    }
}

#[test]
fn a_short_output_is_refused_untouched() {
    let (plan, list) = ([1, 0, 1, 0, 0], [1, 0, 1, 0, 0]);
    let mut out = [0xAA; 10];
    assert_eq!(bench(&plan, &list, &mut out), Err(11));
    assert_eq!(out, [0xAA; 10]);
    let mut out = [0xAA; 11];
    assert_eq!(bench(&plan, &list, &mut out), Ok(3));
    assert_eq!(out, [3, 0, 1, 16, 17, 0, 0, 0, 0, 0, 0]);
    assert_eq!(bench(&plan, &[0, 0], &mut [0xAA; 1]), Err(11));
}

#[test]
fn demand_3_holds() {
    for seed in 1000..2500 {
        let mut random = Random::new(seed);
        let plan = random_plan(&mut random);
        let whole = random_run(&mut random, &plan, Fault::None, 70);
        let interrupted = interrupted_run(&mut random, &plan, Fault::None, 70);
        for records in [numbers(&whole), numbers(&interrupted)] {
            let cut = random.below(records.len() + 1);
            promise(&plan, &records).unwrap_or_else(|e| panic!("seed {seed}: {e}"));
            promise(&plan, &records[..cut]).unwrap_or_else(|e| panic!("seed {seed}, cut: {e}"));
        }
    }
}

#[test]
fn demand_3_is_asked_with_ticks_among_reports() {
    let seen = (0..300).map(|seed| {
        let mut random = Random::new(seed);
        let plan = random_plan(&mut random);
        let records = numbers(&interrupted_run(&mut random, &plan, Fault::None, 70));
        promise(&plan, &records).unwrap()
    });
    let seen: Vec<Seen> = seen.collect();
    for count in [
        |seen: &Seen| seen.ticks_among_reports,
        |seen: &Seen| seen.parted_by_ticks,
        |seen: &Seen| seen.woken_among_reports,
    ] {
        assert!(seen.iter().map(count).sum::<usize>() > 0);
    }
}

/// The first words of the promise's complaints over clean runs of a faulty machine.
fn broken_parts(fault: Fault) -> Vec<String> {
    let mut parts = Vec::new();
    for seed in 0..200 {
        let mut random = Random::new(seed);
        let plan = random_plan(&mut random);
        let records = numbers(&interrupted_run(&mut random, &plan, fault, 70));
        if let Err(text) = promise_with(fault, &plan, &records) {
            let part = text.split(':').next().unwrap().to_string();
            if !parts.contains(&part) {
                parts.push(part);
            }
        }
    }
    parts.sort();
    parts
}

#[test]
fn demand_3_can_fail() {
    let mut seen = Vec::new();
    for fault in Fault::ALL {
        let parts = broken_parts(fault);
        println!("{}: {}", fault.name(), parts.join(", "));
        seen.extend(parts);
    }
    for part in ["part 1", "part 2", "part 3", "part 4"] {
        assert!(seen.iter().any(|p| p == part), "{part} never failed");
    }
}

#[test]
fn demand_3_refuses_an_unclean_list() {
    let text = promise(&[1, 0, 1, 0, 0], &[(16, 0)]).unwrap_err();
    assert_eq!(text, "not clean: record 0 breaks rule 28");
}

/// Whether the bench of a faulty machine answers this list otherwise than the right one.
fn told_apart(fault: Fault, plan: &[u8], calls: &[(u8, u16)]) -> bool {
    let list = bytes(calls);
    let (mut right, mut wrong) = (vec![0; 3000], vec![0; 3000]);
    bench(plan, &list, &mut right) != bench_with(fault, plan, &list, &mut wrong) || right != wrong
}

/// A call with an operand that no plan refuses, whether the machine admits it or not.
fn any_call(random: &mut Random) -> (u8, u16) {
    let calls = [(4, 0), (7, 0), (8, 0), (11, 0), (11, 1), (11, 7)];
    calls[random.below(calls.len())]
}

/// What a Tick with reports due does wrong; question 21 among it.
const OF_TICKS: [Fault; 7] = [
    Fault::Rule21OfTick,
    Fault::SwitchKeptAtTick,
    Fault::SwitchMovedToFront,
    Fault::ReportedFromDroppedSwitch,
    Fault::ExpireOwedTwice,
    Fault::OwedTimerStands,
    Fault::DelayFromSwitch,
];

/// What question 12 does wrong, and what only lent states show: ties of ceilings, and an owner where nothing is held though a thread waits.
const OF_LENT_STATES: [Fault; 10] = [
    Fault::OwnerTie,
    Fault::SwitchDueAnywhere,
    Fault::SwitchAmongClaims,
    Fault::OwedTimersAmongClaims,
    Fault::ClaimsWithoutOne,
    Fault::HandOverTie,
    Fault::LastOwnerKept,
    Fault::OwnerNotAsked,
    Fault::CeilingNotAsked,
    Fault::NothingHeldNotAsked,
];

#[test]
fn interrupted_runs_tell_the_tick_faults_apart() {
    for fault in OF_TICKS {
        let told = (0..300).any(|seed| {
            let mut random = Random::new(seed);
            let plan = random_plan(&mut random);
            let dump = bytes(&numbers(&interrupted_run(&mut random, &plan, Fault::None, 60)));
            check(&plan, &dump) != check_with(fault, &plan, &dump)
        });
        assert!(told, "{} was not told apart", fault.name());
    }
}

#[test]
fn random_runs_tell_the_machine_faults_apart() {
    // These do not show in the dump of a list: its kinds and operands are allowed, its reports are the due ones, its calls come with nothing due,
    // and its tick numbers are small. The last one needs four threads and their ceilings in one order, as in top.rs.
    let silent = [
        Fault::Questions7And8ByRecord,
        Fault::Rules29And30Swapped,
        Fault::Rule30LowByte,
        Fault::Rule31After21,
        Fault::Rule31OfCallsOnly,
        Fault::CountNotCapped,
        Fault::GivenCeilingKept,
    ];
    let silent = [&silent[..], &OF_TICKS, &OF_LENT_STATES].concat();
    for fault in Fault::ALL.into_iter().filter(|f| !silent.contains(f)) {
        let told = (0..2000).any(|seed| {
            let mut random = Random::new(seed);
            let plan = random_plan(&mut random);
            let run = numbers(&random_run(&mut random, &plan, Fault::None, 60));
            let mut calls = calls_only(&run);
            let admitted = told_apart(fault, &plan, &calls);
            // Cut somewhere, which may be inside an arming, or with a call more there, which the right machine may refuse.
            let place = random.below(calls.len() + 1);
            let cut = told_apart(fault, &plan, &calls[..place]);
            calls.insert(place, any_call(&mut random));
            admitted || cut || told_apart(fault, &plan, &calls)
        });
        assert!(told, "{} was not told apart", fault.name());
    }
}
