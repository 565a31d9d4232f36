//! The kept owner and greatest held ceiling: question 12 asks for both, and each call that moves a hold sets them.

mod common;
mod lists;

use common::{interrupted_run, numbers, random_plan, random_run, Random};
use lists::{bytes, calls_only};
use second::{bench, check_with, Fault, Parts, Reply, Top, Verdict, Watch};

const CREATE: u8 = 1;
const END: u8 = 4;
const TAKE: u8 = 5;
const GIVE: u8 = 6;
const READY: u8 = 16;
const SWITCH: u8 = 17;
const WON: u8 = 18;
const LOST: u8 = 19;

const NOTHING: Top = Top { owner: None, ceiling: 0 };

fn top(owner: usize, ceiling: u8) -> Top {
    Top {
        owner: Some(owner),
        ceiling,
    }
}

/// Sections 0 to 3 have the ceilings 3, 2, 2 and 0. All three threads are ready, nobody waits, and 2 runs, whoever the owner is.
fn holding(holds: &[(u16, u16)], top: Top) -> Parts {
    Parts {
        threads: 3,
        sections: 4,
        bases: vec![1, 2, 3],
        needs: vec![7, 6, 1],
        conditions: vec![(1, 0); 3],
        line: vec![0, 1, 2],
        holds: holds.to_vec(),
        top,
        given: 2,
        ..Parts::default()
    }
}

/// Of all pairs of numbers only this one passes, with nothing due and with a report due.
fn only_passes(holds: &[(u16, u16)], right: Top) {
    let owners = (0..=254).map(Some).chain([None]);
    for pair in owners.flat_map(|owner| (0..=255).map(move |ceiling| Top { owner, ceiling })) {
        for due in [Vec::new(), vec![(READY, 0)]] {
            let parts = Parts {
                due,
                ..holding(holds, pair)
            };
            let mut watch = Watch::from_parts(parts.clone());
            let answer = if pair == right { 7 } else { 12 };
            assert_eq!(watch.step(0, 0), Reply::Refused(answer), "{holds:?} {pair:?}");
            assert_eq!(*watch.parts(), parts);
        }
    }
}

#[test]
fn question_12_asks_for_the_owner_and_the_greatest_ceiling() {
    only_passes(&[], NOTHING);
    only_passes(&[(1, 0)], top(0, 2));
    only_passes(&[(0, 0), (1, 1)], top(0, 3));
    only_passes(&[(1, 1), (0, 0), (2, 2), (3, 1)], top(0, 3));
    // Equal ceilings: the one taken later.
    only_passes(&[(1, 0), (2, 1)], top(1, 2));
    only_passes(&[(2, 1), (1, 0)], top(0, 2));
    // No thread needs section 3. Held alone it has an owner all the same.
    only_passes(&[(3, 1)], top(1, 0));
}

/// Records from the start, each with what is kept after it. 0 takes and gives alone; 2 takes above it and gives; 1 loses and inherits.
fn story() -> Vec<((u8, u16), Top)> {
    vec![
        ((CREATE, 0), NOTHING),
        ((READY, 0), NOTHING),
        ((SWITCH, 0), NOTHING),
        ((TAKE, 1), top(0, 2)),
        ((WON, 0), top(0, 2)),
        ((TAKE, 0), top(0, 3)),
        ((WON, 0), top(0, 3)),
        ((TAKE, 2), top(0, 3)),
        ((WON, 0), top(0, 3)),
        ((GIVE, 2), top(0, 3)),
        ((GIVE, 0), top(0, 2)),
        ((CREATE, 2), top(0, 2)),
        ((READY, 2), top(0, 2)),
        ((SWITCH, 2), top(0, 2)),
        ((TAKE, 0), top(2, 3)),
        ((WON, 2), top(2, 3)),
        ((GIVE, 0), top(0, 2)),
        ((END, 0), top(0, 2)),
        ((SWITCH, 0), top(0, 2)),
        ((CREATE, 1), top(0, 2)),
        ((READY, 1), top(0, 2)),
        ((SWITCH, 1), top(0, 2)),
        ((TAKE, 2), top(0, 2)),
        ((LOST, 1), top(0, 2)),
        ((SWITCH, 0), top(0, 2)),
        ((GIVE, 1), top(1, 2)),
        ((WON, 1), top(1, 2)),
        ((READY, 1), top(1, 2)),
        ((SWITCH, 1), top(1, 2)),
        ((GIVE, 2), NOTHING),
    ]
}

/// The first record of the story after which the pair is not the right one, if there is one.
fn first_wrong(fault: Fault) -> Option<usize> {
    let mut watch = Watch::new_with(fault, &[3, 4, 1, 2, 3, 7, 0, 6, 0, 1, 0]).unwrap();
    let is_right = |((kind, operand), right): &((u8, u16), Top)| {
        let reply = watch.step(*kind, *operand);
        matches!(reply, Reply::Clean { .. }) && watch.parts().top == *right
    };
    story().iter().map(is_right).position(|right| !right)
}

#[test]
fn each_call_that_moves_a_hold_sets_them() {
    assert_eq!(first_wrong(Fault::None), None);
    // The Give that lowers the ceiling, the Give of the section with ceiling 2 while 3 is held, the lost Take, the hand-over, the last Give.
    assert_eq!(first_wrong(Fault::GiveKeepsTop), Some(10));
    assert_eq!(first_wrong(Fault::GivenCeilingKept), Some(9));
    assert_eq!(first_wrong(Fault::LostTakeSetsTop), Some(22));
    assert_eq!(first_wrong(Fault::HandOverKeepsTop), Some(25));
    assert_eq!(first_wrong(Fault::LastOwnerKept), Some(29));
}

#[test]
fn the_ceiling_of_a_section_given_bars_a_later_owner() {
    // Threads of base 1 to 4. Section 0, needed by 0 and 3, has ceiling 4; section 1, needed by 0 and 2, has ceiling 3.
    let plan = [4, 2, 1, 2, 3, 4, 3, 0, 0, 0, 2, 0, 1, 0];
    let taken_and_given = [(CREATE, 0), (READY, 0), (SWITCH, 0), (TAKE, 0), (WON, 0), (GIVE, 0)];
    let taken_and_lost = [
        (TAKE, 1),
        (WON, 0),
        (CREATE, 2),
        (READY, 2),
        (SWITCH, 2),
        (TAKE, 1),
        (LOST, 2),
        (SWITCH, 0),
    ];
    // 0 holds section 1 and is raised to 3 by waiting 2, so that 1 of base 2 does not run. With 4 kept, 0 is no owner.
    let records = [&taken_and_given[..], &taken_and_lost, &[(CREATE, 1), (READY, 1)]].concat();
    let mut dump = [0; 50];
    assert_eq!(bench(&plan, &bytes(&calls_only(&records)), &mut dump), Ok(16));
    assert_eq!(dump[..], bytes(&records));
    let clean = |due| Verdict::Clean { records: 16, due };
    assert_eq!(check_with(Fault::None, &plan, &dump), clean(0));
    assert_eq!(check_with(Fault::GivenCeilingKept, &plan, &dump), clean(1));
}

/// The walk, hold by hold.
fn walk(parts: &Parts) -> Top {
    parts.holds.iter().fold(NOTHING, |found, (section, thread)| {
        let needing = (0..parts.threads).filter(|other| parts.needs[*other] >> section & 1 == 1);
        let ceiling = needing.map(|other| parts.bases[other]).max().unwrap_or(0);
        if ceiling >= found.ceiling {
            top((*thread).into(), ceiling)
        } else {
            found
        }
    })
}

#[test]
fn after_every_record_of_a_run_they_are_what_a_walk_finds() {
    let mut owners = 0;
    for seed in 0..300 {
        let mut random = Random::new(seed);
        let plan = random_plan(&mut random);
        let whole = random_run(&mut random, &plan, Fault::None, 80);
        let interrupted = interrupted_run(&mut random, &plan, Fault::None, 80);
        for records in [whole, interrupted] {
            let mut watch = Watch::new(&plan).unwrap();
            for (kind, operand) in numbers(&records) {
                assert!(matches!(watch.step(kind, operand), Reply::Clean { .. }));
                assert_eq!(watch.parts().top, walk(watch.parts()));
                owners += usize::from(watch.parts().top != NOTHING);
            }
        }
    }
    assert!(owners > 1000, "{owners}");
}

/// Threads 0 and 1 of base 1 hold sections 0 and 1 of ceiling 1, and 1, which took later, runs. Thread 2 of base 3 waits for section 2, which
/// it does not need and nobody holds. The needs of thread 0 decide on that section's ceiling.
fn before_the_hand_over(needs_of_0: u16) -> Parts {
    Parts {
        threads: 3,
        sections: 3,
        bases: vec![1, 1, 3],
        needs: vec![needs_of_0, 2, 0],
        conditions: vec![(1, 0), (1, 0), (3, 2)],
        line: vec![0, 1],
        holds: vec![(0, 0), (1, 1)],
        top: top(1, 1),
        waits: vec![2],
        given: 1,
        ..Parts::default()
    }
}

fn after_the_hand_over(fault: Fault, needs_of_0: u16) -> Top {
    let mut watch = Watch::from_parts_with(fault, before_the_hand_over(needs_of_0));
    assert_eq!(watch.step(GIVE, 1), Reply::Clean { due: 3 });
    assert_eq!(watch.parts().holds, [(0, 0), (2, 2)]);
    watch.parts().top
}

#[test]
fn an_heir_is_the_owner_only_at_the_greatest_ceiling() {
    // Section 2 has ceiling 1 as well, and the heir holds it later.
    assert_eq!(after_the_hand_over(Fault::None, 5), top(2, 1));
    assert_eq!(after_the_hand_over(Fault::HandOverTie, 5), top(0, 1));
    // It has ceiling 0.
    assert_eq!(after_the_hand_over(Fault::None, 1), top(0, 1));
}

/// Threads 0 and 1 hold sections of equal ceiling, which no clean dump leads to, and 2 waits. Thread 3, above them all, runs.
fn tie() -> Parts {
    Parts {
        threads: 4,
        sections: 2,
        bases: vec![1, 1, 2, 3],
        needs: vec![1, 2, 3, 0],
        conditions: vec![(1, 0), (1, 0), (3, 0), (1, 0)],
        line: vec![0, 1, 3],
        holds: vec![(0, 0), (1, 1)],
        top: top(1, 2),
        waits: vec![2],
        given: 3,
        ..Parts::default()
    }
}

#[test]
fn the_owner_on_a_tie_is_the_one_that_took_later() {
    let mut watch = Watch::from_parts(tie());
    assert_eq!(watch.step(END, 0), Reply::Clean { due: 1 });
    assert_eq!(watch.parts().due, vec![(SWITCH, 1)]);
    // The mistake answers 12 to that, and takes the other one for the owner.
    let other = Parts { top: top(0, 2), ..tie() };
    assert_eq!(Watch::from_parts_with(Fault::OwnerTie, tie()).step(END, 0), Reply::Refused(12));
    assert_eq!(Watch::from_parts(other.clone()).step(END, 0), Reply::Refused(12));
    let mut faulty = Watch::from_parts_with(Fault::OwnerTie, other);
    assert_eq!(faulty.step(END, 0), Reply::Clean { due: 1 });
    assert_eq!(faulty.parts().due, vec![(SWITCH, 0)]);
}

#[test]
fn the_caller_is_the_chosen_thread() {
    // Without thread 3, 1 is the caller, the owner raised to 2: it may give section 1 only.
    let alone = Parts {
        conditions: vec![(1, 0), (1, 0), (3, 0), (0, 0)],
        line: vec![0, 1],
        given: 1,
        ..tie()
    };
    let mut watch = Watch::from_parts(alone.clone());
    assert_eq!(watch.step(GIVE, 0), Reply::Broken(27));
    assert_eq!(
        *watch.parts(),
        Parts {
            stored: 27,
            ..alone.clone()
        }
    );
    let mut watch = Watch::from_parts(alone);
    // Ceiling 2 of section 0 is still held, so thread 2 loses; 0 is the owner now.
    assert_eq!(watch.step(GIVE, 1), Reply::Clean { due: 2 });
    assert_eq!(watch.parts().due, vec![(LOST, 2), (SWITCH, 0)]);
    assert_eq!(watch.parts().top, top(0, 2));
}

#[test]
fn the_mistakes_about_what_is_asked() {
    let passes_with = |fault, holds: &[(u16, u16)], pair| {
        let mut watch = Watch::from_parts_with(fault, holding(holds, pair));
        watch.step(0, 0) == Reply::Refused(7)
    };
    assert!(passes_with(Fault::OwnerNotAsked, &[(1, 0)], top(254, 2)));
    assert!(!passes_with(Fault::OwnerNotAsked, &[(1, 0)], top(0, 1)));
    assert!(passes_with(Fault::CeilingNotAsked, &[(1, 0)], top(0, 255)));
    assert!(!passes_with(Fault::CeilingNotAsked, &[(1, 0)], top(1, 2)));
    assert!(passes_with(Fault::NothingHeldNotAsked, &[], top(1, 2)));
    assert!(!passes_with(Fault::NothingHeldNotAsked, &[(1, 0)], NOTHING));
}
