//! Owner and greatest held ceiling: "for every list of records from the start they must equal the walk's result, with 0 and nobody when nothing
//! is held. A lent state where they differ from it answers 12." The answers are worked out by hand from documents 01 and 02.

mod pairs;

use compare::bytes::{plan, Numbers};
use compare::sides::Pair;
use compare::words::records;
use pairs::{step, told_apart};
use second::{Fault, Parts, Reply, Top, LAST_TICK};

const NOTHING: Top = Top { owner: None, ceiling: 0 };
const RELINQUISH: Numbers = (3, 0);
const GIVE: u8 = 6;
const TICK: Numbers = (7, 0);
const READY: Numbers = (16, 0);

const BASES: [u8; 3] = [10, 20, 30];
const NEEDS: [u16; 3] = [0b111, 0b110, 0b001];

const fn owner(thread: usize, ceiling: u8) -> Top {
    let owner = Some(thread);
    Top { owner, ceiling }
}

/// Sections 0 to 3 have the ceilings 30, 20, 20 and 0. All threads are ready, none waits, and 2 of base 30 runs, whoever the owner is.
fn holding(holds: &[(u16, u16)], top: Top) -> Parts {
    Parts {
        threads: 3,
        sections: 4,
        bases: BASES.to_vec(),
        needs: NEEDS.to_vec(),
        conditions: vec![(1, 0); 3],
        line: vec![0, 1, 2],
        holds: holds.to_vec(),
        top,
        given: 2,
        ..Parts::default()
    }
}

/// No other thread has base 30, so that a Relinquish changes nothing.
fn passes(parts: &Parts) -> bool {
    step(parts, RELINQUISH) == (Reply::Clean { due: 0 }, parts.clone())
}

/// With nothing due and with a Ready due, which is then given. Nothing changes.
fn is_refused(parts: &Parts) -> bool {
    let due = Parts {
        due: vec![READY],
        ..parts.clone()
    };
    let refused = |parts: &Parts, record| step(parts, record) == (Reply::Refused(12), parts.clone());
    refused(parts, RELINQUISH) && refused(parts, TICK) && refused(&due, READY)
}

#[test]
fn what_the_walk_finds_passes() {
    assert!(passes(&holding(&[], NOTHING)));
    assert!(passes(&holding(&[(1, 0)], owner(0, 20))));
    assert!(passes(&holding(&[(0, 0), (1, 1)], owner(0, 30))));
    assert!(passes(&holding(&[(3, 2), (2, 1), (0, 0), (1, 1)], owner(0, 30))));
    // Sections 1 and 2 have ceiling 20 both, and the later hold counts.
    assert!(passes(&holding(&[(1, 0), (2, 1)], owner(1, 20))));
    assert!(passes(&holding(&[(2, 1), (1, 0)], owner(0, 20))));
}

#[test]
fn another_owner_answers_12() {
    // 0 holds ceiling 30, 1 holds 20, and 2 holds nothing.
    let owners = [Some(1), Some(2), None, Some(3), Some(15), Some(16), Some(254)];
    for parts in owners.map(|owner| holding(&[(0, 0), (1, 1)], Top { owner, ceiling: 30 })) {
        assert!(is_refused(&parts), "{parts:?}");
        assert!(told_apart(Fault::OwnerNotAsked, &parts, RELINQUISH));
        assert!(!told_apart(Fault::CeilingNotAsked, &parts, RELINQUISH));
    }
}

#[test]
fn another_ceiling_answers_12() {
    for ceiling in [31, 29, 20, 0, 64, 255] {
        let parts = holding(&[(0, 0), (1, 1)], owner(0, ceiling));
        assert!(is_refused(&parts), "{parts:?}");
        assert!(told_apart(Fault::CeilingNotAsked, &parts, RELINQUISH));
        assert!(!told_apart(Fault::OwnerNotAsked, &parts, RELINQUISH));
    }
    // Owner and ceiling of the other hold.
    assert!(is_refused(&holding(&[(0, 0), (1, 1)], owner(1, 20))));
    assert!(is_refused(&holding(&[(0, 0), (1, 1)], NOTHING)));
}

#[test]
fn nothing_held_is_nobody_and_0() {
    let owned = [0, 2, 3, 254].map(|thread| owner(thread, 0));
    let capped = [1, 30, 255].map(|ceiling| Top { owner: None, ceiling });
    for top in [&owned[..], &capped, &[owner(0, 30)]].concat() {
        let parts = holding(&[], top);
        assert!(is_refused(&parts), "{parts:?}");
        assert!(told_apart(Fault::NothingHeldNotAsked, &parts, RELINQUISH));
    }
    assert!(!told_apart(Fault::NothingHeldNotAsked, &holding(&[(1, 0)], NOTHING), RELINQUISH));
}

#[test]
fn a_ceiling_of_0_has_an_owner() {
    // No thread needs section 3, and 1 holds it.
    assert!(passes(&holding(&[(3, 1)], owner(1, 0))));
    assert!(is_refused(&holding(&[(3, 1)], NOTHING)));
    assert!(told_apart(Fault::OwnerNotAsked, &holding(&[(3, 1)], NOTHING), RELINQUISH));
    assert!(is_refused(&holding(&[(3, 1)], owner(0, 0))));
    assert!(is_refused(&holding(&[(3, 1)], owner(1, 10))));
    // Of two such sections the later hold counts, and any ceiling counts more.
    let plan_of_0 = |holds, top| Parts {
        needs: vec![0b100, 0, 0],
        ..holding(holds, top)
    };
    assert!(passes(&plan_of_0(&[(3, 1), (1, 0)], owner(0, 0))));
    assert!(passes(&plan_of_0(&[(2, 1), (3, 2), (1, 0)], owner(1, 10))));
}

#[test]
fn the_question_comes_first() {
    let wrong = holding(&[(1, 0)], owner(0, 30));
    let refused = |parts: &Parts, record| step(parts, record) == (Reply::Refused(12), parts.clone());
    // Before 7, 8, 13 and a breach that is stored.
    assert!(refused(&wrong, (0, 0)) && refused(&wrong, (1, 3)));
    let last = |top| Parts {
        tick: LAST_TICK,
        ..holding(&[(1, 0)], top)
    };
    assert!(refused(&last(owner(0, 30)), TICK));
    assert_eq!(step(&last(owner(0, 20)), TICK).0, Reply::Refused(13));
    let stored = |top| Parts {
        stored: 27,
        ..holding(&[(1, 0)], top)
    };
    assert!(refused(&stored(owner(0, 30)), RELINQUISH));
    assert_eq!(step(&stored(owner(0, 20)), RELINQUISH).0, Reply::Broken(27));
}

#[test]
fn a_breach_leaves_them() {
    // Thread 2 runs and does not hold section 1.
    let parts = holding(&[(1, 0), (0, 2)], owner(2, 30));
    let stored = Parts {
        stored: 27,
        ..parts.clone()
    };
    assert_eq!(step(&parts, (GIVE, 1)), (Reply::Broken(27), stored));
}

#[test]
fn the_last_give_leaves_nobody() {
    let parts = holding(&[(0, 2)], owner(2, 30));
    assert_eq!(step(&parts, (GIVE, 0)), (Reply::Clean { due: 0 }, holding(&[], NOTHING)));
    assert!(told_apart(Fault::LastOwnerKept, &parts, (GIVE, 0)));
    assert!(!told_apart(
        Fault::LastOwnerKept,
        &holding(&[(1, 0), (0, 2)], owner(2, 30)),
        (GIVE, 0)
    ));
}

#[test]
fn a_give_of_an_earlier_hold_leaves_the_greatest() {
    // Thread 2 took section 0, and then 1 took section 2: the latest of thread 2, and not of all.
    let parts = holding(&[(1, 0), (0, 2), (2, 1)], owner(2, 30));
    let after = holding(&[(1, 0), (2, 1)], owner(1, 20));
    assert_eq!(step(&parts, (GIVE, 0)), (Reply::Clean { due: 0 }, after));
    // With ceiling 30 held by 1 as well, and later, only the list of holds changes.
    let parts = Parts {
        needs: vec![0b111, 0b110, 0b101],
        ..holding(&[(0, 2), (2, 1)], owner(1, 30))
    };
    let after = Parts {
        holds: vec![(2, 1)],
        ..parts.clone()
    };
    assert_eq!(step(&parts, (GIVE, 0)), (Reply::Clean { due: 0 }, after));
}

/// Records from the start, and what is kept after each of a row.
const STORY: [(&str, Top); 13] = [
    ("Create 0; Ready 0; Switch 0", NOTHING),
    ("Take 1; Won 0", owner(0, 20)),
    ("Take 0; Won 0", owner(0, 30)),
    ("Take 2; Won 0", owner(0, 30)),
    ("Give 2", owner(0, 30)),
    ("Give 0", owner(0, 20)),
    ("Create 2; Ready 2; Switch 2", owner(0, 20)),
    ("Take 0; Won 2", owner(2, 30)),
    ("Give 0", owner(0, 20)),
    ("End; Switch 0; Create 1; Ready 1; Switch 1", owner(0, 20)),
    ("Take 2; Lost 1; Switch 0", owner(0, 20)),
    ("Give 1; Won 1; Ready 1; Switch 1", owner(1, 20)),
    ("Give 2", NOTHING),
];

/// The first row in which a mistake shows.
fn first_row(fault: Fault) -> Option<usize> {
    let mut pair = Pair::begin(fault, &plan(4, &BASES, &NEEDS)).unwrap().unwrap();
    STORY.into_iter().position(|(row, top)| {
        let mut shows = |record| match pair.step(record) {
            Ok(reply) => {
                assert!(matches!(reply, Reply::Clean { .. }), "{row}");
                assert_eq!(pair.parts().top, top, "{row}");
                false
            }
            Err(_) => true,
        };
        records(row).into_iter().any(&mut shows)
    })
}

#[test]
fn from_the_start_each_call_that_moves_a_hold_sets_them() {
    assert_eq!(first_row(Fault::None), None);
    assert_eq!(first_row(Fault::GivenCeilingKept), Some(4));
    assert_eq!(first_row(Fault::GiveKeepsTop), Some(5));
    assert_eq!(first_row(Fault::LostTakeSetsTop), Some(10));
    assert_eq!(first_row(Fault::HandOverKeepsTop), Some(11));
    assert_eq!(first_row(Fault::LastOwnerKept), Some(12));
}
