//! The owner's tie: "the thread holding the section of greatest ceiling, on a tie the one taken later". No run from the start leads to
//! two holders of equal greatest ceilings, so these are lent states, with answers worked out by hand from document 01.

mod pairs;

use compare::bytes::Numbers;
use pairs::step;
use second::{Fault, Parts, Reply, Top};

/// Threads 0 and 1 of base 1 are ready and hold sections 0 and 1. Thread 2 of base 2 needs both, so both ceilings are 2; it waits. Thread 3
/// of base 3 is ready and runs, so that the tie decides nothing yet.
fn tie() -> Parts {
    Parts {
        threads: 4,
        sections: 2,
        bases: vec![1, 1, 2, 3],
        needs: vec![1, 2, 3, 0],
        conditions: vec![(1, 0), (1, 0), (3, 0), (1, 0)],
        line: vec![0, 1, 3],
        holds: vec![(0, 0), (1, 1)],
        top: owner(1, 2),
        waits: vec![2],
        given: 3,
        ..Parts::default()
    }
}

fn owner(thread: usize, ceiling: u8) -> Top {
    let owner = Some(thread);
    Top { owner, ceiling }
}

/// The state after the End of thread 3: a Switch to that thread is due.
fn ended(before: &Parts, switched_to: u16) -> Parts {
    Parts {
        conditions: vec![(1, 0), (1, 0), (3, 0), (0, 0)],
        line: vec![0, 1],
        due: vec![(SWITCH, switched_to)],
        ..before.clone()
    }
}

/// The same once the Switch to thread 1 is given.
fn one_runs() -> Parts {
    Parts {
        given: 1,
        due: Vec::new(),
        ..ended(&tie(), 1)
    }
}

fn told_apart(parts: &Parts, record: Numbers) -> bool {
    pairs::told_apart(Fault::OwnerTie, parts, record)
}

const END: Numbers = (4, 0);
const GIVE: u8 = 6;
const READY: u8 = 16;
const WON: u8 = 18;
const LOST: u8 = 19;
const SWITCH: u8 = 17;

#[test]
fn the_later_taker_is_raised_and_chosen() {
    // Thread 1 took later, is the owner, and has current priority 2; 0 has its base 1.
    assert_eq!(step(&tie(), END), (Reply::Clean { due: 1 }, ended(&tie(), 1)));
    assert!(told_apart(&tie(), END));
}

#[test]
fn the_order_of_taking_decides_and_not_the_number() {
    // The same holds taken the other way round: now 0 is the owner.
    let turned = Parts {
        holds: vec![(1, 1), (0, 0)],
        top: owner(0, 2),
        line: vec![1, 0, 3],
        ..tie()
    };
    let after = Parts {
        line: vec![1, 0],
        ..ended(&turned, 0)
    };
    assert_eq!(step(&turned, END), (Reply::Clean { due: 1 }, after));
    assert!(told_apart(&turned, END));
}

#[test]
fn the_later_taker_is_the_caller() {
    // Thread 1 calls, so section 0 is not the one that the caller took last: rule 27, stored.
    let stored = Parts { stored: 27, ..one_runs() };
    assert_eq!(step(&one_runs(), (GIVE, 0)), (Reply::Broken(27), stored));
    assert!(told_apart(&one_runs(), (GIVE, 0)));
}

#[test]
fn the_later_taker_is_the_one_to_be_reported() {
    // With nothing due and 0 reported, though 1 is chosen, 12 is due; and so it is with 0 kept as the owner besides.
    let other = Parts { given: 0, ..one_runs() };
    assert_eq!(step(&other, (GIVE, 0)), (Reply::Refused(12), other.clone()));
    let earlier = Parts { top: owner(0, 2), ..other };
    assert_eq!(step(&earlier, (GIVE, 0)), (Reply::Refused(12), earlier.clone()));
    assert!(told_apart(&earlier, (GIVE, 0)));
}

#[test]
fn the_later_taker_is_the_one_to_be_kept() {
    // Thread 3 runs whoever is the owner, and a Ready may be due.
    for due in [Vec::new(), vec![(READY, 3)]] {
        let earlier = Parts {
            top: owner(0, 2),
            due,
            ..tie()
        };
        assert_eq!(step(&earlier, (READY, 3)), (Reply::Refused(12), earlier.clone()));
        assert!(told_apart(&earlier, (READY, 3)));
    }
}

#[test]
fn the_other_holder_is_the_owner_after_the_give() {
    // Thread 1 gives section 1. Waiting 2 of base 2 is not above ceiling 2 of section 0: Lost 2. Then 0 is the only holder, raised to 2.
    let after = Parts {
        holds: vec![(0, 0)],
        top: owner(0, 2),
        due: vec![(LOST, 2), (SWITCH, 0)],
        ..one_runs()
    };
    assert_eq!(step(&one_runs(), (GIVE, 1)), (Reply::Clean { due: 2 }, after));
    assert!(told_apart(&one_runs(), (GIVE, 1)));
}

#[test]
fn a_lower_ceiling_taken_last_does_not_count() {
    // A third section, taken last by 0 and needed by 0 alone, has ceiling 1: the tie is among the two of ceiling 2, and 1 took later.
    let third = Parts {
        sections: 3,
        needs: vec![5, 2, 3, 0],
        holds: vec![(0, 0), (1, 1), (2, 0)],
        ..tie()
    };
    assert_eq!(step(&third, END), (Reply::Clean { due: 1 }, ended(&third, 1)));
    assert!(told_apart(&third, END));
}

/// Thread 3 is gone, and 2 of base 2 waits for section 2, which nobody holds and which only 0 needs, if anyone does. Sections 0 and 1 have
/// ceiling 1. Thread 1, which took later and is raised to 2, runs.
fn heir_waits(needs_of_0: u16) -> Parts {
    Parts {
        sections: 3,
        needs: vec![needs_of_0, 2, 0, 0],
        conditions: vec![(1, 0), (1, 0), (3, 2), (0, 0)],
        line: vec![0, 1],
        top: owner(1, 1),
        given: 1,
        ..tie()
    }
}

/// Thread 1 gives section 1. Base 2 is above ceiling 1 of section 0, so 2 gets section 2 and runs.
fn inherited(before: &Parts, top: Top) -> Parts {
    Parts {
        conditions: vec![(1, 0), (1, 0), (1, 0), (0, 0)],
        line: vec![0, 1, 2],
        holds: vec![(0, 0), (2, 2)],
        top,
        waits: Vec::new(),
        due: vec![(WON, 2), (READY, 2), (SWITCH, 2)],
        ..before.clone()
    }
}

#[test]
fn an_heir_of_the_same_ceiling_is_the_owner() {
    let before = heir_waits(0b101);
    assert_eq!(step(&before, (GIVE, 1)), (Reply::Clean { due: 3 }, inherited(&before, owner(2, 1))));
    assert!(pairs::told_apart(Fault::HandOverTie, &before, (GIVE, 1)));
    assert!(told_apart(&before, (GIVE, 1)));
}

#[test]
fn an_heir_of_a_lower_ceiling_is_not() {
    // No thread needs section 2.
    let before = heir_waits(0b001);
    assert_eq!(step(&before, (GIVE, 1)), (Reply::Clean { due: 3 }, inherited(&before, owner(0, 1))));
    assert!(!pairs::told_apart(Fault::HandOverTie, &before, (GIVE, 1)));
}
