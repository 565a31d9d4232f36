//! Each way of breaking a lent state leaves what 12 asks of the reports due, and of the owner and the greatest ceiling, as it is, or breaks one
//! of them and nothing else.

use compare::broken::{broken_parts, WAYS};
use compare::random::Random;
use compare::tops::walked;
use second::{Fault, Parts};

/// States broken in the ways whose name has these words; there are some.
fn broken_so(words: &str) -> impl Iterator<Item = Parts> + '_ {
    let mut random = Random::new(1);
    let ways: Vec<_> = WAYS.into_iter().filter(|(name, _)| name.contains(words)).collect();
    assert!(!ways.is_empty(), "{words}");
    (0..2000).map(move |i| broken_parts(ways[i % ways.len()].1, &mut random))
}

fn switch_is_last(parts: &Parts) -> bool {
    let before_the_last = parts.due.len().saturating_sub(1);
    parts.due[..before_the_last].iter().all(|(kind, _)| *kind != 17)
}

#[test]
fn a_switch_that_is_not_last_is_all_that_is_wrong() {
    for parts in broken_so("a Switch due").chain(broken_so("two Switches due")) {
        assert!(!switch_is_last(&parts));
        assert!(parts.machine(Fault::SwitchDueAnywhere).is_some(), "{parts:?}");
    }
}

#[test]
fn one_claim_more_is_all_that_is_wrong() {
    for parts in broken_so("one more than T + 9 in all") {
        assert_eq!(parts.claims(), parts.threads + 10);
        assert!(parts.due.len() <= parts.threads + 9);
        assert!(parts.machine(Fault::ClaimsWithoutOne).is_some(), "{parts:?}");
    }
}

#[test]
fn the_other_ways_leave_room_for_a_tick() {
    let about_reports = ["a Switch due", "two Switches due", "T + 9"];
    let mut random = Random::new(1);
    for (name, break_it) in WAYS {
        if about_reports.iter().any(|words| name.contains(words)) {
            continue;
        }
        for _ in 0..500 {
            let parts = broken_parts(break_it, &mut random);
            assert!(switch_is_last(&parts), "{name}: {parts:?}");
            assert!(parts.claims() <= parts.threads.saturating_add(9), "{name}: {parts:?}");
        }
    }
}

#[test]
fn the_claims_are_often_at_their_limit() {
    let mut random = Random::new(1);
    let states: Vec<Parts> = (0..2000).map(|_| compare::lent::formed_parts(&mut random)).collect();
    let at_the_limit = states.iter().filter(|parts| parts.claims() == parts.threads + 9).count();
    assert!(at_the_limit > 400, "{at_the_limit}");
}

#[test]
fn another_owner_or_ceiling_is_all_that_is_wrong() {
    for parts in broken_so("owner").chain(broken_so("greatest ceiling")) {
        let right = Parts {
            top: walked(&parts),
            ..parts
        };
        assert!(right.machine(Fault::None).is_some(), "{right:?}");
    }
}

#[test]
fn the_owner_and_the_greatest_ceiling_differ_where_the_name_says_so() {
    let mut random = Random::new(1);
    for (name, break_it) in WAYS {
        let named = (name.starts_with("owner"), name.contains("greatest ceiling"));
        for parts in (0..500).map(|_| broken_parts(break_it, &mut random)) {
            let (lent, right) = (parts.top, walked(&parts));
            assert_eq!(
                (lent.owner != right.owner, lent.ceiling != right.ceiling),
                named,
                "{name}: {parts:?}"
            );
        }
    }
}
