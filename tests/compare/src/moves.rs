//! What lent states, and clean Takes and Gives, show of the owner and the greatest held ceiling.

use std::collections::BTreeSet;

use second::Parts;

use crate::answer::Answer;
use crate::bytes::Numbers;
use crate::tops::{ceiling, greatest_first};

/// What a run from the start leads to.
pub const FROM_THE_START: [Answer; 9] = [OVER, UNDER, LOST, LEFT, LOWERED, SAME, EMPTIED, HEIR, HEIR_OVER];

/// What lent states have besides, the last three of them before any step.
pub const LENT: [Answer; 6] = [NOT_LATEST, HEIR_UNDER, HEIR_TIE, TIE, ZERO, NOTHING];

/// What lent states show even where few of their steps are Takes and Gives of the running thread.
pub const OFTEN: [Answer; 8] = [TIE, ZERO, NOTHING, NOT_LATEST, LOST, LEFT, EMPTIED, HEIR];

/// A won Take.
pub const OVER: Answer = Answer::Showed("a Take that makes another thread the owner");
pub const UNDER: Answer = Answer::Showed("a won Take of a lower ceiling than the greatest");

/// A lost one whose section would count.
pub const LOST: Answer = Answer::Showed("a lost Take of a ceiling at or above the greatest");

/// A Give without an heir that wins.
pub const LEFT: Answer = Answer::Showed("a Give that leaves another owner");
pub const LOWERED: Answer = Answer::Showed("a Give that leaves the owner a lower ceiling");
pub const SAME: Answer = Answer::Showed("a Give that leaves owner and ceiling");
pub const EMPTIED: Answer = Answer::Showed("a Give that leaves nothing held");
const NOT_LATEST: Answer = Answer::Showed("a Give of a hold that is not the latest of all");

/// A Give with one.
pub const HEIR: Answer = Answer::Showed("an heir that is the only holder");
pub const HEIR_OVER: Answer = Answer::Showed("an heir that becomes owner above another");
const HEIR_UNDER: Answer = Answer::Showed("an heir that leaves another the owner");
const HEIR_TIE: Answer = Answer::Showed("an heir that becomes owner by a tie");

const TIE: Answer = Answer::Showed("two threads with equal greatest ceilings");
const ZERO: Answer = Answer::Showed("an owner with ceiling 0");
const NOTHING: Answer = Answer::Showed("nothing held");

/// By a state as it is lent.
pub fn lent(parts: &Parts) -> Vec<Answer> {
    let (held, ceiling) = (!parts.holds.is_empty(), parts.top.ceiling);
    let shown = [(TIE, ties(parts)), (ZERO, held && ceiling == 0), (NOTHING, !held)];
    shown.into_iter().filter(|(_, is_so)| *is_so).map(|(answer, _)| answer).collect()
}

fn ties(parts: &Parts) -> bool {
    let held = greatest_first(parts);
    held.iter().any(|hold| hold.0 == held[0].0 && hold.1 != held[0].1)
}

/// By the states before and behind a clean Take or Give.
pub fn shown((kind, section): Numbers, before: &Parts, after: &Parts) -> BTreeSet<Answer> {
    if kind == 5 {
        return by_take(section, before, after).into_iter().collect();
    }
    let inherited = after.waits.len() < before.waits.len();
    let move_of_the_owner = if inherited { by_heir(after) } else { by_give(before, after) };
    let latest = before.holds.last().is_some_and(|hold| hold.0 == section);
    let shown = [Some(move_of_the_owner), (!latest).then_some(NOT_LATEST)];
    shown.into_iter().flatten().collect()
}

fn by_take(section: u16, before: &Parts, after: &Parts) -> Option<Answer> {
    let won = after.holds.len() > before.holds.len();
    let counts = ceiling(before, section) >= before.top.ceiling;
    let another = before.top.owner.is_some() && before.top.owner != after.top.owner;
    match (won, counts) {
        (true, _) if another => Some(OVER),
        (true, false) => Some(UNDER),
        (false, true) => Some(LOST),
        _ => None,
    }
}

fn by_give(before: &Parts, after: &Parts) -> Answer {
    match after.top {
        _ if after.holds.is_empty() => EMPTIED,
        top if top.owner != before.top.owner => LEFT,
        top if top.ceiling < before.top.ceiling => LOWERED,
        _ => SAME,
    }
}

/// The heir has the latest hold.
fn by_heir(after: &Parts) -> Answer {
    let heir = after.holds.last().map(|hold| hold.1);
    let others_hold = after.holds.iter().any(|hold| Some(hold.1) != heir);
    match after.top.owner {
        owner if owner != heir.map(usize::from) => HEIR_UNDER,
        _ if ties(after) => HEIR_TIE,
        _ if others_hold => HEIR_OVER,
        _ => HEIR,
    }
}
