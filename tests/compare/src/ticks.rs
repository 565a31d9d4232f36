//! What a clean Tick shows, by the states before and behind it.

use std::collections::BTreeSet;

use second::Parts;

use crate::answer::Answer;
use crate::bytes::Numbers;

/// Sleepers that share a tick, by their numbers in the order in which they become ready.
pub const TOGETHER: [Answer; 2] = [
    Answer::Showed("woken by one tick, the lower number first"),
    Answer::Showed("woken by one tick, the higher number first"),
];

/// A Tick between a call and its reports, and what became of the Switch that it dropped.
pub const AMONG: Answer = Answer::Showed("a Tick with reports due");
pub const AGAIN: Answer = Answer::Showed("its Switch dropped and the same due again");
pub const OTHER: Answer = Answer::Showed("its Switch dropped and another due");
pub const GONE: Answer = Answer::Showed("its Switch dropped and none due");

/// Such a Tick that wakes a thread, and one at which a timer expires that is still owed an Expire.
pub const WOKEN: Answer = Answer::Showed("woken with reports due");
pub const OWED: Answer = Answer::Showed("an expiry with an Expire owed");

/// As many reports due as there may be.
pub const FULL: Answer = Answer::Showed("T + 9 due");

pub fn shown(before: &Parts, after: &Parts) -> BTreeSet<Answer> {
    let dropped = switch_at_the_end(&before.due);
    let kept = before.due.len() - usize::from(dropped.is_some());
    let joined = after.due.get(kept..).unwrap_or_default();
    let mut shown = woken_together(joined);
    if !before.due.is_empty() {
        shown.insert(AMONG);
        shown.extend(dropped.map(|thread| instead_of(thread, &after.due)));
        shown.extend(joined.iter().any(|(kind, _)| *kind == 16).then_some(WOKEN));
        shown.extend(expires_owed(before).then_some(OWED));
    }
    shown.extend((after.due.len() == after.threads + 9).then_some(FULL));
    shown
}

fn switch_at_the_end(due: &[Numbers]) -> Option<u16> {
    due.last().filter(|(kind, _)| *kind == 17).map(|(_, thread)| *thread)
}

fn instead_of(dropped: u16, due: &[Numbers]) -> Answer {
    match switch_at_the_end(due) {
        None => GONE,
        Some(thread) if thread == dropped => AGAIN,
        Some(_) => OTHER,
    }
}

/// Whether a timer expires at the next tick number though it is owed an Expire.
fn expires_owed(before: &Parts) -> bool {
    let mut timers = before.timers.iter().zip(0..);
    timers.any(|((expiry, _), timer)| *expiry == before.tick + 1 && before.due.contains(&(21, timer)))
}

/// What Readys side by side show, if they are of one Tick.
fn woken_together(joined: &[Numbers]) -> BTreeSet<Answer> {
    let readys = joined.windows(2).filter(|pair| pair.iter().all(|(kind, _)| *kind == 16));
    readys.map(|pair| TOGETHER[usize::from(pair[0].1 > pair[1].1)]).collect()
}
