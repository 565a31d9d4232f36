//! Lent states in which holds move: with nothing due the running thread takes and gives, and its reports are given at once.

use second::{Fault, Parts, Reply};

use crate::answer::Answer;
use crate::bytes::Numbers;
use crate::difference::Compared;
use crate::lent::{formed_parts, some_record};
use crate::moves;
use crate::random::Random;
use crate::sides::Pair;

/// A few such steps on a well-formed state, up to one that is not clean. Behind the first that may be a 12: an heir gets the section that it
/// waits for though another thread holds it, if no ceiling bars the heir.
pub fn moved(fault: Fault, random: &mut Random) -> Compared<Vec<Answer>> {
    let parts = quiet_parts(random);
    let mut pair = Pair::lent(fault, &parts, random);
    let mut answers = moves::lent(&parts);
    for number in 0..random.between(1, 12) {
        let record = next_record(pair.parts(), random);
        let reply = match number {
            0 => pair.step_let_pass(record)?,
            _ => pair.step(record)?,
        };
        answers.push(reply.into());
        answers.extend(pair.shown());
        if !matches!(reply, Reply::Clean { .. }) {
            break;
        }
    }
    Ok(answers)
}

/// Nothing is due, stored or being armed, and somebody runs.
fn quiet_parts(random: &mut Random) -> Parts {
    loop {
        let mut parts = Parts {
            arming: (0, 0, 0),
            due: Vec::new(),
            stored: 0,
            ..formed_parts(random)
        };
        parts.given = parts.chosen().expect("the state was made to pass");
        if !parts.line.is_empty() {
            return parts;
        }
    }
}

/// What is due; else mostly a Give of what the running thread took last or a Take of a section that it needs.
fn next_record(parts: &Parts, random: &mut Random) -> Numbers {
    let taken_last = parts.holds.iter().rev().find(|hold| hold.1 == parts.given);
    let needed = needed(parts);
    match (parts.due.first(), taken_last, random.below(8)) {
        (Some(report), ..) => *report,
        (None, Some((section, _)), 0..=3) => (6, *section),
        (None, _, 4..=6) if !needed.is_empty() => (5, random.pick(&needed)),
        _ => some_record(parts, random),
    }
}

/// The sections that the running thread needs and does not hold.
fn needed(parts: &Parts) -> Vec<u16> {
    let Some(needs) = parts.needs.get(usize::from(parts.given)) else {
        return Vec::new();
    };
    let free = |section: &u16| !parts.holds.contains(&(*section, parts.given));
    (0..parts.sections as u16)
        .filter(|section| needs >> section & 1 == 1)
        .filter(free)
        .collect()
}
