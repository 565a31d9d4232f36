//! Call lists for the bench kernel, and its output fed to both watches.

use beltcairn::{Verdict, Written};
use second::{Fault, MOST_RECORDS};

use crate::answer::Answer;
use crate::bytes::{self, calls, list, records_of, Numbers};
use crate::difference::{differ, Compared, Input};
use crate::dumps::allowed_record;
use crate::random::Random;
use crate::runs::{run, Run};
use crate::sides::{bench, check, steps};

/// The greatest output, and a little behind it that must stay untouched.
const AMPLE: usize = 2 + 3 * MOST_RECORDS + 5;

/// A call list, admitted or damaged, with an output of some length.
pub fn call_list(fault: Fault, random: &mut Random) -> Compared<Vec<Answer>> {
    let (mut plan, calls) = some_calls(random);
    let list = some_list(&calls, random);
    if random.one_in(10) {
        let place = random.below(plan.len());
        plan[place] = random.byte();
    }
    let room = some_room(&plan, &list, random);
    let (written, _) = bench(fault, &plan, &list, room)?;
    Ok(vec![written.into()])
}

/// An output one byte too short is refused with 11; at that byte the dump is written.
pub fn one_byte_short(fault: Fault, random: &mut Random) -> Compared<Vec<Answer>> {
    let Run { plan, records } = run(random);
    let list = list(&calls(&records));
    let exact = match room_for(&plan, &list) {
        Ok(exact) => exact,
        Err(question) => return too_many(Written::Refused(question), plan, list, records.len()),
    };
    let mut answers = Vec::new();
    for (room, due) in [(exact - 1, Written::Refused(11)), (exact, Written::Wrote((exact as u64 - 2) / 3))] {
        let (written, _) = bench(fault, &plan, &list, room)?;
        if written != due {
            return differ(Input::List { plan, list, room }, written, due);
        }
        answers.push(written.into());
    }
    Ok(answers)
}

/// What the bench writes, fed to both watches: clean, nothing due.
pub fn output(fault: Fault, random: &mut Random) -> Compared<Vec<Answer>> {
    let Run { plan, records } = run(random);
    let list = list(&calls(&records));
    let (written, out) = bench(fault, &plan, &list, AMPLE)?;
    let Written::Wrote(number) = written else {
        return too_many(written, plan, list, records.len());
    };
    let dump = &out[..2 + 3 * number as usize];
    let verdict = check(fault, &plan, dump)?;
    if verdict != (Verdict::Clean { records: number, due: 0 }) {
        return differ(Input::List { plan, list, room: AMPLE }, verdict, "clean, nothing due");
    }
    if random.one_in(8) {
        steps(fault, &plan, &records_of(dump).unwrap_or_default())?;
    }
    Ok(vec![verdict.into()])
}

/// Admitted calls are refused only by 10, where the run has the greatest length: it may have been cut with more reports to come, and its Ticks
/// among reports spare some that the bench gives.
fn too_many(written: Written, plan: Vec<u8>, list: Vec<u8>, records: usize) -> Compared<Vec<Answer>> {
    if written == Written::Refused(10) && records == MOST_RECORDS {
        return Ok(vec![written.into()]);
    }
    differ(Input::List { plan, list, room: AMPLE }, written, "admitted, so written")
}

fn some_calls(random: &mut Random) -> (Vec<u8>, Vec<Numbers>) {
    if random.one_in(600) {
        return near_the_most(random);
    }
    let Run { plan, records } = run(random);
    let mut calls = calls(&records);
    if random.one_in(3) {
        let place = random.below(calls.len() + 1);
        let mut other = allowed_record(&plan, random);
        if other.0 >= 16 && !random.one_in(8) {
            other = (4, 0);
        }
        calls.insert(place, other);
    }
    match random.below(12) {
        0 => calls.truncate(random.below(calls.len() + 1)),
        1 => end_inside_an_arming(&mut calls, random),
        _ => {}
    }
    if random.one_in(40) && !calls.is_empty() {
        let place = random.below(calls.len());
        calls[place].1 = random.word();
    }
    (plan, calls)
}

/// Cuts the list behind an Arm or a Start, if it has one.
fn end_inside_an_arming(calls: &mut Vec<Numbers>, random: &mut Random) {
    let places: Vec<usize> = (0..calls.len()).filter(|place| [8, 9].contains(&calls[*place].0)).collect();
    if !places.is_empty() {
        calls.truncate(random.pick(&places) + 1);
    }
}

/// Two equal threads that relinquish, three records each time, with about 20,000 records in all.
fn near_the_most(random: &mut Random) -> (Vec<u8>, Vec<Numbers>) {
    let plan = bytes::plan(0, &[1, 1], &[0, 0]);
    let mut calls = vec![(1, 0), (1, 1)];
    calls.extend(vec![(3, 0); random.between(6600, 6700)]);
    calls.extend(vec![(7, 0); random.below(4)]);
    if random.one_in(4) {
        calls.push((6, 0));
    }
    (plan, calls)
}

/// The bytes of the list, at times with one changed or left off.
fn some_list(calls: &[Numbers], random: &mut Random) -> Vec<u8> {
    let mut list = list(calls);
    match random.below(20) {
        0 => list.truncate(random.below(list.len())),
        1 => {
            let place = random.below(list.len());
            list[place] = random.byte();
        }
        _ => {}
    }
    list
}

fn some_room(plan: &[u8], list: &[u8], random: &mut Random) -> usize {
    let exact = room_for(plan, list).unwrap_or(0);
    match random.below(8) {
        0 => random.below(4),
        1 => random.below(exact + 1),
        2 => exact,
        3 => exact.saturating_sub(1),
        _ => exact + random.below(40),
    }
}

/// The bytes that the dump of the list takes, or the refusal.
fn room_for(plan: &[u8], list: &[u8]) -> Result<usize, u8> {
    let mut out = vec![0; AMPLE];
    second::bench(plan, list, &mut out).map(|records| 2 + 3 * records)
}
