//! Random dumps: honest, cut short, damaged in a record or a byte, and random bytes.

use beltcairn::Verdict;
use second::{Fault, MOST_RECORDS, TIMERS};

use crate::answer::Answer;
use crate::bytes::{list, Numbers};
use crate::difference::{differ, Compared};
use crate::dues::some_count;
use crate::random::Random;
use crate::runs::{period, plan, run, start, Run};
use crate::sides::{begin, check, steps, watched};

/// A dump as long as one may be.
pub const LONGEST: Answer = Answer::Showed("of 20,000 records");

/// A dump in which a timer expires, one that has a count lost, and one that ends inside an arming.
pub const EXPIRY: Answer = Answer::Showed("with an expiry");
pub const LATE: Answer = Answer::Showed("with a count lost");
pub const INSIDE: Answer = Answer::Showed("clean, ending inside an arming");

/// One dump in this many is also stepped through record by record.
const STEPPED_ONE_IN: usize = 4;

/// A dump that the rules allow; both must find it clean. What its Ticks show is known where it is stepped through.
pub fn honest(fault: Fault, random: &mut Random) -> Compared<Vec<Answer>> {
    let Run { plan, records } = run(random);
    let dump = list(&records);
    let verdict = check(fault, &plan, &dump)?;
    if !matches!(verdict, Verdict::Clean { .. }) {
        return differ(watched(&plan, &dump), verdict, "made by the rules, so clean");
    }
    let mut answers = vec![verdict.into()];
    if random.one_in(STEPPED_ONE_IN) {
        answers.extend(steps(fault, &plan, &records)?);
    }
    answers.extend((records.len() == MOST_RECORDS).then_some(LONGEST));
    answers.extend(records.iter().any(|(kind, _)| *kind == 21).then_some(EXPIRY));
    answers.extend(records.iter().any(|(kind, count)| *kind == 22 && *count > 0).then_some(LATE));
    Ok(answers)
}

/// A dump cut behind a record, or somewhere in its bytes.
pub fn cut(fault: Fault, random: &mut Random) -> Compared<Vec<Answer>> {
    let Run { plan, mut records } = run(random);
    if random.one_in(4) {
        let mut dump = list(&records);
        dump.truncate(random.below(dump.len()));
        return compared(fault, &plan, &dump);
    }
    records.truncate(random.below(records.len() + 1));
    let mut answers = both_ways(fault, &plan, &records, random)?;
    let inside = records.last().is_some_and(|(kind, _)| [8, 9].contains(kind));
    answers.extend((inside && answers == [Answer::Clean]).then_some(INSIDE));
    Ok(answers)
}

/// A dump with one record replaced, dropped or repeated, or two swapped.
pub fn damaged_record(fault: Fault, random: &mut Random) -> Compared<Vec<Answer>> {
    let Run { plan, mut records } = run(random);
    damage(&mut records, &plan, random);
    records.truncate(MOST_RECORDS);
    both_ways(fault, &plan, &records, random)
}

/// A dump with one byte of plan or dump changed; the size more often than its share.
pub fn damaged_byte(fault: Fault, random: &mut Random) -> Compared<Vec<Answer>> {
    let Run { mut plan, records } = run(random);
    let mut dump = list(&records);
    let place = match random.below(6) {
        0 => &mut plan[random.below(2)],
        1 => &mut dump[random.below(2)],
        2 => {
            let place = random.below(plan.len());
            &mut plan[place]
        }
        _ => {
            let place = random.below(dump.len());
            &mut dump[place]
        }
    };
    *place = match random.below(4) {
        0 => random.byte(),
        1 => place.wrapping_add(1),
        2 => place.wrapping_sub(1),
        _ => *place ^ 1 << random.below(8),
    };
    begin(fault, &plan)?;
    compared(fault, &plan, &dump)
}

/// Bytes that nobody meant: anything at all, a plan with anything behind it, or a plan with random records in a true frame.
pub fn random_bytes(fault: Fault, random: &mut Random) -> Compared<Vec<Answer>> {
    match random.below(4) {
        0 => {
            let (first, rest) = (any_bytes(random, 60), any_bytes(random, 60));
            begin(fault, &first)?;
            compared(fault, &first, &rest)
        }
        1 => {
            let (plan, rest) = (plan(random), any_bytes(random, 40));
            compared(fault, &plan, &rest)
        }
        2 => {
            let (plan, any) = (plan(random), any_records(random));
            compared(fault, &plan, &list(&any))
        }
        _ => {
            let plan = plan(random);
            let length = random.below(8);
            let records: Vec<Numbers> = (0..length).map(|_| allowed_record(&plan, random)).collect();
            both_ways(fault, &plan, &records, random)
        }
    }
}

fn any_bytes(random: &mut Random, most: usize) -> Vec<u8> {
    let length = random.below(most);
    let small = random.one_in(2);
    (0..length)
        .map(|_| if small { random.below(4) as u8 } else { random.byte() })
        .collect()
}

fn any_records(random: &mut Random) -> Vec<Numbers> {
    let length = random.below(4);
    (0..length)
        .map(|_| (random.below(25) as u8, random.pick(&[0, 0, 0, 1, 2, 65535, 256])))
        .collect()
}

fn compared(fault: Fault, plan: &[u8], dump: &[u8]) -> Compared<Vec<Answer>> {
    Ok(vec![check(fault, plan, dump)?.into()])
}

/// By the whole check, and for a share by the live step as well.
fn both_ways(fault: Fault, plan: &[u8], records: &[Numbers], random: &mut Random) -> Compared<Vec<Answer>> {
    let answers = compared(fault, plan, &list(records))?;
    if random.one_in(STEPPED_ONE_IN) {
        steps(fault, plan, records)?;
    }
    Ok(answers)
}

fn damage(records: &mut Vec<Numbers>, plan: &[u8], random: &mut Random) {
    if records.is_empty() {
        records.push(allowed_record(plan, random));
        return;
    }
    let (place, other) = (random.below(records.len()), random.below(records.len()));
    let next = (place + 1) % records.len();
    match random.below(6) {
        0 => records.swap(place, other),
        1 => records.swap(place, next),
        2 => drop(records.remove(place)),
        3 => records.insert(place, records[place]),
        4 => records[place].1 = random.pick(&[0, 0, 1, 2, 65535, records[place].1 ^ 256]),
        _ => records[place] = allowed_record(plan, random),
    }
}

/// A record whose kind and operand are allowed under the plan.
pub fn allowed_record(plan: &[u8], random: &mut Random) -> Numbers {
    let (threads, sections) = (usize::from(plan[0]), usize::from(plan[1]));
    loop {
        let kind = random.pick(&[1, 2, 3, 4, 5, 6, 7, 8, 9, 10, 11, 16, 17, 18, 19, 20, 21, 22]);
        return match kind {
            2 => (kind, random.between(1, 3) as u16),
            3 | 4 | 7 => (kind, 0),
            5 | 6 if sections == 0 => continue,
            5 | 6 => (kind, random.below(sections) as u16),
            8 | 11 | 21 => (kind, random.below(TIMERS) as u16),
            9 => (kind, start(0, random)),
            10 => (kind, period(random)),
            22 => (kind, some_count(random)),
            17 if random.one_in(3) => (kind, 65535),
            _ => (kind, random.below(threads) as u16),
        };
    }
}
