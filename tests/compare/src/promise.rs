//! Demand 3 put to the records of clean dumps, random and enumerated, by brute force.

use beltcairn::Verdict;
use second::{promise, Fault, Reply, Watch};

use crate::answer::Answer;
use crate::bytes::{list, Numbers};
use crate::difference::{differ, Compared};
use crate::enumerate::Small;
use crate::family::Family;
use crate::random::Random;
use crate::runs::{sized_plan, sized_run, Mood, Run};
use crate::sides::{check, watched};
use crate::ticks::AMONG;

const OF_TIMERS: Answer = Answer::Showed("the call is of timers");

/// What the sample must have shown at least once, so that no part of demand 3 held for want of a case.
pub const WANTED: [Answer; 8] = [
    Answer::Showed("a thread waits"),
    Answer::Showed("a lower thread calls in a wait"),
    Answer::Showed("a lower thread calls in an activation"),
    Answer::Showed("with a Give of its own before"),
    OF_TIMERS,
    AMONG,
    Answer::Showed("a Tick between a Take or Give and its Won or Lost"),
    Answer::Showed("a lower thread calls in an activation from a Tick with reports due"),
];

/// A clean dump, or the records before a breach, keeps all four parts of demand 3.
pub fn kept(fault: Fault, random: &mut Random) -> Compared<Vec<Answer>> {
    let (plan, mut records) = some_records(random);
    let verdict = check(fault, &plan, &list(&records))?;
    if let Verdict::Breach { record, .. } = verdict {
        records.truncate(record as usize);
    }
    held(&plan, &records, verdict)
}

/// All four parts by brute force, and what of them the records showed.
fn held(plan: &[u8], records: &[Numbers], verdict: Verdict) -> Compared<Vec<Answer>> {
    let seen = match promise(plan, records) {
        Ok(seen) => seen,
        Err(text) => return differ(watched(plan, &list(records)), verdict, text),
    };
    let counts = [
        seen.waits,
        seen.calls_in_waits,
        seen.calls_while_active,
        seen.gives_between,
        seen.timer_calls,
        seen.ticks_among_reports,
        seen.parted_by_ticks,
        seen.woken_among_reports,
    ];
    let shown = WANTED.into_iter().zip(counts).filter(|(_, count)| *count > 0);
    Ok(shown.map(|(answer, _)| answer).collect())
}

/// What every clean list must have shown besides: of timers there is no call.
pub fn wanted_of_lists() -> Vec<Answer> {
    WANTED.into_iter().filter(|answer| *answer != OF_TIMERS).collect()
}

/// A walk over the clean lists of a small plan.
pub struct CleanLists<'a> {
    plan: &'a [u8],
    alphabet: Vec<Numbers>,
    family: &'a mut Family,
}

impl CleanLists<'_> {
    /// All with up to so many records behind the beginning.
    pub fn all(small: &Small, length: usize, family: &mut Family) {
        let mut watch = Watch::new(&small.plan).expect("the plans here pass");
        for (kind, operand) in &small.begins {
            watch.step(*kind, *operand);
        }
        let (plan, alphabet) = (&small.plan, small.alphabet());
        CleanLists { plan, alphabet, family }.below(&watch, &mut small.begins.clone(), length);
    }

    fn below(&mut self, watch: &Watch, records: &mut Vec<Numbers>, left: usize) {
        self.family.count(clean_and_held(self.plan, records));
        if left == 0 {
            return;
        }
        for i in 0..self.alphabet.len() {
            let (kind, operand) = self.alphabet[i];
            let mut next = watch.clone();
            if let Reply::Clean { .. } = next.step(kind, operand) {
                records.push((kind, operand));
                self.below(&next, records, left - 1);
                records.pop();
            }
        }
    }
}

fn clean_and_held(plan: &[u8], records: &[Numbers]) -> Compared<Vec<Answer>> {
    match check(Fault::None, plan, &list(records))? {
        verdict @ Verdict::Clean { .. } => held(plan, records, verdict),
        verdict => differ(watched(plan, &list(records)), verdict, "clean"),
    }
}

/// Few threads that take few sections, whole, cut, or with two records swapped.
fn some_records(random: &mut Random) -> (Vec<u8>, Vec<Numbers>) {
    let plan = sized_plan(random, 6, 4);
    let (mood, length) = (Mood::busy(random), random.between(20, 120));
    let Run { plan, mut records } = sized_run(random, plan, &mood, length);
    match random.below(4) {
        0 => records.truncate(random.below(records.len() + 1)),
        1 => records.swap(random.below(length), random.below(length)),
        _ => {}
    }
    (plan, records)
}
