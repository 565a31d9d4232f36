//! Every call list up to some length over the smallest plans: with the reports left to the bench, it reaches further than records do.

use beltcairn::{Verdict, Written};
use second::{Fault, Reply};

use crate::answer::Answer;
use crate::bytes::{list, records_of, Numbers};
use crate::difference::{differ, Compared, Input};
use crate::enumerate::Small;
use crate::family::Family;
use crate::sides::{bench, check, Pair};

pub struct Calls<'a> {
    plan: &'a [u8],
    alphabet: Vec<Numbers>,
    family: Family,
}

/// A list admitted so far, perhaps up to somewhere inside an arming: both watch states behind it, its calls, and its records.
struct Admitted {
    pair: Pair,
    calls: Vec<Numbers>,
    records: Vec<Numbers>,
}

impl<'a> Calls<'a> {
    pub fn new(small: &'a Small, name: &str) -> Calls<'a> {
        let alphabet = small.alphabet().into_iter().filter(|(kind, _)| *kind < 16).collect();
        let (plan, family) = (&small.plan, Family::new(name));
        Calls { plan, alphabet, family }
    }

    /// All lists up to that length. A call that is not admitted ends its list: 9 is due whatever follows.
    pub fn family_of(mut self, length: usize) -> Family {
        match Pair::begin(Fault::None, self.plan) {
            Ok(begun) => {
                let pair = begun.expect("the plans here pass");
                let (calls, records) = (Vec::new(), Vec::new());
                self.below(&Admitted { pair, calls, records }, length);
            }
            Err(difference) => self.family.count(Err(difference)),
        }
        self.family
    }

    fn below(&mut self, admitted: &Admitted, length: usize) {
        if admitted.calls.len() == length {
            return;
        }
        for i in 0..self.alphabet.len() {
            let calls = [&admitted.calls[..], &[self.alphabet[i]]].concat();
            match self.one(admitted, calls) {
                Ok((answer, next)) => {
                    self.family.count(Ok(vec![answer]));
                    next.iter().for_each(|next| self.below(next, length));
                }
                Err(difference) => self.family.count(Err(difference)),
            }
        }
    }

    /// The list by both benches, its dump by both whole checks, and the records of its last call by both live steps.
    fn one(&self, admitted: &Admitted, calls: Vec<Numbers>) -> Compared<(Answer, Option<Admitted>)> {
        // A call brings at most a report for each thread, one for each of eight timers, and a Switch.
        let room = 2 + 3 * (admitted.records.len() + 10 + usize::from(self.plan[0]));
        let (written, out) = bench(Fault::None, self.plan, &list(&calls), room)?;
        let Written::Wrote(number) = written else {
            return Ok((written.into(), self.inside_an_arming(admitted, calls)?));
        };
        let dump = &out[..2 + 3 * number as usize];
        let verdict = check(Fault::None, self.plan, dump)?;
        if verdict != (Verdict::Clean { records: number, due: 0 }) {
            let (plan, list) = (self.plan.to_vec(), list(&calls));
            return differ(Input::List { plan, list, room }, verdict, "clean, nothing due");
        }
        let mut pair = admitted.pair.clone();
        let records = records_of(dump).unwrap_or_default();
        for number in admitted.records.len() + 1..=records.len() {
            pair.step_last(self.plan, &records[..number])?;
        }
        Ok((written.into(), Some(Admitted { pair, calls, records })))
    }

    /// A list that is refused goes on where its last call is an Arm or a Start that the live steps let pass.
    fn inside_an_arming(&self, admitted: &Admitted, calls: Vec<Numbers>) -> Compared<Option<Admitted>> {
        let last = calls[calls.len() - 1];
        if ![8, 9].contains(&last.0) {
            return Ok(None);
        }
        let mut pair = admitted.pair.clone();
        let records = [&admitted.records[..], &[last]].concat();
        let reply = pair.step_last(self.plan, &records)?;
        let passes = matches!(reply, Reply::Clean { .. });
        Ok(passes.then_some(Admitted { pair, calls, records }))
    }
}
