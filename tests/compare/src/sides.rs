//! Both sides asked the same, and whether they say the same.

use std::collections::BTreeSet;

use beltcairn::{Verdict, Written};
use second::{Fault, Parts, Reply};

use crate::answer::Answer;
use crate::bytes::{hexadecimal, list, Numbers};
use crate::difference::{differ, Compared, Difference, Input};
use crate::random::Random;
use crate::{moves, state, ticks};

/// The whole check of both; the verdict that they share.
pub fn check(fault: Fault, plan: &[u8], dump: &[u8]) -> Compared<Verdict> {
    let library = beltcairn::check(plan, dump);
    let second = as_verdict(second::check_with(fault, plan, dump));
    if library == second {
        return Ok(library);
    }
    differ(watched(plan, dump), library, second)
}

/// The live steps of both from the plan's start, their states compared after every step; what its Takes, Gives and Ticks show.
pub fn steps(fault: Fault, plan: &[u8], records: &[Numbers]) -> Compared<BTreeSet<Answer>> {
    let mut shown = BTreeSet::new();
    let mut pair = match Pair::begin(fault, plan)? {
        Ok(pair) => pair,
        Err(_) => return Ok(shown),
    };
    for number in 1..=records.len() {
        pair.step_last(plan, &records[..number])?;
        shown.extend(pair.shown());
    }
    Ok(shown)
}

/// The watch state that the plan begins with, or its refusal.
pub fn begin(fault: Fault, plan: &[u8]) -> Compared<()> {
    Pair::begin(fault, plan).map(drop)
}

pub fn watched(plan: &[u8], dump: &[u8]) -> Input {
    Input::Dump {
        plan: plan.to_vec(),
        dump: dump.to_vec(),
    }
}

/// A watch state on either side.
#[derive(Clone)]
pub struct Pair {
    library: beltcairn::Watch,
    second: second::Watch,
    /// What the latest step has shown, if it was a clean Take, Give or Tick.
    shown: BTreeSet<Answer>,
}

impl Pair {
    /// The start of a plan, or the question that refuses it.
    pub fn begin(fault: Fault, plan: &[u8]) -> Compared<Result<Pair, u8>> {
        match (beltcairn::Watch::begin(plan), second::Watch::new_with(fault, plan)) {
            (Ok(library), Ok(second)) => {
                let pair = Pair::of(library, second);
                if state::parts(&library) != *pair.second.parts() {
                    return differ(watched(plan, &[0, 0]), ("begins with", state::parts(&library)), pair.second.parts());
                }
                Ok(Ok(pair))
            }
            (Err(library), Err(second)) if library == second => Ok(Err(library)),
            (library, second) => differ(watched(plan, &[0, 0]), library.map(|_| "begun"), second.map(|_| "begun")),
        }
    }

    /// A state lent to both.
    pub fn lent(fault: Fault, parts: &Parts, random: &mut Random) -> Pair {
        let second = second::Watch::from_parts_with(fault, parts.clone());
        Pair::of(state::lend(parts, random), second)
    }

    fn of(library: beltcairn::Watch, second: second::Watch) -> Pair {
        let shown = BTreeSet::new();
        Pair { library, second, shown }
    }

    pub fn parts(&self) -> &Parts {
        self.second.parts()
    }

    pub fn shown(&self) -> impl Iterator<Item = Answer> + '_ {
        self.shown.iter().copied()
    }

    /// One step of both; the answer that they share.
    pub fn step(&mut self, record: Numbers) -> Compared<Reply> {
        let before = [5, 6, 7].contains(&record.0).then(|| self.parts().clone());
        let reply = self.compared_step(record)?;
        self.shown = match (before, reply) {
            (Some(before), Reply::Clean { .. }) if record.0 == 7 => ticks::shown(&before, self.parts()),
            (Some(before), Reply::Clean { .. }) => moves::shown(record, &before, self.parts()),
            _ => BTreeSet::new(),
        };
        Ok(reply)
    }

    fn compared_step(&mut self, record: Numbers) -> Compared<Reply> {
        let before = self.library;
        let library = as_reply(self.library.step(record.0, record.1));
        let second = self.second.step(record.0, record.1);
        if library != second {
            return differ(lent(&before, record), library, second);
        }
        let kept = match library {
            Reply::Clean { .. } => None,
            Reply::Broken(rule) => Some(state::with_breach(&before, rule)),
            Reply::Refused(_) => Some(before),
        };
        if kept.is_some_and(|kept| kept != self.library) {
            return differ(lent(&before, record), (library, &self.library), "a state that keeps its content");
        }
        // After a 12 the struct is as it was, and its lists need not be readable.
        if library != Reply::Refused(12) && state::parts(&self.library) != *self.second.parts() {
            return differ(
                lent(&before, record),
                (library, state::parts(&self.library)),
                (second, self.second.parts()),
            );
        }
        Ok(library)
    }

    /// One step by the last of the records; a difference names the plan and the dump of them all.
    pub fn step_last(&mut self, plan: &[u8], records: &[Numbers]) -> Compared<Reply> {
        let last = *records.last().expect("a record to step by");
        self.step(last).map_err(|difference| {
            let input = watched(plan, &list(records));
            Box::new(Difference { input, ..*difference })
        })
    }

    /// One step on a well-formed state: 12 lets it pass.
    pub fn step_let_pass(&mut self, record: Numbers) -> Compared<Reply> {
        let before = self.library;
        match self.step(record)? {
            Reply::Refused(12) => differ(lent(&before, record), Reply::Refused(12), "well-formed, so not 12"),
            reply => Ok(reply),
        }
    }

    /// One step on a state that is not well-formed: 12 is due.
    pub fn step_refused(&mut self, record: Numbers) -> Compared<Reply> {
        let before = self.library;
        match self.step(record)? {
            Reply::Refused(12) => Ok(Reply::Refused(12)),
            reply => differ(lent(&before, record), reply, "refused 12"),
        }
    }
}

fn lent(watch: &beltcairn::Watch, record: Numbers) -> Input {
    let parts = Box::new(state::parts(watch));
    let lent = format!("{watch:?}");
    Input::Lent { parts, record, lent }
}

/// One step of the library on a state that only its own struct can express: 12 is due, and every field keeps its content.
pub fn refused_12(before: beltcairn::Watch, record: Numbers) -> Compared<Reply> {
    let mut after = before;
    let reply = as_reply(after.step(record.0, record.1));
    if reply == Reply::Refused(12) && after == before {
        return Ok(reply);
    }
    differ(
        lent(&before, record),
        (reply, after),
        "refused 12, and a state that keeps its content",
    )
}

/// The bench kernel of both on that many bytes of output; the answer that they share, and the library's output.
pub fn bench(fault: Fault, plan: &[u8], calls: &[u8], room: usize) -> Compared<(Written, Vec<u8>)> {
    let untouched: Vec<u8> = (0..room).map(|i| (i * 7 + 3) as u8).collect();
    let (mut ours, mut theirs) = (untouched.clone(), untouched.clone());
    let library = beltcairn::bench(plan, calls, &mut ours);
    let second = match second::bench_with(fault, plan, calls, &mut theirs) {
        Ok(records) => Written::Wrote(records as u64),
        Err(question) => Written::Refused(question),
    };
    let input = || Input::List {
        plan: plan.to_vec(),
        list: calls.to_vec(),
        room,
    };
    if library != second {
        return differ(input(), library, second);
    }
    let front = match library {
        Written::Wrote(records) => 2 + 3 * records as usize,
        Written::Refused(_) => 0,
    };
    if front > room || ours[front..] != untouched[front..] {
        return differ(input(), format_args!("{library:?}, and touched what is behind"), second);
    }
    if ours != theirs {
        let written = |out: &[u8]| hexadecimal(&out[..front]);
        return differ(
            input(),
            format_args!("dump {}", written(&ours)),
            format_args!("dump {}", written(&theirs)),
        );
    }
    Ok((library, ours))
}

fn as_verdict(verdict: second::Verdict) -> Verdict {
    match verdict {
        second::Verdict::Refused(question) => Verdict::Refused(question),
        second::Verdict::Clean { records, due } => Verdict::Clean {
            records: records as u64,
            due: due as u64,
        },
        second::Verdict::Breach { record, rule } => Verdict::Breach {
            record: record as u64,
            rule,
        },
    }
}

fn as_reply(reply: beltcairn::Reply) -> Reply {
    match reply {
        beltcairn::Reply::Refused(question) => Reply::Refused(question),
        beltcairn::Reply::Clean(due) => Reply::Clean { due: due as usize },
        beltcairn::Reply::Broken(rule) => Reply::Broken(rule),
    }
}
