//! The second implementation broken on purpose, one way at a time: the comparison must see each.

use second::Fault;

use crate::difference::Difference;
use crate::enumerate::{beginnings, plans, Walk};
use crate::family::Trial;
use crate::random::Random;
use crate::shrink::shrunk;
use crate::{broken, dumps, holders, known, lent, lists};

/// The random families that a mistake is put to, and how many inputs of each.
const TRIALS: [(&str, Trial, u64); 10] = [
    ("honest", dumps::honest, 1200),
    ("cut short", dumps::cut, 300),
    ("damaged in a record", dumps::damaged_record, 600),
    ("random bytes", dumps::random_bytes, 1200),
    ("call lists", lists::call_list, 400),
    ("bench output", lists::output, 200),
    ("lent, reached", lent::reached, 600),
    ("lent, well-formed", lent::well_formed, 4000),
    ("lent, holds moved", holders::moved, 1000),
    ("lent, broken", broken::in_some_way, 1000),
];

/// Lists that the enumeration may try for each mistake and plan.
const ENUMERATED: u64 = 6000;

/// What a mistake was found by, and the smallest input that shows it.
#[derive(Default)]
struct Found {
    by: Vec<String>,
    smallest: Option<Box<Difference>>,
}

impl Found {
    fn keep(&mut self, difference: Box<Difference>) {
        if self.smallest.as_ref().is_none_or(|other| difference.size() < other.size()) {
            self.smallest = Some(difference);
        }
    }
}

/// Every mistake must be found, and nothing where none is made. Prints each and answers how many passed and failed.
pub fn try_all(seed: u64) -> (u64, u64) {
    let (mut passed, mut failed) = (0, 0);
    for fault in std::iter::once(Fault::None).chain(Fault::ALL) {
        let found = search(fault, &mut Random::new(seed));
        let seen = found.smallest.is_some();
        let passes = seen == (fault != Fault::None);
        *(if passes { &mut passed } else { &mut failed }) += 1;
        println!("{}: {}: {}", if passes { "ok" } else { "FAILED" }, fault.name(), summary(&found));
        if let Some(difference) = &found.smallest {
            println!("{difference}");
        }
    }
    (passed, failed)
}

fn summary(found: &Found) -> String {
    if found.by.is_empty() {
        return "no difference".to_string();
    }
    format!("found by {}", found.by.join("; "))
}

fn search(fault: Fault, random: &mut Random) -> Found {
    let mut found = Found::default();
    try_known(fault, &mut found);
    try_lists(fault, &mut found);
    for (name, trial, inputs) in TRIALS {
        let mut differing = 0;
        for _ in 0..inputs {
            if let Err(difference) = trial(fault, random) {
                differing += 1;
                found.keep(difference);
            }
        }
        if differing > 0 {
            found.by.push(format!("{name} ({differing} of {inputs})"));
        }
    }
    found.smallest = found.smallest.map(|difference| shrunk(fault, difference));
    found
}

fn try_known(fault: Fault, found: &mut Found) {
    let mut names = Vec::new();
    for run in &known::RUNS {
        if let Err(difference) = known::agrees(fault, run) {
            names.push(run.name);
            found.keep(difference);
        }
    }
    if !names.is_empty() {
        found.by.push(format!("known runs {}", names.join(", ")));
    }
}

/// Ever longer lists over each small plan, so that the first difference is a shortest one.
fn try_lists(fault: Fault, found: &mut Found) {
    let mut lengths = Vec::new();
    for small in plans().into_iter().chain(beginnings()) {
        if let Some((length, difference)) = Walk::first(fault, &small, ENUMERATED) {
            lengths.push(length.to_string());
            found.keep(difference);
        }
    }
    if !lengths.is_empty() {
        found.by.push(format!(
            "shortest lists over {} small plans (of {} records)",
            lengths.len(),
            lengths.join(", ")
        ));
    }
}
