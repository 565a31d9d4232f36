//! A difference made smaller: calls, threads and sections left out one at a time while the sides still differ.

use second::{broken_rule, Call, Fault, Plan, Record};

use crate::bytes::{self, list, records_of, Numbers};
use crate::difference::{Difference, Input};
use crate::runs::{Recorder, ALL};
use crate::sides;

/// A plan in numbers and the calls under it; the reports are made anew by the right machine.
#[derive(Clone)]
struct Story {
    sections: u8,
    bases: Vec<u8>,
    needs: Vec<u16>,
    calls: Vec<Made>,
}

/// A call, and how many of the reports due are given behind it if a Tick is next.
#[derive(Clone, Copy)]
struct Made {
    call: Numbers,
    reports: usize,
}

pub fn shrunk(fault: Fault, difference: Box<Difference>) -> Box<Difference> {
    let story = match &difference.input {
        Input::Dump { plan, dump } => Story::read(plan, dump, false),
        Input::List { plan, list, .. } => Story::read(plan, list, true),
        Input::Lent { .. } => None,
    };
    let Some(mut story) = story else {
        return difference;
    };
    let mut smallest = difference;
    let mut place = 0;
    while let Some(fewer) = story.without(place) {
        match fewer.differs(fault) {
            Some(less) if less.size() < smallest.size() => (smallest, story) = (less, fewer),
            _ => place += 1,
        }
    }
    smallest
}

impl Story {
    /// Nothing where the bytes are no plan and list in a true frame. Behind the calls of a call list all reports are given.
    fn read(plan: &[u8], bytes: &[u8], calls_alone: bool) -> Option<Story> {
        let plan = Plan::read(plan, Fault::None).ok()?;
        let mut calls: Vec<Made> = Vec::new();
        for record in records_of(bytes)? {
            match calls.last_mut() {
                Some(made) if record.0 >= 16 => made.reports += 1,
                None if record.0 >= 16 => {}
                _ => calls.push(Made { call: record, reports: 0 }),
            }
        }
        if calls_alone {
            calls.iter_mut().for_each(|made| made.reports = ALL);
        }
        Some(Story {
            sections: plan.sections() as u8,
            bases: plan.bases().to_vec(),
            needs: plan.needs_bits().to_vec(),
            calls,
        })
    }

    /// Leaves out a call, an arming as a whole, or behind the calls a thread, or behind those a section.
    fn without(&self, place: usize) -> Option<Story> {
        let mut fewer = self.clone();
        let behind_calls = place.checked_sub(self.calls.len());
        let behind_threads = behind_calls.and_then(|place| place.checked_sub(self.bases.len()));
        match (behind_calls, behind_threads) {
            (None, _) => fewer.leave_out_calls(place),
            (Some(thread), None) => fewer.leave_out_thread(thread),
            (_, Some(section)) if section < usize::from(self.sections) => fewer.leave_out_section(section),
            _ => return None,
        }
        Some(fewer)
    }

    fn leave_out_calls(&mut self, place: usize) {
        let kinds: Vec<u8> = self.calls[place..].iter().map(|made| made.call.0).take(3).collect();
        let number = if kinds == [8, 9, 10] { 3 } else { 1 };
        self.calls.drain(place..place + number);
    }

    fn leave_out_thread(&mut self, thread: usize) {
        self.bases.remove(thread);
        self.needs.remove(thread);
        self.renumber(&[1], thread as u16);
    }

    fn leave_out_section(&mut self, section: usize) {
        let lower = (1 << section) - 1;
        self.needs.iter_mut().for_each(|bits| *bits = *bits & lower | *bits >> 1 & !lower);
        self.sections -= 1;
        self.renumber(&[5, 6], section as u16);
    }

    /// Calls of these kinds lose those of the number, and count the greater ones down.
    fn renumber(&mut self, kinds: &[u8], number: u16) {
        self.calls.retain(|made| !kinds.contains(&made.call.0) || made.call.1 != number);
        for Made { call, .. } in &mut self.calls {
            if kinds.contains(&call.0) && call.1 > number {
                call.1 -= 1;
            }
        }
    }

    /// On the dump of the calls by the whole check or step by step, or else by the bench on the calls.
    fn differs(&self, fault: Fault) -> Option<Box<Difference>> {
        let plan = bytes::plan(self.sections, &self.bases, &self.needs);
        if let Some(records) = self.records(&plan) {
            let stepped = || sides::steps(fault, &plan, &records).err();
            if let Some(difference) = sides::check(fault, &plan, &list(&records)).err().or_else(stepped) {
                return Some(difference);
            }
        }
        let calls: Vec<Numbers> = self.calls.iter().map(|made| made.call).collect();
        sides::bench(fault, &plan, &list(&calls), 2 + 3 * second::MOST_RECORDS).err()
    }

    /// The calls with their reports, all of them behind each call but one before a Tick; nothing where a call is not admitted.
    fn records(&self, plan: &[u8]) -> Option<Vec<Numbers>> {
        Plan::read(plan, Fault::None).ok()?;
        let mut recorder = Recorder::new(plan.to_vec());
        for Made { call, reports } in &self.calls {
            let Ok(Record::Call(call)) = Record::from_numbers(call.0, call.1, &recorder.machine.plan) else {
                return None;
            };
            if call != Call::Tick {
                recorder.give(ALL);
            }
            if broken_rule(&recorder.machine, Record::Call(call)).is_some() {
                return None;
            }
            recorder.call(call);
            recorder.give(*reports);
        }
        recorder.give(ALL);
        Some(recorder.records)
    }
}
