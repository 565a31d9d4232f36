//! Demand 3, checked by brute force over the records alone.
//!
//! The words are those of document 01: runs, belongs, holds, waits, start, wake. The
//! machine is asked for one thing only, after which numbers of records nothing is due.

use crate::fault::Fault;
use crate::machine::Machine;
use crate::plan::Plan;
use crate::records::{Call, Record, Report};
use crate::rules::broken_rule;

/// How often a list of records gave the parts something to say.
#[derive(Clone, Copy, Debug, Default, PartialEq, Eq)]
pub struct Seen {
    /// Part 1: threads waiting after some number of records with nothing due.
    pub waits: usize,
    /// Part 2: calls of a lower thread in a wait.
    pub calls_in_waits: usize,
    /// Part 3: calls of a lower thread while another is active.
    pub calls_while_active: usize,
    /// Part 4: Gives of that lower thread between the beginning and its call.
    pub gives_between: usize,
    /// Parts 2 and 3: those calls of a lower thread that are timer calls.
    pub timer_calls: usize,
    /// Ticks while a report was due.
    pub ticks_among_reports: usize,
    /// Won and Lost that a Tick parts from the Take or Give to which they belong.
    pub parted_by_ticks: usize,
    /// Part 3: those calls of a lower thread where the other one woke while a report was due.
    pub woken_among_reports: usize,
}

/// Checks the four parts for a clean list of records, given as kind and operand numbers.
/// The error says which part fails where, or why the list is not clean.
pub fn promise(plan: &[u8], records: &[(u8, u16)]) -> Result<Seen, String> {
    promise_with(Fault::None, plan, records)
}

/// The same with a machine that makes a mistake, whose clean lists may break the promise.
pub fn promise_with(fault: Fault, plan: &[u8], records: &[(u8, u16)]) -> Result<Seen, String> {
    let plan = Plan::read(plan, Fault::None).map_err(|q| format!("plan refused {q}"))?;
    let records: Result<Vec<Record>, u8> = records.iter().map(|(kind, n)| Record::from_numbers(*kind, *n, &plan)).collect();
    let records = records.map_err(|q| format!("records refused {q}"))?;
    let quiet = quiet_after(Machine::new(plan.clone(), fault), &records)?;
    let story = Story::new(&plan, &records, &quiet);
    let mut seen = story.ticks_seen();
    story.part_1(&mut seen)?;
    story.part_2(&mut seen)?;
    story.parts_3_and_4(&mut seen)?;
    Ok(seen)
}

/// For each number of records, 0 included, whether the machine owes no report after them.
fn quiet_after(mut machine: Machine, records: &[Record]) -> Result<Vec<bool>, String> {
    let mut quiet = vec![machine.due.is_empty()];
    for (i, record) in records.iter().enumerate() {
        if let Some(rule) = broken_rule(&machine, *record) {
            return Err(format!("not clean: record {i} breaks rule {rule}"));
        }
        machine.advance(*record);
        quiet.push(machine.due.is_empty());
    }
    Ok(quiet)
}

/// A Take and what became of it. "At record r" counts the records up to r and r itself.
struct Taking {
    at: usize,
    by: usize,
    section: usize,
    lost: bool,
    /// The Give to which the next Won naming the thread belongs, if this Take was lost.
    relieved: Option<usize>,
    /// The record from which the section is held, and the thread's own Give of it.
    held_from: Option<usize>,
    given_at: Option<usize>,
}

impl Taking {
    fn holds_at(&self, r: usize) -> bool {
        self.held_from.is_some_and(|from| from <= r) && self.given_at.is_none_or(|end| r < end)
    }

    fn waits_at(&self, r: usize) -> bool {
        self.lost && self.at <= r && self.relieved.is_none_or(|end| r <= end)
    }

    fn call_in_wait(&self, c: usize) -> bool {
        self.lost && self.at < c && self.relieved.is_none_or(|end| c <= end)
    }
}

struct Story<'a> {
    plan: &'a Plan,
    records: &'a [Record],
    /// Whether nothing is due after each number of records.
    quiet: &'a [bool],
    /// Who runs after each number of records.
    runner: Vec<Option<usize>>,
    takings: Vec<Taking>,
}

impl<'a> Story<'a> {
    fn new(plan: &'a Plan, records: &'a [Record], quiet: &'a [bool]) -> Story<'a> {
        let runner = runners(records);
        let mut story = Story {
            plan,
            records,
            quiet,
            runner,
            takings: Vec::new(),
        };
        story.takings = (0..records.len()).filter_map(|i| story.taking(i)).collect();
        story
    }

    fn call(&self, i: usize) -> Option<Call> {
        match self.records[i] {
            Record::Call(call) => Some(call),
            Record::Report(_) => None,
        }
    }

    fn is_tick(&self, i: usize) -> bool {
        self.call(i) == Some(Call::Tick)
    }

    fn is_timer_call(&self, i: usize) -> bool {
        self.call(i).is_some_and(Call::is_of_timers)
    }

    /// The thread whose call record i is; a Tick is no thread's.
    fn caller(&self, i: usize) -> Option<usize> {
        match self.call(i)? {
            Call::Tick => None,
            _ => self.runner[i],
        }
    }

    fn report(&self, j: usize) -> Option<Report> {
        match self.records[j] {
            Record::Report(report) => Some(report),
            Record::Call(_) => None,
        }
    }

    /// The latest Take or Give before record j.
    fn belongs(&self, j: usize) -> Option<usize> {
        (0..j).rev().find(|i| matches!(self.call(*i), Some(Call::Take(_) | Call::Give(_))))
    }

    /// Whether a report of that sort belongs to record i.
    fn has_report(&self, i: usize, sort: fn(Report) -> bool) -> bool {
        (i + 1..self.records.len()).any(|j| self.report(j).is_some_and(sort) && self.belongs(j) == Some(i))
    }

    fn taking(&self, at: usize) -> Option<Taking> {
        let Some(Call::Take(section)) = self.call(at) else {
            return None;
        };
        let by = self.caller(at)?;
        let lost = self.has_report(at, |report| matches!(report, Report::Lost(_)));
        let relieved = if lost { self.relief(at, by) } else { None };
        let won = self.has_report(at, |report| matches!(report, Report::Won(_)));
        let held_from = if won { Some(at) } else { relieved };
        let given_at = held_from.and_then(|from| self.own_give(from, by, section));
        Some(Taking {
            at,
            by,
            section,
            lost,
            relieved,
            held_from,
            given_at,
        })
    }

    /// The Give to which the first Won naming the thread after the Take belongs.
    fn relief(&self, at: usize, by: usize) -> Option<usize> {
        let won = (at + 1..self.records.len()).find(|j| self.report(*j) == Some(Report::Won(by)))?;
        self.belongs(won).filter(|i| matches!(self.call(*i), Some(Call::Give(_))))
    }

    fn own_give(&self, from: usize, by: usize, section: usize) -> Option<usize> {
        (from + 1..self.records.len()).find(|e| self.call(*e) == Some(Call::Give(section)) && self.caller(*e) == Some(by))
    }

    fn holds(&self, thread: usize, r: usize) -> bool {
        self.takings.iter().any(|t| t.by == thread && t.holds_at(r))
    }

    fn waits(&self, thread: usize, r: usize) -> bool {
        self.takings.iter().any(|t| t.by == thread && t.waits_at(r))
    }

    /// Whether the low thread holds a section whose ceiling is at or above the high base.
    fn blocks(&self, low: usize, high: usize, r: usize) -> bool {
        self.takings
            .iter()
            .any(|t| t.by == low && t.holds_at(r) && self.plan.base(high) <= self.plan.ceiling(t.section))
    }

    fn below(&self, low: usize, high: usize) -> bool {
        self.plan.base(low) < self.plan.base(high)
    }

    /// What the list has of Ticks between a call and its reports, before any part is asked.
    fn ticks_seen(&self) -> Seen {
        let places = 0..self.records.len();
        let answers = places
            .clone()
            .filter(|j| matches!(self.report(*j), Some(Report::Won(_) | Report::Lost(_))));
        let parted = |j: &usize| self.belongs(*j).is_some_and(|i| (i..*j).any(|k| self.is_tick(k)));
        Seen {
            ticks_among_reports: places.filter(|i| self.is_tick(*i) && !self.quiet[*i]).count(),
            parted_by_ticks: answers.filter(parted).count(),
            ..Seen::default()
        }
    }

    /// Where nothing is due: no thread waits and holds, and with a waiting one somebody runs.
    /// After 0 records nobody waits, so the walk begins at 1.
    fn part_1(&self, seen: &mut Seen) -> Result<(), String> {
        for k in (1..self.quiet.len()).filter(|k| self.quiet[*k]) {
            for thread in (0..self.plan.threads()).filter(|t| self.waits(*t, k - 1)) {
                seen.waits += 1;
                if self.holds(thread, k - 1) {
                    return Err(format!("part 1: {thread} waits and holds after {k} records"));
                }
                if self.runner[k].is_none() {
                    return Err(format!("part 1: nobody runs while {thread} waits after {k}"));
                }
            }
        }
        Ok(())
    }

    /// During one wait at most one lower thread calls, and it blocked from the Take on.
    fn part_2(&self, seen: &mut Seen) -> Result<(), String> {
        for wait in self.takings.iter().filter(|t| t.lost) {
            let mut only = None;
            for c in (0..self.records.len()).filter(|c| wait.call_in_wait(*c)) {
                let Some(low) = self.caller(c).filter(|l| self.below(*l, wait.by)) else {
                    continue;
                };
                seen.calls_in_waits += 1;
                seen.timer_calls += usize::from(self.is_timer_call(c));
                if only.is_some_and(|other| other != low) {
                    return Err(format!("part 2: a second lower caller at {c}, wait {}", wait.at));
                }
                only = Some(low);
                if !self.blocks(low, wait.by, wait.at) {
                    return Err(format!("part 2: {low} did not block the wait at {}", wait.at));
                }
            }
        }
        Ok(())
    }

    /// While a thread is active from its start or wake, a lower caller waited or blocked at
    /// that beginning (3), and has not ceased to block with a Give of its own since (4).
    fn parts_3_and_4(&self, seen: &mut Seen) -> Result<(), String> {
        for i in 0..self.records.len() {
            for high in self.starting(i) {
                self.activation(high, i, seen)?;
            }
        }
        Ok(())
    }

    fn activation(&self, high: usize, start: usize, seen: &mut Seen) -> Result<(), String> {
        for c in start + 1..self.records.len() {
            if let Some(low) = self.caller(c).filter(|l| self.below(*l, high)) {
                seen.calls_while_active += 1;
                seen.timer_calls += usize::from(self.is_timer_call(c));
                seen.woken_among_reports += usize::from(!self.quiet[start]);
                if !self.waits(low, start) && !self.blocks(low, high, start) {
                    return Err(format!("part 3: {low} calls at {c}, {high} active from {start}"));
                }
                for g in self.own_gives(low, start, c) {
                    seen.gives_between += 1;
                    if !self.blocks(low, high, g) {
                        return Err(format!("part 4: {low} calls at {c} after its Give at {g}"));
                    }
                }
            }
            let stops = matches!(self.call(c), Some(Call::Delay(_) | Call::End));
            if stops && self.caller(c) == Some(high) {
                break;
            }
        }
        Ok(())
    }

    /// The Gives of the thread strictly between the two records.
    fn own_gives(&self, thread: usize, start: usize, c: usize) -> impl Iterator<Item = usize> + '_ {
        (start + 1..c).filter(move |g| matches!(self.call(*g), Some(Call::Give(_))) && self.caller(*g) == Some(thread))
    }

    /// The threads that record i starts or wakes.
    fn starting(&self, i: usize) -> Vec<usize> {
        match self.call(i) {
            Some(Call::Create(thread)) => vec![thread],
            Some(Call::Tick) => (0..i).filter_map(|d| self.woken_by(d, i)).collect(),
            _ => Vec::new(),
        }
    }

    /// The caller of a Delay of n at record d, if Tick i is the (n + 1)th after it.
    fn woken_by(&self, d: usize, i: usize) -> Option<usize> {
        let Some(Call::Delay(n)) = self.call(d) else {
            return None;
        };
        let ticks = (d + 1..=i).filter(|k| self.is_tick(*k)).count();
        if ticks == usize::from(n) + 1 {
            self.caller(d)
        } else {
            None
        }
    }
}

/// The thread of the latest Switch among the first k records, for every k.
fn runners(records: &[Record]) -> Vec<Option<usize>> {
    let mut runners = vec![None];
    for (k, record) in records.iter().enumerate() {
        let runner = match record {
            Record::Report(Report::Switch(thread)) => *thread,
            _ => runners[k],
        };
        runners.push(runner);
    }
    runners
}
