//! Every list of records up to some length over the smallest plans.

use beltcairn::Verdict;
use second::{Fault, Reply};

use crate::answer::{breaches, Answer};
use crate::bytes::{list, plan, Numbers};
use crate::difference::{differ, Compared, Difference};
use crate::family::Family;
use crate::moves::{EMPTIED, HEIR, HEIR_OVER, LEFT, LOST, LOWERED, OVER, SAME, UNDER};
use crate::random::Random;
use crate::sides::{check, watched, Pair};
use crate::ticks::{AGAIN, AMONG, GONE, OTHER, OWED, TOGETHER};
use crate::words::records;

/// A small plan, and how far its lists are enumerated: in the short comparison, and in the long one.
pub struct Small {
    pub name: &'static str,
    pub plan: Vec<u8>,
    /// Timers from 0 on that its records name; with none there are no records of timers.
    pub timers: u16,
    /// The records with which all its lists begin; with some of them there are no call lists.
    pub begins: Vec<Numbers>,
    /// What their Takes and Gives show, besides what those of every plan with a section do.
    pub moves: Vec<Answer>,
    /// How many follow.
    pub records: [usize; 2],
    pub calls: [usize; 2],
}

pub fn plans() -> Vec<Small> {
    vec![
        small("1 thread, no section", plan(0, &[1], &[0]), [12, 15], [9, 10]),
        small("1 thread, 1 section", plan(1, &[1], &[1]), [11, 14], [8, 9]),
        small("1 thread, 2 sections", plan(2, &[1], &[3]), [10, 13], [7, 8]).with_moves(&[SAME]),
        small("2 equal threads, no section", plan(0, &[1, 1], &[0, 0]), [11, 13], [7, 8]),
        small("2 equal threads, 1 section", plan(1, &[1, 1], &[1, 1]), [10, 12], [7, 8]),
        small("2 threads, 1 section", plan(1, &[1, 2], &[1, 1]), [10, 12], [8, 9]).with_moves(&[LOST]),
        small("2 threads, 2 sections", plan(2, &[1, 2], &[3, 3]), [9, 12], [7, 8]),
        small("2 threads, 1 of 2 sections shared", plan(2, &[1, 2], &[1, 3]), [10, 12], [7, 8]),
        small("3 threads, 1 section", plan(1, &[1, 2, 3], &[1, 1, 1]), [9, 11], [7, 8]),
        small("3 threads, 2 equal, 1 section", plan(1, &[1, 2, 2], &[1, 1, 1]), [9, 11], [7, 8]),
        small("1 thread, 1 timer", plan(0, &[1], &[0]), [11, 13], [8, 9]).with_timers(1),
        small("1 thread, 2 timers", plan(0, &[1], &[0]), [10, 12], [8, 9]).with_timers(2),
        small("2 threads, 1 section, 1 timer", plan(1, &[1, 2], &[1, 1]), [9, 11], [6, 7]).with_timers(1),
    ]
}

/// Plans whose lists begin where a few Ticks among reports, or a few Takes and Gives, meet with much.
pub fn beginnings() -> Vec<Small> {
    let unshared = plan(0, &[1], &[0]);
    vec![
        small("2 threads, behind a wait", plan(2, &[1, 2], &[3, 3]), [9, 11], [0, 0])
            .with_moves(&[SAME, HEIR])
            .behind("Create 0; Ready 0; Switch 0; Take 0; Won 0; Take 1; Won 0; Create 1; Ready 1; Switch 1; Take 0; Lost 1; Switch 0"),
        small("2 threads, between a Take and its Won", plan(1, &[1, 2], &[1, 1]), [9, 11], [0, 0])
            .behind("Create 0; Ready 0; Switch 0; Create 1; Ready 1; Switch 1; Delay 1; Switch 0; Tick; Take 0"),
        small(
            "2 threads, behind Takes of two ceilings",
            plan(2, &[1, 2], &[3, 1]),
            [8, 10],
            [0, 0],
        )
        .with_moves(&[OVER, UNDER, LOST, LEFT, LOWERED, EMPTIED, HEIR_OVER])
        .behind("Create 0; Ready 0; Switch 0; Take 1; Won 0; Take 0; Won 0; Create 1; Ready 1; Switch 1"),
        small("1 thread, behind two armings", unshared, [7, 9], [0, 0])
            .with_timers(2)
            .behind("Create 0; Ready 0; Switch 0; Arm 0; Start 1; Period 1; Late 0; Arm 1; Start 2; Period 2; Late 0"),
    ]
}

fn small(name: &'static str, plan: Vec<u8>, records: [usize; 2], calls: [usize; 2]) -> Small {
    Small {
        name,
        plan,
        timers: 0,
        begins: Vec::new(),
        moves: Vec::new(),
        records,
        calls,
    }
}

impl Small {
    fn with_timers(self, timers: u16) -> Small {
        Small { timers, ..self }
    }

    fn with_moves(self, moves: &[Answer]) -> Small {
        let moves = moves.to_vec();
        Small { moves, ..self }
    }

    fn behind(self, text: &str) -> Small {
        let begins = records(text);
        Small { begins, ..self }
    }

    /// Every allowed record under the plan: of Delays 1 and 2 only, of starts 1 and 2, of periods 0 to 2, of Lates 0 to 2 and one that is 0 in
    /// its low byte.
    pub fn alphabet(&self) -> Vec<Numbers> {
        let (threads, sections) = (u16::from(self.plan[0]), u16::from(self.plan[1]));
        let named = |kinds: &[u8], below: u16| -> Vec<Numbers> {
            let kinds = kinds.iter().copied();
            kinds.flat_map(|kind| (0..below).map(move |number| (kind, number))).collect()
        };
        let mut records = vec![(2, 1), (2, 2), (3, 0), (4, 0), (7, 0), (17, 65535)];
        records.extend(named(&[1, 16, 17, 18, 19, 20], threads));
        records.extend(named(&[5, 6], sections));
        if self.timers > 0 {
            records.extend(named(&[8, 11, 21], self.timers));
            records.extend([(9, 1), (9, 2), (10, 0), (10, 1), (10, 2)]);
            records.extend([(22, 0), (22, 1), (22, 2), (22, 256)]);
        }
        records
    }

    /// The rules that its lists reach, and what their Takes, Gives and Ticks show.
    pub fn reaches(&self) -> Vec<Answer> {
        let of_all = [breaches(21, 21), breaches(28, 30), vec![AMONG, AGAIN]].concat();
        let of_timers = match self.timers {
            0 => Vec::new(),
            _ => [breaches(31, 32), vec![OWED]].concat(),
        };
        let mut reached = [of_all, of_timers, self.moves.clone()].concat();
        if self.begins.is_empty() {
            reached.extend(self.reaches_from_the_start());
        }
        reached
    }

    /// That nobody runs, and a thread that wakes before the Switch behind its Delay; with a section the Give of all that is held; with two
    /// threads also one that wakes before the Switch of the other; with two equal ones sleepers of one tick in either order.
    fn reaches_from_the_start(&self) -> Vec<Answer> {
        let of_sections = if self.plan[1] > 0 { vec![EMPTIED] } else { Vec::new() };
        let of_two = if self.plan[0] > 1 { vec![OTHER] } else { Vec::new() };
        let together = match self.plan[..] {
            [2, _, one, other, ..] if one == other => TOGETHER.to_vec(),
            _ => Vec::new(),
        };
        [vec![Answer::Breach(22), GONE], of_sections, of_two, together].concat()
    }
}

/// How many lists there are with up to so many records behind the beginning; those that are not tried begin with one that was tried and has
/// a breach.
pub fn covered(small: &Small, length: usize) -> f64 {
    let records = small.alphabet().len() as f64;
    (0..=length as i32).map(|power| records.powi(power)).sum()
}

/// A walk over the lists: each is compared by the whole check and by the live step. A list with a breach is made longer by one record
/// in one case of sixteen and no further: by document 01 the first broken record decides, whatever follows.
pub struct Walk<'a> {
    fault: Fault,
    plan: &'a [u8],
    begins: &'a [Numbers],
    alphabet: Vec<Numbers>,
    family: Family,
    random: Random,
    /// Lists that may still be tried.
    budget: u64,
    /// Whether the first difference ends the walk.
    stops: bool,
}

impl<'a> Walk<'a> {
    fn new(fault: Fault, small: &'a Small, name: &str, budget: u64, stops: bool) -> Walk<'a> {
        Walk {
            fault,
            plan: &small.plan,
            begins: &small.begins,
            alphabet: small.alphabet(),
            family: Family::new(name),
            random: Random::new(0),
            budget,
            stops,
        }
    }

    /// All lists with up to so many records behind the beginning, every difference counted.
    pub fn all(small: &'a Small, name: &str, length: usize) -> Family {
        let mut walk = Walk::new(Fault::None, small, name, u64::MAX, false);
        if let Err(difference) = walk.go(length) {
            walk.family.count(Err(difference));
        }
        walk.family
    }

    /// The first difference in ever longer lists, with its length, if there is one among that many lists.
    pub fn first(fault: Fault, small: &'a Small, budget: u64) -> Option<(usize, Box<Difference>)> {
        let mut left = budget;
        for length in 1.. {
            let mut walk = Walk::new(fault, small, "", left, true);
            if let Err(difference) = walk.go(length) {
                return Some((length, difference));
            }
            left = walk.budget;
            if walk.spent() {
                break;
            }
        }
        None
    }

    fn go(&mut self, length: usize) -> Compared<()> {
        let mut pair = Pair::begin(self.fault, self.plan)?.expect("the plans here pass");
        for number in 1..=self.begins.len() {
            pair.step_last(self.plan, &self.begins[..number])?;
        }
        let dump = list(self.begins);
        let verdict = check(self.fault, self.plan, &dump)?;
        if !matches!(verdict, Verdict::Clean { .. }) {
            return differ(watched(self.plan, &dump), verdict, "clean");
        }
        self.count(Ok(vec![verdict.into()]))?;
        self.below(&pair, &mut self.begins.to_vec(), length)
    }

    fn spent(&self) -> bool {
        self.budget == 0
    }

    fn below(&mut self, pair: &Pair, records: &mut Vec<Numbers>, left: usize) -> Compared<()> {
        if left == 0 {
            return Ok(());
        }
        for i in 0..self.alphabet.len() {
            if self.spent() {
                return Ok(());
            }
            let record = self.alphabet[i];
            records.push(record);
            let mut next = pair.clone();
            let reply = self.one(&mut next, records);
            let goes_on = matches!(reply, Ok(Reply::Clean { .. }));
            self.count(reply.map(|reply| std::iter::once(reply.into()).chain(next.shown()).collect()))?;
            if goes_on {
                self.below(&next, records, left - 1)?;
            }
            records.pop();
        }
        Ok(())
    }

    /// The list by both ways, which must say the same of its last record.
    fn one(&mut self, pair: &mut Pair, records: &[Numbers]) -> Compared<Reply> {
        let dump = list(records);
        let verdict = check(self.fault, self.plan, &dump)?;
        let reply = pair.step_last(self.plan, records)?;
        let told = match reply {
            Reply::Clean { due } => Verdict::Clean {
                records: records.len() as u64,
                due: due as u64,
            },
            Reply::Broken(rule) => Verdict::Breach {
                record: records.len() as u64 - 1,
                rule,
            },
            Reply::Refused(_) => return differ(watched(self.plan, &dump), reply, "not refused: kind and operand are allowed"),
        };
        if verdict != told {
            return differ(watched(self.plan, &dump), ("whole check", verdict), ("live step", told));
        }
        if matches!(reply, Reply::Broken(_)) && self.random.one_in(16) {
            self.one_more(pair, records, verdict, reply)?;
        }
        Ok(reply)
    }

    /// A record behind a breach changes neither answer.
    fn one_more(&mut self, pair: &mut Pair, records: &[Numbers], verdict: Verdict, reply: Reply) -> Compared<()> {
        let more = self.random.pick(&self.alphabet);
        let dump = list(&[records, &[more]].concat());
        let again = (check(self.fault, self.plan, &dump)?, pair.step(more)?);
        if again != (verdict, reply) {
            return differ(watched(self.plan, &dump), again, (verdict, reply));
        }
        Ok(())
    }

    fn count(&mut self, compared: Compared<Vec<Answer>>) -> Compared<()> {
        self.budget = self.budget.saturating_sub(1);
        match compared {
            Err(difference) if self.stops => Err(difference),
            compared => {
                self.family.count(compared);
                Ok(())
            }
        }
    }
}
