//! Named families of inputs: each is one check, with the number of its inputs and how their answers were distributed.

use std::collections::BTreeMap;
use std::time::{Duration, Instant};

use second::Fault;

use crate::answer::Answer;
use crate::difference::{Compared, Difference};
use crate::random::Random;

/// One input made at random and put to both sides; the answers under which it is counted.
pub type Trial = fn(Fault, &mut Random) -> Compared<Vec<Answer>>;

const ALIVE_EVERY: Duration = Duration::from_secs(5);
const SHOWN: usize = 3;

pub struct Family {
    pub name: String,
    pub inputs: u64,
    answers: BTreeMap<Answer, u64>,
    differing: u64,
    differences: Vec<Difference>,
    alive: Instant,
}

impl Family {
    pub fn new(name: &str) -> Family {
        Family {
            name: name.to_string(),
            inputs: 0,
            answers: BTreeMap::new(),
            differing: 0,
            differences: Vec::new(),
            alive: Instant::now(),
        }
    }

    /// Counts one input; the first few differences are kept for printing.
    pub fn count(&mut self, compared: Compared<Vec<Answer>>) {
        self.inputs += 1;
        match compared {
            Ok(answers) => answers.into_iter().for_each(|answer| *self.answers.entry(answer).or_default() += 1),
            Err(difference) => {
                self.differing += 1;
                if self.differences.len() < SHOWN {
                    self.differences.push(*difference);
                }
            }
        }
        if self.inputs.is_multiple_of(64) && self.alive.elapsed() > ALIVE_EVERY {
            eprintln!("alive: {}, {} inputs, {} differences", self.name, self.inputs, self.differing);
            self.alive = Instant::now();
        }
    }

    /// Puts that many random inputs to both sides.
    pub fn try_many(&mut self, trial: Trial, inputs: u64, random: &mut Random) {
        for _ in 0..inputs {
            self.count(trial(Fault::None, random));
        }
    }

    /// Prints the family and says whether it passes: it has inputs, no difference, and every answer wanted was among the answers.
    pub fn conclude(&self, wanted: &[Answer]) -> bool {
        let missing: Vec<String> = wanted
            .iter()
            .filter(|answer| !self.answers.contains_key(answer))
            .map(Answer::to_string)
            .collect();
        let passes = self.inputs > 0 && self.differing == 0 && missing.is_empty();
        println!("{}: {}, {} inputs", if passes { "ok" } else { "FAILED" }, self.name, self.inputs);
        let answers: Vec<String> = self.answers.iter().map(|(answer, times)| format!("{answer} {times}x")).collect();
        if !answers.is_empty() {
            println!("    {}", answers.join(", "));
        }
        if !missing.is_empty() {
            println!("    never seen: {}", missing.join(", "));
        }
        if self.differing > 0 {
            println!("    {} differences, the first {}:", self.differing, self.differences.len());
        }
        self.differences.iter().for_each(|difference| println!("{difference}"));
        passes
    }
}
