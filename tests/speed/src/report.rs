//! The tables, each ratio with its aim beside it.

use crate::inputs::{self, Input, LONG};
use crate::measure::medians;
use crate::sides;

/// A live step may cost this many records of the whole check.
const LIVE_AIM: f64 = 20.0;
/// For the cost to be linear in N, a record of a dump of 20,000 may cost this many of a dump of 5,000.
const LINEAR_AIM: f64 = 1.25;

pub struct Report {
    rounds: usize,
    pub missed: usize,
}

/// Nanoseconds per record.
struct Cost {
    rattle: f64,
    plain: f64,
    tuned: f64,
}

const HEAD: &str = "  Rattle    peer   ratio   tuned   ratio";

impl Cost {
    fn row(&self) -> String {
        let Cost { rattle, plain, tuned } = self;
        format!(
            "{rattle:>8.2}{plain:>8.2}{:>8.2}{tuned:>8.2}{:>8.2}",
            rattle / plain,
            rattle / tuned
        )
    }
}

impl Report {
    pub fn new(rounds: usize) -> Report {
        Report { rounds, missed: 0 }
    }

    fn verdict(&mut self, ratio: f64, aim: f64) -> &'static str {
        if ratio <= aim {
            return "met";
        }
        self.missed += 1;
        "missed"
    }

    /// The cost of each group of inputs.
    fn costs(&self, groups: &[&[Input]]) -> Vec<Cost> {
        groups.iter().flat_map(|group| group.iter()).for_each(sides::agree);
        let sides: Vec<_> = groups
            .iter()
            .flat_map(|group| [sides::rattle(group), sides::plain(group), sides::tuned(group)])
            .collect();
        let times = medians(&sides, self.rounds);
        times
            .chunks_exact(3)
            .map(|t| Cost {
                rattle: t[0],
                plain: t[1],
                tuned: t[2],
            })
            .collect()
    }

    pub fn whole(&mut self, inputs: &[Input]) {
        println!("Whole check, nanoseconds per record (medians of {} rounds)", self.rounds);
        println!("{:<20}{HEAD}  aim", "input");
        let groups: Vec<&[Input]> = inputs.chunks(1).collect();
        for (input, cost) in inputs.iter().zip(self.costs(&groups)) {
            let met = self.verdict(cost.rattle / cost.plain, input.aim);
            println!("{:<20}{}  {:.1} {met}", input.name, cost.row(), input.aim);
        }
    }

    /// A live step and a record of the whole check, for each input.
    fn steps(&self, inputs: &[Input]) -> Vec<[f64; 2]> {
        let sides: Vec<_> = inputs
            .chunks(1)
            .flat_map(|input| [sides::live(&input[0]), sides::rattle(input)])
            .collect();
        let times = medians(&sides, self.rounds);
        times.chunks_exact(2).map(|t| [t[0], t[1]]).collect()
    }

    pub fn live(&mut self, inputs: &[Input]) {
        println!("\nLive step, nanoseconds per record, against Rattle's whole check");
        println!("{:<20}{:>8}{:>8}{:>8}  aim", "input", "step", "whole", "ratio");
        for (input, [step, whole]) in inputs.iter().zip(self.steps(inputs)) {
            let ratio = step / whole;
            let met = self.verdict(ratio, LIVE_AIM);
            println!("{:<20}{step:>8.2}{whole:>8.2}{ratio:>8.2}  {LIVE_AIM:.1} {met}", input.name);
        }
    }

    /// Where the whole check is at its cheapest: every record moves the tick number alone.
    pub fn against_ticks(&self) {
        println!("\nLive step on Ticks that wake nobody, with nobody waiting and with one thread");
        println!("{:<20}{:>8}{:>8}{:>8}", "input", "step", "whole", "ratio");
        let cases = [
            (2, false),
            (4, false),
            (8, false),
            (16, false),
            (2, true),
            (4, true),
            (8, true),
            (16, true),
        ];
        let inputs = cases.map(|(threads, waits)| inputs::ticks_alone(threads, waits));
        for ((threads, waits), [step, whole]) in cases.iter().zip(self.steps(&inputs)) {
            let name = format!("T {threads}, {}", if *waits { "one waits" } else { "none waits" });
            println!("{name:<20}{step:>8.2}{whole:>8.2}{:>8.2}", step / whole);
        }
    }

    pub fn against_records(&mut self) {
        println!("\nAgainst N, the records of a dump");
        println!("{:<20}{HEAD}", "input");
        self.lengths("mixed-8", |seed, records| inputs::mixed("mixed-8", seed, 8, 8, records));
        self.lengths("ticks-many", inputs::ticks_many);
    }

    /// Each row goes through as many dumps as have 20,000 records together: the processor learns no short dump by heart.
    fn lengths(&mut self, name: &str, make: impl Fn(u64, usize) -> Input) {
        let lengths = [1_000, 5_000, 10_000, LONG];
        let groups = lengths.map(|records| (1..=LONG / records).map(|seed| make(seed as u64, records)).collect::<Vec<Input>>());
        let costs = self.costs(&groups.each_ref().map(Vec::as_slice));
        for (records, cost) in lengths.iter().zip(&costs) {
            println!("{:<20}{}", format!("{name} N {records}"), cost.row());
        }
        let ratio = costs[3].rattle / costs[1].rattle;
        let met = self.verdict(ratio, LINEAR_AIM);
        println!("Rattle on {name}: N 20000 against N 5000 {ratio:.2}, aim {LINEAR_AIM} {met}");
    }

    pub fn against_sizes(&self) {
        println!("\nAgainst T and S, on mixed calls");
        println!("{:<20}{HEAD}", "input");
        let sizes = [(1, 4), (2, 4), (4, 4), (8, 4), (16, 4), (8, 0), (8, 4), (8, 8), (8, 16)];
        let inputs = sizes.map(|(threads, sections)| inputs::mixed("mixed", 1, threads, sections, LONG));
        let groups: Vec<&[Input]> = inputs.chunks(1).collect();
        for ((threads, sections), cost) in sizes.iter().zip(self.costs(&groups)) {
            println!("{:<20}{}", format!("T {threads} S {sections}"), cost.row());
        }
    }
}
