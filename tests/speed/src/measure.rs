//! Times several sides in turn, so that a slow moment of the machine meets all of them.

use std::time::{Duration, Instant};

const ROUND: Duration = Duration::from_millis(5);

/// Something to time: a run goes through so many records.
pub struct Side<'a> {
    records: usize,
    run: Box<dyn Fn() + 'a>,
}

impl<'a> Side<'a> {
    pub fn new(records: usize, run: impl Fn() + 'a) -> Side<'a> {
        Side {
            records,
            run: Box::new(run),
        }
    }

    fn time(&self, repeats: usize) -> Duration {
        let before = waited();
        let start = Instant::now();
        for _ in 0..repeats {
            (self.run)();
        }
        let took = start.elapsed();
        took.saturating_sub(waited().saturating_sub(before))
    }

    /// How often it runs to fill a round.
    fn repeats(&self) -> usize {
        let mut repeats = 1;
        loop {
            let took = self.time(repeats);
            if took * 4 >= ROUND {
                let scale = ROUND.as_secs_f64() / took.as_secs_f64();
                return ((repeats as f64 * scale) as usize).max(1);
            }
            repeats *= 2;
        }
    }
}

/// For each side the median over the rounds, in nanoseconds per record.
pub fn medians(sides: &[Side], rounds: usize) -> Vec<f64> {
    let repeats: Vec<usize> = sides.iter().map(Side::repeats).collect();
    let mut times = vec![Vec::with_capacity(rounds); sides.len()];
    for _ in 0..rounds {
        for (at, side) in sides.iter().enumerate() {
            let took = side.time(repeats[at]);
            times[at].push(took.as_secs_f64() * 1e9 / (repeats[at] * side.records) as f64);
        }
    }
    times.into_iter().map(median).collect()
}

fn median(mut values: Vec<f64>) -> f64 {
    values.sort_by(f64::total_cmp);
    values[values.len() / 2]
}

/// How long this thread has been ready while another had the processor, where the system says so (Linux); it is no time of the side's.
fn waited() -> Duration {
    let text = std::fs::read_to_string("/proc/thread-self/schedstat").unwrap_or_default();
    Duration::from_nanos(text.split(' ').nth(1).and_then(|word| word.parse().ok()).unwrap_or(0))
}
