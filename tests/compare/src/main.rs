//! compare short|long|faults [SEED]: see tests/README.md.

use std::process::ExitCode;
use std::time::Instant;

use compare::answer::{breaches, refusals, Answer};
use compare::calls::Calls;
use compare::enumerate::{beginnings, covered, plans, Walk};
use compare::family::{Family, Trial};
use compare::moves::{FROM_THE_START, LENT, OFTEN};
use compare::promise::CleanLists;
use compare::random::Random;
use compare::ticks::{AGAIN, AMONG, FULL, GONE, OTHER, OWED, TOGETHER, WOKEN};
use compare::{broken, dumps, faults, holders, known, lent, lists, promise, state};
use second::Fault;

const SEED: u64 = 1;
const CLEAN: [Answer; 2] = [Answer::Clean, Answer::CleanWithDue];
const INTERRUPTS: [Answer; 6] = [AMONG, AGAIN, OTHER, GONE, WOKEN, OWED];

/// How many inputs the families of a comparison have.
struct Scale {
    long: bool,
    dumps: u64,
    lists: u64,
    lent: u64,
    broken: u64,
    promise: u64,
}

const SHORT: Scale = Scale {
    long: false,
    dumps: 80_000,
    lists: 20_000,
    lent: 200_000,
    broken: 3_000,
    promise: 10_000,
};
const LONG: Scale = Scale {
    long: true,
    dumps: 400_000,
    lists: 200_000,
    lent: 3_000_000,
    broken: 50_000,
    promise: 150_000,
};

fn main() -> ExitCode {
    let words: Vec<String> = std::env::args().skip(1).collect();
    let seed = match words.get(1).map(|word| word.parse()) {
        None => SEED,
        Some(Ok(seed)) => seed,
        Some(Err(_)) => return usage(),
    };
    let started = Instant::now();
    let (passed, failed) = match words.first().map(String::as_str) {
        Some("short") => compare(&SHORT, seed),
        Some("long") => compare(&LONG, seed),
        Some("faults") => faults::try_all(seed),
        _ => return usage(),
    };
    println!("seed {seed}, {} s", started.elapsed().as_secs());
    println!("{passed} passed, {failed} failed");
    if failed == 0 && passed > 0 {
        ExitCode::SUCCESS
    } else {
        ExitCode::FAILURE
    }
}

fn usage() -> ExitCode {
    eprintln!("usage: compare short|long|faults [SEED]");
    ExitCode::from(2)
}

/// Counts the families that passed and failed.
struct Tally {
    passed: u64,
    failed: u64,
    seed: u64,
}

impl Tally {
    fn take(&mut self, family: &Family, wanted: &[Answer]) {
        if family.conclude(wanted) {
            self.passed += 1;
        } else {
            self.failed += 1;
        }
    }

    /// A family of random inputs. Each has numbers of its own, so that one family's count does not move the others.
    fn random(&mut self, name: &str, trial: Trial, inputs: u64, wanted: &[Answer]) {
        let mut family = Family::new(name);
        family.try_many(trial, inputs, &mut self.numbers_for(name));
        self.take(&family, wanted);
    }

    fn numbers_for(&self, name: &str) -> Random {
        Random::new(
            name.bytes()
                .fold(self.seed, |mixed, byte| mixed.wrapping_mul(31).wrapping_add(byte.into())),
        )
    }
}

fn compare(scale: &Scale, seed: u64) -> (u64, u64) {
    let mut tally = Tally {
        passed: 0,
        failed: 0,
        seed,
    };
    known_runs(&mut tally);
    every_list(&mut tally, scale.long);
    every_call_list(&mut tally, scale.long);
    random_dumps(&mut tally, scale.dumps);
    bench_lists(&mut tally, scale.lists);
    lent_states(&mut tally, scale);
    demand_3(&mut tally, scale);
    (tally.passed, tally.failed)
}

fn known_runs(tally: &mut Tally) {
    let mut family = Family::new("known runs");
    known::RUNS.iter().for_each(|run| family.count(known::agrees(Fault::None, run)));
    tally.take(&family, &CLEAN);
}

fn every_list(tally: &mut Tally, long: bool) {
    let (started, mut lists) = (Instant::now(), 0);
    for small in plans().into_iter().chain(beginnings()) {
        let length = small.records[usize::from(long)];
        let more = if small.begins.is_empty() { "records" } else { "more records" };
        let name = format!("every list, {}, up to {length} {more}", small.name);
        let family = Walk::all(&small, &name, length);
        tally.take(&family, &[CLEAN.to_vec(), small.reaches()].concat());
        println!("    with what their breaches decide, {:.3e} lists", covered(&small, length));
        lists += family.inputs;
    }
    println!("enumerated: {lists} lists of records in {} s", started.elapsed().as_secs());
}

fn every_call_list(tally: &mut Tally, long: bool) {
    let (started, mut lists) = (Instant::now(), 0);
    for small in plans() {
        let length = small.calls[usize::from(long)];
        let name = format!("every call list, {}, up to {length} calls", small.name);
        let family = Calls::new(&small, &name).family_of(length);
        tally.take(&family, &[Answer::Written, Answer::Refused(9)]);
        lists += family.inputs;
    }
    println!("enumerated: {lists} call lists in {} s", started.elapsed().as_secs());
}

fn random_dumps(tally: &mut Tally, inputs: u64) {
    let shown = [Answer::Clean, dumps::LONGEST, dumps::EXPIRY, dumps::LATE, FULL];
    let wanted = [&shown[..], &TOGETHER, &INTERRUPTS, &FROM_THE_START].concat();
    tally.random("honest", dumps::honest, inputs, &wanted);
    let cut = [CLEAN.to_vec(), vec![dumps::INSIDE], refusals(&[5, 6])].concat();
    tally.random("cut short", dumps::cut, inputs, &cut);
    tally.random(
        "damaged in a record",
        dumps::damaged_record,
        inputs,
        &[CLEAN.to_vec(), breaches(21, 32), refusals(&[8])].concat(),
    );
    let everything = [CLEAN.to_vec(), breaches(21, 32), refusals(&[1, 2, 3, 4, 5, 6, 7, 8])].concat();
    tally.random("damaged in a byte", dumps::damaged_byte, inputs, &everything);
    let early = [
        CLEAN.to_vec(),
        breaches(21, 22),
        breaches(28, 31),
        refusals(&[1, 2, 3, 4, 5, 6, 7, 8]),
    ]
    .concat();
    tally.random("random bytes", dumps::random_bytes, inputs, &early);
}

fn bench_lists(tally: &mut Tally, inputs: u64) {
    let wanted = [vec![Answer::Written], refusals(&[1, 2, 3, 4, 5, 6, 7, 8, 9, 10, 11])].concat();
    tally.random("call lists", lists::call_list, inputs, &wanted);
    tally.random(
        "output one byte short",
        lists::one_byte_short,
        inputs / 4,
        &[vec![Answer::Written], refusals(&[11])].concat(),
    );
    tally.random("bench output", lists::output, inputs, &[Answer::Clean]);
}

fn lent_states(tally: &mut Tally, scale: &Scale) {
    let wanted = [CLEAN.to_vec(), breaches(21, 32), refusals(&[7, 8]), INTERRUPTS.to_vec()].concat();
    tally.random("lent, reached", lent::reached, scale.lent / 4, &wanted);
    let of_any_state = [vec![lent::CUT, lent::APART, FULL], TOGETHER.to_vec(), OFTEN.to_vec()].concat();
    tally.random(
        "lent, well-formed",
        lent::well_formed,
        scale.lent,
        &[wanted, refusals(&[12, 13]), of_any_state].concat(),
    );
    let moves = [&CLEAN[..], &FROM_THE_START, &LENT].concat();
    tally.random("lent, holds moved", holders::moved, scale.lent / 4, &moves);
    for (name, break_it) in broken::WAYS {
        let mut family = Family::new(&format!("lent, broken: {name}"));
        let mut random = tally.numbers_for(name);
        (0..scale.broken).for_each(|_| family.count(broken::broken(Fault::None, break_it, &mut random)));
        tally.take(&family, &refusals(&[12]));
    }
    for (name, break_it) in state::LENGTHS {
        let mut family = Family::new(&format!("lent, broken: {name}"));
        let mut random = tally.numbers_for(name);
        (0..scale.broken).for_each(|_| family.count(broken::beyond_the_room(break_it, &mut random)));
        tally.take(&family, &refusals(&[12]));
    }
}

fn demand_3(tally: &mut Tally, scale: &Scale) {
    tally.random("demand 3 on clean dumps", promise::kept, scale.promise, &promise::WANTED);
    let mut family = Family::new("demand 3 on every clean list");
    for small in beginnings().iter().filter(|small| small.timers == 0) {
        CleanLists::all(small, small.records[usize::from(scale.long)], &mut family);
    }
    tally.take(&family, &promise::wanted_of_lists());
}
