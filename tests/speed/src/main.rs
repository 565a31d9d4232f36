//! Runs the proved watch and plain, fast Rust on the same long dumps and prints time per record and their ratio.

mod inputs;
mod measure;
mod peer;
mod report;
mod sides;

use inputs::Input;
use std::io::Write;
use std::process::exit;

const USAGE: &str = "usage: speed [--aims] [--rounds N] [INPUT ...]
       speed --dump INPUT > FILE
       speed --list";

const KINDS: [(u8, &str); 18] = [
    (peer::CREATE, "Create"),
    (peer::DELAY, "Delay"),
    (peer::RELINQUISH, "Relinquish"),
    (peer::END, "End"),
    (peer::TAKE, "Take"),
    (peer::GIVE, "Give"),
    (peer::TICK, "Tick"),
    (peer::ARM, "Arm"),
    (peer::START, "Start"),
    (peer::PERIOD, "Period"),
    (peer::CANCEL, "Cancel"),
    (peer::READY, "Ready"),
    (peer::SWITCH, "Switch"),
    (peer::WON, "Won"),
    (peer::LOST, "Lost"),
    (peer::YIELD, "Yield"),
    (peer::EXPIRE, "Expire"),
    (peer::LATE, "Late"),
];

struct Wishes {
    aims: bool,
    rounds: usize,
    names: Vec<String>,
}

fn main() {
    let words: Vec<String> = std::env::args().skip(1).collect();
    let words: Vec<&str> = words.iter().map(String::as_str).collect();
    match words[..] {
        ["--list"] => list(),
        ["--dump", name] => dump(name),
        _ => measure(wishes(&words)),
    }
}

fn wishes(words: &[&str]) -> Wishes {
    let mut wishes = Wishes {
        aims: false,
        rounds: 31,
        names: Vec::new(),
    };
    let mut words = words.iter();
    while let Some(&word) = words.next() {
        match word {
            "--aims" => wishes.aims = true,
            "--rounds" => match words.next().and_then(|n| n.parse().ok()) {
                Some(rounds) if rounds > 0 => wishes.rounds = rounds,
                _ => fail(USAGE),
            },
            _ if word.starts_with('-') => fail(USAGE),
            _ => wishes.names.push(word.to_string()),
        }
    }
    wishes
}

/// All tables, or for named inputs only those that are about them.
fn measure(wishes: Wishes) {
    let inputs: Vec<Input> = match wishes.names[..] {
        [] => inputs::all(),
        _ => wishes.names.iter().map(|name| named(name)).collect(),
    };
    let mut report = report::Report::new(wishes.rounds);
    report.whole(&inputs);
    report.live(&inputs);
    if wishes.names.is_empty() {
        report.against_ticks();
        report.against_records();
        report.against_sizes();
    }
    println!("\naims missed: {}", report.missed);
    if wishes.aims && report.missed > 0 {
        exit(1);
    }
}

fn named(name: &str) -> Input {
    let found = inputs::all().into_iter().find(|input| input.name == name);
    found.unwrap_or_else(|| fail(&format!("speed: no input {name}; speed --list names them")))
}

/// The inputs with how many records of each kind they have.
fn list() {
    for input in inputs::all() {
        println!("{} ({} threads, {} sections)", input.name, input.plan[0], input.plan[1]);
        let records = input.decoded();
        let counts = KINDS.map(|(kind, name)| (name, records.iter().filter(|record| record.0 == kind).count()));
        let words: Vec<String> = counts
            .iter()
            .filter(|count| count.1 > 0)
            .map(|(name, count)| format!("{name} {count}"))
            .collect();
        println!("    {}", words.join(", "));
    }
}

fn dump(name: &str) {
    let input = named(name);
    let mut out = std::io::stdout().lock();
    if let Err(error) = out.write_all(&input.plan).and_then(|()| out.write_all(&input.dump)) {
        fail(&format!("speed: {error}"));
    }
}

/// Ends the program with status 2; status 1 is for a missed aim.
fn fail(text: &str) -> ! {
    eprintln!("{text}");
    exit(2)
}
