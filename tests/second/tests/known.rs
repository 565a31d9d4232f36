//! Demand 3 on known runs of documents 01 and 02.

use second::promise;

/// Names as in the stored cases, in one line.
fn records(text: &str) -> Vec<(u8, u16)> {
    text.split(';').map(record).collect()
}

fn record(text: &str) -> (u8, u16) {
    let mut words = text.split_whitespace();
    let kind = match words.next().unwrap() {
        "Create" => 1,
        "Delay" => 2,
        "Take" => 5,
        "Give" => 6,
        "Tick" => 7,
        "Ready" => 16,
        "Switch" => 17,
        "Won" => 18,
        "Lost" => 19,
        other => panic!("{other}"),
    };
    let operand = words.next().map_or(0, |word| match word {
        "nobody" => 65535,
        number => number.parse().unwrap(),
    });
    (kind, operand)
}

const RUN_A: &str = "Create 0; Ready 0; Switch 0; Take 0; Won 0; Create 2; Ready 2; Switch 2; \
    Take 0; Lost 2; Switch 0; Create 1; Ready 1; Give 0; Won 2; Ready 2; Switch 2";

const P4: &str = "Create 0; Ready 0; Switch 0; Delay 1; Switch nobody; Tick; Tick; Ready 0; \
    Switch 0";

/// The third Tick comes with Ready and Switch due.
const P6: &str = "Create 0; Ready 0; Switch 0; Delay 1; Switch nobody; Tick; Tick; Tick";

/// Thread 2 is active from record 11; below it 0 calls at 17 and 1 at 27, in two waits.
const P13: &str = "Create 0; Ready 0; Switch 0; Take 0; Won 0; Create 1; Ready 1; Switch 1; \
    Take 0; Lost 1; Switch 0; Create 2; Ready 2; Switch 2; Take 0; Lost 2; Switch 0; Give 0; \
    Won 2; Ready 2; Switch 2; Give 0; Won 1; Ready 1; Take 0; Lost 2; Switch 1; Give 0; Won 2; \
    Ready 2; Switch 2";

/// Both are due at tick number 2, and 1 delayed first.
const P14: &str = "Create 1; Ready 1; Switch 1; Create 0; Ready 0; Delay 1; Switch 0; Delay 1; Switch nobody; Tick; Tick; Ready 1; \
    Ready 0; Switch 1";

#[test]
fn known_runs_keep_the_promise_at_every_length() {
    let run_a: &[u8] = &[3, 1, 1, 2, 3, 1, 0, 0, 0, 1, 0];
    let alone: &[u8] = &[1, 0, 1, 0, 0];
    let p13: &[u8] = &[3, 1, 1, 2, 3, 1, 0, 1, 0, 1, 0];
    let p14: &[u8] = &[2, 0, 1, 1, 0, 0, 0, 0];
    for (plan, text, length) in [(run_a, RUN_A, 17), (alone, P4, 9), (alone, P6, 8), (p13, P13, 31), (p14, P14, 14)] {
        let records = records(text);
        assert_eq!(records.len(), length);
        for cut in 0..=length {
            promise(plan, &records[..cut]).unwrap();
        }
    }
}
