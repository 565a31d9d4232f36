//! Records in words, as in the stored cases.

use crate::bytes::Numbers;

const KINDS: [(&str, u8); 18] = [
    ("Create", 1),
    ("Delay", 2),
    ("Relinquish", 3),
    ("End", 4),
    ("Take", 5),
    ("Give", 6),
    ("Tick", 7),
    ("Arm", 8),
    ("Start", 9),
    ("Period", 10),
    ("Cancel", 11),
    ("Ready", 16),
    ("Switch", 17),
    ("Won", 18),
    ("Lost", 19),
    ("Yield", 20),
    ("Expire", 21),
    ("Late", 22),
];

/// Those of one line, parted by semicolons.
pub fn records(text: &str) -> Vec<Numbers> {
    text.split(';')
        .filter(|words| !words.trim().is_empty())
        .flat_map(repeated)
        .collect()
}

fn repeated(text: &str) -> Vec<Numbers> {
    match text.trim().strip_prefix("repeat ").and_then(|rest| rest.split_once(' ')) {
        Some((times, text)) => vec![record(text); times.parse().expect("a number")],
        None => vec![record(text)],
    }
}

fn record(text: &str) -> Numbers {
    let mut words = text.split_whitespace();
    let name = words.next().unwrap_or_default();
    let kind = KINDS.into_iter().find(|(known, _)| *known == name);
    let operand = words.next().map_or(0, |word| match word {
        "nobody" => 65535,
        number => number.parse().expect("a number"),
    });
    (kind.expect("a kind of record").1, operand)
}
