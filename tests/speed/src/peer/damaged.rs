//! Damaged dumps: both peers say of them what the proved watch says.

use super::*;
use crate::inputs::{interrupts, mixed, timers, Draw, Input};
use crate::KINDS;

fn put(input: &mut Input, at: usize, (kind, operand): (u8, u16)) {
    let place = 2 + input.records() + 2 * at;
    input.dump[2 + at] = kind;
    input.dump[place..place + 2].copy_from_slice(&operand.to_le_bytes());
}

/// Changes a byte of the plan or of the dump, a record, or the length.
fn damage(input: &mut Input, draw: &mut Draw) {
    let (records, at) = (input.decoded(), draw.below(input.records()));
    match draw.below(8) {
        0 => {
            let at = draw.below(input.plan.len());
            input.plan[at] = draw.below(66) as u8;
        }
        1 => input.dump.truncate(draw.below(8)),
        2 => input.dump.push(0),
        3 => {
            let at = 2 + draw.below(input.dump.len() - 2);
            input.dump[at] = draw.below(256) as u8;
        }
        4 => put(input, at, (KINDS[draw.below(KINDS.len())].0, draw.below(4) as u16)),
        5 => put(input, at, (records[at].0, draw.below(4) as u16)),
        _ => put(input, at, records[draw.below(records.len())]),
    }
}

#[test]
fn verdicts_agree_on_damaged_dumps() {
    let mut draw = Draw(7);
    let mut seen = std::collections::BTreeSet::new();
    for seed in 0..6000 {
        let mut input = match seed % 3 {
            0 => mixed("damaged", seed, 1 + draw.below(16), draw.below(17), 300),
            1 => timers(seed, 300),
            _ => interrupts(seed, 300),
        };
        damage(&mut input, &mut draw);
        let verdict = beltcairn::check(&input.plan, &input.dump);
        assert_eq!(check::<false>(&input.plan, &input.dump), verdict, "seed {seed}");
        assert_eq!(check::<true>(&input.plan, &input.dump), verdict, "seed {seed}");
        match verdict {
            Verdict::Refused(number) | Verdict::Breach { rule: number, .. } => seen.insert(number),
            Verdict::Clean { .. } => seen.insert(0),
        };
    }
    let wanted: Vec<u8> = (0..=8).chain(21..=32).collect();
    assert_eq!(seen.into_iter().collect::<Vec<u8>>(), wanted);
}
