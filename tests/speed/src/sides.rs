//! What is timed: the whole check of Rattle and of both peers, and the live step. A time counts only where all give the same answer.

use crate::inputs::Input;
use crate::measure::Side;
use crate::{fail, peer};
use beltcairn::{Reply, Verdict, Watch};
use std::hint::black_box;

pub fn rattle(inputs: &[Input]) -> Side<'_> {
    whole(beltcairn::check, inputs)
}

pub fn plain(inputs: &[Input]) -> Side<'_> {
    whole(peer::check::<false>, inputs)
}

pub fn tuned(inputs: &[Input]) -> Side<'_> {
    whole(peer::check::<true>, inputs)
}

fn whole<'a>(check: impl Fn(&[u8], &[u8]) -> Verdict + 'a, inputs: &'a [Input]) -> Side<'a> {
    Side::new(inputs.iter().map(Input::records).sum(), move || {
        for input in inputs {
            black_box(check(black_box(&input.plan), black_box(&input.dump)));
        }
    })
}

/// Every record of the dump by a step of its own, each with question 12 asked of the state.
pub fn live(input: &Input) -> Side<'_> {
    let records = input.decoded();
    let start =
        Watch::begin(&input.plan).unwrap_or_else(|question| fail(&format!("speed: the plan of {} is refused, {question}", input.name)));
    steps_are_clean(input.name, start, &records);
    Side::new(records.len(), move || {
        let mut watch = black_box(start);
        for &(kind, operand) in black_box(&records) {
            black_box(watch.step(kind, operand));
        }
    })
}

fn steps_are_clean(name: &str, mut watch: Watch, records: &[(u8, u16)]) {
    for (record, &(kind, operand)) in records.iter().enumerate() {
        let reply = watch.step(kind, operand);
        if !matches!(reply, Reply::Clean(_)) {
            fail(&format!("speed: the live step answers {reply:?} at record {record} of {name}"));
        }
    }
}

/// Ends the program unless all sides call the whole dump clean.
pub fn agree(input: &Input) {
    let rattle = beltcairn::check(&input.plan, &input.dump);
    let plain = peer::check::<false>(&input.plan, &input.dump);
    let tuned = peer::check::<true>(&input.plan, &input.dump);
    let clean = matches!(rattle, Verdict::Clean { records, .. } if records == input.records() as u64);
    if !clean || plain != rattle || tuned != rattle {
        let name = input.name;
        fail(&format!(
            "speed: {name} must be clean for all, but Rattle says {rattle:?}, the peer {plain:?}, tuned {tuned:?}"
        ));
    }
}
