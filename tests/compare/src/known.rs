//! The known runs of document 01, with the verdicts that it prints or that document 02, item 4, changes, and the one that joins them with
//! item 3.

use beltcairn::{Verdict, Written};
use second::Fault;

use crate::answer::Answer;
use crate::bytes::{calls, hexadecimal, list, plan};
use crate::difference::{differ, Compared, Input};
use crate::sides::{bench, check, steps, watched};
use crate::words::records;

pub struct Known {
    pub name: &'static str,
    sections: u8,
    bases: &'static [u8],
    needs: &'static [u16],
    records: &'static str,
    verdict: Verdict,
}

/// The runs in document 01's order, and P14. Run A is P1, its plan `03 01 01 02 03 01 00 00 00 01 00`.
pub const RUNS: [Known; 15] = [
    Known {
        name: "P1",
        sections: 1,
        bases: &[1, 2, 3],
        needs: &[1, 0, 1],
        records: "Create 0; Ready 0; Switch 0; Take 0; Won 0; Create 2; Ready 2; Switch 2; Take 0; Lost 2; Switch 0; Create 1; Ready 1; \
            Give 0; Won 2; Ready 2; Switch 2",
        verdict: clean(17, 0),
    },
    Known {
        name: "P2",
        sections: 1,
        bases: &[1, 2, 3],
        needs: &[1, 0, 1],
        records: "Create 0; Ready 0; Switch 0; Take 0; Won 0; Create 2; Ready 2; Switch 2; Take 0; Lost 2; Switch 1; Create 1; Ready 1; \
            Give 0; Won 2; Ready 2; Switch 2",
        verdict: breach(10, 30),
    },
    alone("P3", "", clean(0, 0)),
    alone(
        "P4",
        "Create 0; Ready 0; Switch 0; Delay 1; Switch nobody; Tick; Tick; Ready 0; Switch 0",
        clean(9, 0),
    ),
    alone(
        "P5",
        "Create 0; Ready 0; Switch 0; Delay 1; Switch nobody; Tick; Ready 0",
        breach(6, 28),
    ),
    alone(
        "P6",
        "Create 0; Ready 0; Switch 0; Delay 1; Switch nobody; Tick; Tick; Tick",
        clean(8, 2),
    ),
    alone("P7", "Create 0; Ready 0; Switch 0; Relinquish", clean(4, 0)),
    Known {
        name: "P8",
        sections: 2,
        bases: &[1],
        needs: &[3],
        records: "Create 0; Ready 0; Switch 0; Take 0; Won 0; Take 1; Won 0; Give 0",
        verdict: breach(7, 27),
    },
    Known {
        name: "P9",
        sections: 1,
        bases: &[1],
        needs: &[1],
        records: "Create 0; Ready 0; Switch 0; Take 0; Won 0; Delay 1",
        verdict: breach(5, 24),
    },
    equals(
        "P10",
        "Create 0; Ready 0; Switch 0; Create 1; Ready 1; Relinquish; Yield 0; Switch 1",
        clean(8, 0),
    ),
    equals(
        "P10 without its last record",
        "Create 0; Ready 0; Switch 0; Create 1; Ready 1; Relinquish; Yield 0",
        clean(7, 1),
    ),
    Known {
        name: "P11",
        sections: 2,
        bases: &[1, 2],
        needs: &[1, 3],
        records: "Create 0; Ready 0; Switch 0; Take 0; Won 0; Create 1; Ready 1; Switch 1; Take 1; Lost 1; Switch 0",
        verdict: clean(11, 0),
    },
    alone(
        "P12",
        "Create 0; Ready 0; Switch 0; Delay 256; Switch nobody; repeat 257 Tick; Ready 0; Switch 0",
        clean(264, 0),
    ),
    Known {
        name: "P13",
        sections: 1,
        bases: &[1, 2, 3],
        needs: &[1, 1, 1],
        records: "Create 0; Ready 0; Switch 0; Take 0; Won 0; Create 1; Ready 1; Switch 1; Take 0; Lost 1; Switch 0; Create 2; Ready 2; \
            Switch 2; Take 0; Lost 2; Switch 0; Give 0; Won 2; Ready 2; Switch 2; Give 0; Won 1; Ready 1; Take 0; Lost 2; Switch 1; \
            Give 0; Won 2; Ready 2; Switch 2",
        verdict: clean(31, 0),
    },
    equals(
        "P14",
        "Create 1; Ready 1; Switch 1; Create 0; Ready 0; Delay 1; Switch 0; Delay 1; Switch nobody; Tick; Tick; Ready 1; Ready 0; Switch 1",
        clean(14, 0),
    ),
];

const fn alone(name: &'static str, records: &'static str, verdict: Verdict) -> Known {
    Known {
        name,
        sections: 0,
        bases: &[1],
        needs: &[0],
        records,
        verdict,
    }
}

const fn equals(name: &'static str, records: &'static str, verdict: Verdict) -> Known {
    Known {
        name,
        sections: 0,
        bases: &[1, 1],
        needs: &[0, 0],
        records,
        verdict,
    }
}

const fn clean(records: u64, due: u64) -> Verdict {
    Verdict::Clean { records, due }
}

const fn breach(record: u64, rule: u8) -> Verdict {
    Verdict::Breach { record, rule }
}

/// Both say what the documents say, step by step as well; and from the calls of a clean one with nothing due, both benches write it: none
/// of these has a Tick between a call and its reports.
pub fn agrees(fault: Fault, known: &Known) -> Compared<Vec<Answer>> {
    let (plan, records) = (plan(known.sections, known.bases, known.needs), records(known.records));
    let dump = list(&records);
    let verdict = check(fault, &plan, &dump)?;
    if verdict != known.verdict {
        return differ(watched(&plan, &dump), verdict, (known.name, known.verdict));
    }
    steps(fault, &plan, &records)?;
    if let Verdict::Clean { records: number, due: 0 } = verdict {
        let calls = list(&calls(&records));
        let answer = bench(fault, &plan, &calls, dump.len())?;
        if answer != (Written::Wrote(number), dump.clone()) {
            let input = Input::List {
                plan,
                list: calls,
                room: dump.len(),
            };
            return differ(input, hexadecimal(&answer.1), (known.name, hexadecimal(&dump)));
        }
    }
    Ok(vec![verdict.into()])
}
