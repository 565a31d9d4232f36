//! One live step on a lent state, by both sides.

use compare::bytes::Numbers;
use compare::random::Random;
use compare::sides::Pair;
use second::{Fault, Parts, Reply};

/// One step of both sides, which agree; the answer and the state after it.
pub fn step(parts: &Parts, record: Numbers) -> (Reply, Parts) {
    let mut pair = Pair::lent(Fault::None, parts, &mut Random::new(1));
    let reply = pair.step(record).unwrap_or_else(|difference| panic!("{difference}"));
    (reply, pair.parts().clone())
}

/// Whether the step tells the mistake apart.
pub fn told_apart(fault: Fault, parts: &Parts, record: Numbers) -> bool {
    Pair::lent(fault, parts, &mut Random::new(1)).step(record).is_err()
}
