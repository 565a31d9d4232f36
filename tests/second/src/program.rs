//! What the programs `watch` and `bench` have in common.

use std::io::{self, Read};

use crate::fault::Fault;

/// Standard input as a plan, as long as its first byte implies, and the rest.
pub fn plan_and_rest() -> io::Result<(Vec<u8>, Vec<u8>)> {
    let mut plan = Vec::new();
    io::stdin().lock().read_to_end(&mut plan)?;
    let implied = plan.first().map_or(0, |threads| 2 + 3 * usize::from(*threads));
    let rest = plan.split_off(implied.min(plan.len()));
    Ok((plan, rest))
}

/// The mistake named by the environment variable `SECOND_FAULT`, to try the stored cases
/// on a faulty program.
pub fn fault() -> Result<Fault, String> {
    match std::env::var("SECOND_FAULT") {
        Ok(name) => Fault::named(&name).ok_or(format!("no fault is named {name}")),
        Err(_) => Ok(Fault::None),
    }
}
