//! Reads a plan and a dump from standard input and prints the verdict in one line.

use std::error::Error;

use second::{check_with, program};

fn main() -> Result<(), Box<dyn Error>> {
    let fault = program::fault()?;
    let (plan, dump) = program::plan_and_rest()?;
    println!("{}", check_with(fault, &plan, &dump));
    Ok(())
}
