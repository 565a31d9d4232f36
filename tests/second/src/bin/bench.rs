//! Reads a plan and a call list from standard input and writes the dump to standard
//! output, or one line to standard error where the input is refused.

use std::error::Error;
use std::io::{self, Write};
use std::process::ExitCode;

use second::{bench_with, program, MOST_RECORDS};

fn main() -> Result<ExitCode, Box<dyn Error>> {
    let fault = program::fault()?;
    let (plan, list) = program::plan_and_rest()?;
    let mut out = vec![0; 2 + 3 * MOST_RECORDS];
    match bench_with(fault, &plan, &list, &mut out) {
        Ok(records) => {
            let mut stdout = io::stdout().lock();
            stdout.write_all(&out[..2 + 3 * records])?;
            stdout.flush()?;
            Ok(ExitCode::SUCCESS)
        }
        Err(question) => {
            eprintln!("refused {question}");
            Ok(ExitCode::FAILURE)
        }
    }
}
