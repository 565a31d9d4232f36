//! What is printed where the two sides do not say the same.

use std::fmt;

use second::Parts;

use crate::bytes::{hexadecimal, shell_line, Numbers};

/// The input on which the sides differ.
#[derive(Clone, Debug)]
pub enum Input {
    /// Fed to the watch.
    Dump { plan: Vec<u8>, dump: Vec<u8> },
    /// Fed to the bench, with that many bytes lent for its output.
    List { plan: Vec<u8>, list: Vec<u8>, room: usize },
    /// One live step on a lent state. The library's struct has the fields that the parts leave open.
    Lent { parts: Box<Parts>, record: Numbers, lent: String },
}

#[derive(Clone, Debug)]
pub struct Difference {
    pub input: Input,
    pub library: String,
    pub second: String,
}

/// Long inputs make long allocations; the box keeps the common answer small.
pub type Compared<T> = Result<T, Box<Difference>>;

pub fn differ<T>(input: Input, library: impl fmt::Debug, second: impl fmt::Debug) -> Compared<T> {
    Err(Box::new(Difference {
        input,
        library: format!("{library:?}"),
        second: format!("{second:?}"),
    }))
}

impl Difference {
    /// For choosing the smallest. What the watch can be fed comes before a call list, and that before a lent state; then the bytes
    /// count, and then the sections, which take no bytes.
    pub fn size(&self) -> (usize, usize, usize) {
        let sections = |plan: &[u8]| plan.get(1).map_or(0, |sections| usize::from(*sections));
        match &self.input {
            Input::Dump { plan, dump } => (0, plan.len() + dump.len(), sections(plan)),
            Input::List { plan, list, .. } => (1, plan.len() + list.len(), sections(plan)),
            Input::Lent { parts, .. } => (2, parts.threads, parts.sections + parts.holds.len() + parts.due.len()),
        }
    }
}

impl fmt::Display for Difference {
    fn fmt(&self, f: &mut fmt::Formatter<'_>) -> fmt::Result {
        match &self.input {
            Input::Dump { plan, dump } => write_bytes(f, "dump", plan, dump, "watch")?,
            Input::List { plan, list, room } => {
                write_bytes(f, "list", plan, list, "bench")?;
                writeln!(f, "    output of {room} bytes")?;
            }
            Input::Lent { parts, record, lent } => {
                writeln!(f, "    lent  {parts:?}")?;
                writeln!(f, "    as    {lent}")?;
                writeln!(f, "    step  kind {} operand {}", record.0, record.1)?;
            }
        }
        writeln!(f, "    library says {}", self.library)?;
        write!(f, "    second says  {}", self.second)
    }
}

fn write_bytes(f: &mut fmt::Formatter<'_>, word: &str, plan: &[u8], list: &[u8], program: &str) -> fmt::Result {
    writeln!(f, "    plan  {}", hexadecimal(plan))?;
    writeln!(f, "    {word}  {}", hexadecimal(list))?;
    writeln!(f, "    {}", shell_line(&[plan, list].concat(), program))
}
