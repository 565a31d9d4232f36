//! Under which word an input is counted.

use std::fmt;

use beltcairn::{Verdict, Written};
use second::Reply;

#[derive(Clone, Copy, Debug, PartialEq, Eq, PartialOrd, Ord)]
pub enum Answer {
    Clean,
    CleanWithDue,
    Written,
    Breach(u8),
    Refused(u8),
    /// Something else that the input showed.
    Showed(&'static str),
}

/// The answers of the breaches of these rules, both ends included.
pub fn breaches(first: u8, last: u8) -> Vec<Answer> {
    (first..=last).map(Answer::Breach).collect()
}

pub fn refusals(questions: &[u8]) -> Vec<Answer> {
    questions.iter().map(|question| Answer::Refused(*question)).collect()
}

impl From<Verdict> for Answer {
    fn from(verdict: Verdict) -> Answer {
        match verdict {
            Verdict::Clean { due: 0, .. } => Answer::Clean,
            Verdict::Clean { .. } => Answer::CleanWithDue,
            Verdict::Breach { rule, .. } => Answer::Breach(rule),
            Verdict::Refused(question) => Answer::Refused(question),
        }
    }
}

impl From<Reply> for Answer {
    fn from(reply: Reply) -> Answer {
        match reply {
            Reply::Clean { due: 0 } => Answer::Clean,
            Reply::Clean { .. } => Answer::CleanWithDue,
            Reply::Broken(rule) => Answer::Breach(rule),
            Reply::Refused(question) => Answer::Refused(question),
        }
    }
}

impl From<Written> for Answer {
    fn from(written: Written) -> Answer {
        match written {
            Written::Wrote(_) => Answer::Written,
            Written::Refused(question) => Answer::Refused(question),
        }
    }
}

impl fmt::Display for Answer {
    fn fmt(&self, f: &mut fmt::Formatter<'_>) -> fmt::Result {
        match self {
            Answer::Clean => write!(f, "clean"),
            Answer::CleanWithDue => write!(f, "clean with reports due"),
            Answer::Written => write!(f, "written"),
            Answer::Breach(rule) => write!(f, "breach {rule}"),
            Answer::Refused(question) => write!(f, "refused {question}"),
            Answer::Showed(words) => write!(f, "{words}"),
        }
    }
}
