//! What a call answers, in one shape whether the Rust or the port was asked.

use std::fmt;

/// A row of document 01: number 0 with the result as its value, or the number of a refusal with
/// that refusal's value.
#[derive(Clone, Copy, Debug, PartialEq, Eq)]
pub struct Answer {
    pub number: u64,
    pub value: u64,
    pub record: u64,
}

impl Answer {
    pub fn result(value: impl Into<u64>) -> Answer {
        Answer::refusal(0, value)
    }

    pub fn refusal(number: u64, value: impl Into<u64>) -> Answer {
        Answer {
            number,
            value: value.into(),
            record: 0,
        }
    }

    /// Whether the Rust has no such answer, since it goes on, wraps or panics where document 01
    /// refuses: over a version, a record's length, an end of points, extra bytes, a VLR's data.
    pub fn by_rule(&self) -> bool {
        matches!(self.number, 3 | 8 | 12 | 23 | 24)
    }
}

impl fmt::Display for Answer {
    fn fmt(&self, f: &mut fmt::Formatter<'_>) -> fmt::Result {
        write!(f, "{} {} {}", self.number, self.value, self.record)
    }
}

/// Ends the run at an error of the Rust that has no number in document 01. There is nothing that
/// the port's answer could be compared with, and going on would hide that.
pub fn unnumbered(error: las::Error) -> ! {
    panic!("the Rust gave an error that document 01 does not number: {error}")
}
