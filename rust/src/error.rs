//! What goes wrong with files on the disk.

use crate::refusal::Refusal;
use std::{error, fmt, io};

/// Why a file on the disk was not made or not changed.
#[derive(Debug)]
#[non_exhaustive]
pub enum Error {
    /// The library refused it. Nothing was written.
    Refused(Refusal),
    /// A setting of a new file is none that a file can have; a sentence says which. Nothing was written.
    Setting(String),
    /// Somebody who does not ask for the lock changed the file since it was judged, or gave its name to another. Nothing was
    /// written.
    Changed,
    /// The system could not do it. What was written until then does no harm: the same call is to be repeated.
    Io(io::Error),
}

impl Error {
    /// The library's refusal, if it is one.
    pub fn refusal(&self) -> Option<Refusal> {
        match self {
            Error::Refused(refusal) => Some(*refusal),
            _ => None,
        }
    }
}

impl fmt::Display for Error {
    fn fmt(&self, f: &mut fmt::Formatter<'_>) -> fmt::Result {
        match self {
            Error::Refused(refusal) => refusal.fmt(f),
            Error::Setting(words) => f.write_str(words),
            Error::Changed => f.write_str(
                "another program changed it, or gave its name to another file, since it was judged; nothing was written",
            ),
            Error::Io(error) => error.fmt(f),
        }
    }
}

impl error::Error for Error {
    fn source(&self) -> Option<&(dyn error::Error + 'static)> {
        match self {
            Error::Refused(refusal) => Some(refusal),
            Error::Setting(_) | Error::Changed => None,
            Error::Io(error) => Some(error),
        }
    }
}

impl From<Refusal> for Error {
    fn from(refusal: Refusal) -> Error {
        Error::Refused(refusal)
    }
}

impl From<io::Error> for Error {
    fn from(error: io::Error) -> Error {
        Error::Io(error)
    }
}
