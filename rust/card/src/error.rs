//! What can go wrong, and how the program ends then.

use crate::refusal::Told;
use std::fmt;

#[derive(Debug)]
pub enum Error {
    /// What was asked for is not understood, or can't be.
    Usage(String),
    /// A file can't be read or written.
    Files(String),
    /// The proved library refuses the input.
    Refused(Box<Told>),
}

impl Error {
    /// The status that the program ends with.
    pub fn status(&self) -> u8 {
        match self {
            Error::Refused(_) => 2,
            Error::Usage(_) | Error::Files(_) => 3,
        }
    }
}

impl fmt::Display for Error {
    fn fmt(&self, f: &mut fmt::Formatter<'_>) -> fmt::Result {
        match self {
            Error::Usage(words) | Error::Files(words) => write!(f, "card: {words}"),
            Error::Refused(told) => write!(f, "card: {told}"),
        }
    }
}
