//! Why the command could not do what it was asked.

use std::fmt;
use std::io;
use std::path::Path;

/// What ends a run early.
#[derive(Debug)]
pub enum Failure {
    /// The words of the call are wrong.
    Usage(String),
    /// A file cannot be read, or is not what it should be.
    Input(String),
    /// The output cannot be written.
    Output(io::Error),
}

impl Failure {
    /// A file that cannot be read or written.
    pub fn file(path: &Path, why: impl fmt::Display) -> Failure {
        Failure::Input(format!("{}: {why}", path.display()))
    }
}

impl From<io::Error> for Failure {
    fn from(why: io::Error) -> Self {
        Failure::Output(why)
    }
}

impl fmt::Display for Failure {
    fn fmt(&self, out: &mut fmt::Formatter<'_>) -> fmt::Result {
        match self {
            Failure::Usage(what) => write!(out, "{what}; gemsilver --help tells more"),
            Failure::Input(what) => write!(out, "{what}"),
            Failure::Output(why) => write!(out, "the output cannot be written: {why}"),
        }
    }
}
