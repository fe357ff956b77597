//! How a job ends when it does not end well.

use std::fmt::Display;

/// Why a job was not done, or not all of it.
pub enum Failure {
    /// The command line is wrong: status 2.
    Usage(String),
    /// What came in or what went out is at fault: status 1. Each line names
    /// its file.
    Data(Vec<String>),
}

impl Failure {
    /// One fault, and the file or stream that it is in.
    pub fn data(place: impl Display, what: impl Display) -> Self {
        Failure::Data(vec![format!("{place}: {what}")])
    }
}
