//! Files that are read, and what they are called in messages.

use crate::failure::Failure;
use std::ffi::{OsStr, OsString};
use std::fmt;
use std::io::Read;
use std::path::Path;

/// A file to be read, or `-` for standard input.
pub struct Input(pub OsString);

impl Input {
    pub fn is_stdin(&self) -> bool {
        self.0 == "-"
    }

    /// The last part of the path; none for standard input.
    pub fn base(&self) -> Option<&OsStr> {
        match self.is_stdin() {
            true => None,
            false => Path::new(&self.0).file_name(),
        }
    }

    /// All its bytes.
    pub fn bytes(&self) -> Result<Vec<u8>, Failure> {
        let mut bytes = Vec::new();
        let read = match self.is_stdin() {
            true => std::io::stdin().lock().read_to_end(&mut bytes).map(|_| ()),
            false => std::fs::read(&self.0).map(|all| bytes = all),
        };
        match read {
            Ok(()) => Ok(bytes),
            Err(error) => Err(Failure::data(self, error)),
        }
    }
}

impl fmt::Display for Input {
    fn fmt(&self, f: &mut fmt::Formatter) -> fmt::Result {
        match self.is_stdin() {
            true => f.write_str("standard input"),
            false => Path::new(&self.0).display().fmt(f),
        }
    }
}
