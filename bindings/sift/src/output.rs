//! Files that are written: whole or not at all, and never over another one
//! unless that was asked for.

use crate::failure::Failure;
use std::fs::{self, OpenOptions};
use std::io::{self, ErrorKind, Write};
use std::path::{Path, PathBuf};

/// Tries this many names for a draft.
const TRIES: u32 = 1000;

/// Writes on standard output.
pub fn to_stdout(bytes: &[u8]) -> Result<(), Failure> {
    let mut stdout = io::stdout().lock();
    let written = stdout.write_all(bytes).and_then(|()| stdout.flush());
    written.map_err(|error| Failure::data("standard output", error))
}

/// Refuses a path where something stands that is not to be replaced.
pub fn check_free(path: &Path, force: bool) -> Result<(), Failure> {
    let fault = match fs::symlink_metadata(path) {
        Err(_) => return Ok(()),
        // a device or a link is not to be replaced by a file
        Ok(there) if !there.is_file() => "something that is no plain file is there",
        Ok(_) if !force => "the file is there already; --force replaces it",
        Ok(_) => return Ok(()),
    };
    Err(Failure::data(path.display(), fault))
}

/// Writes a whole file: into a draft beside it, which then takes its name.
pub fn to_file(path: &Path, bytes: &[u8], force: bool) -> Result<(), Failure> {
    check_free(path, force)?;
    let failed = |error| Failure::data(path.display(), error);
    let draft = Draft::new(path, bytes).map_err(failed)?;
    match force {
        true => fs::rename(&draft.0, path).map_err(failed),
        false => match fs::hard_link(&draft.0, path) {
            // even if what stood there is gone again: nothing was written
            Err(error) if error.kind() == ErrorKind::AlreadyExists => {
                check_free(path, force).and(Err(failed(error)))
            }
            // some disks know no links: then the test above has to do
            Err(_) => fs::rename(&draft.0, path).map_err(failed),
            Ok(()) => Ok(()),
        },
    }
}

/// A file that is removed again unless it was renamed.
struct Draft(PathBuf);

impl Draft {
    fn new(beside: &Path, bytes: &[u8]) -> io::Result<Self> {
        let mut tries = 0;
        let (draft, mut file) = loop {
            let path = beside.with_file_name(format!(".sift-{}-{tries}", std::process::id()));
            match OpenOptions::new().write(true).create_new(true).open(&path) {
                Ok(file) => break (Draft(path), file),
                Err(error) if error.kind() == ErrorKind::AlreadyExists && tries < TRIES => {
                    tries += 1
                }
                Err(error) => return Err(error),
            }
        };
        // a file that is replaced leaves its permissions to the new one
        if let Ok(old) = fs::metadata(beside) {
            file.set_permissions(old.permissions())?;
        }
        file.write_all(bytes)?;
        file.sync_all()?;
        Ok(draft)
    }
}

impl Drop for Draft {
    fn drop(&mut self) {
        // it is not there if it was renamed
        let _ = fs::remove_file(&self.0);
    }
}
