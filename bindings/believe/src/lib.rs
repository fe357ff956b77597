//! The reader's list: every definition that the contracts of the public calls
//! and the statements of the final theorems rest on, with its lines and its
//! sentence. Read as text: declarations, imports and comments, not proofs.
//!
//! A definition rests on all that its text names; a law on what its statement
//! names; a call on what its parameters and its contract name. Names of the
//! library are not followed. A definition's sentence is the comment directly
//! above it, and it must have one.

pub mod antt;
pub mod decl;
pub mod law;
pub mod library;
pub mod list;
pub mod names;
pub mod page;
pub mod rattle;
pub mod source;
pub mod stats;
pub mod table;
pub mod token;
pub mod tree;
pub mod uses;
pub mod walk;

use std::path::PathBuf;

/// The repository that this tool is run for. Cargo names it at each run, which
/// counts more than where the tool was built: two clones may share a build.
pub fn root() -> PathBuf {
    let run = std::env::var_os("CARGO_MANIFEST_DIR");
    let own = run.unwrap_or_else(|| env!("CARGO_MANIFEST_DIR").into());
    PathBuf::from(own).join("../..")
}
