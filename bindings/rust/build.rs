//! Finds the archive of the proved library and has it linked.

use std::env;
use std::path::{Path, PathBuf};
use std::process::exit;

const DIR: &str = "SIFTPEBBLE_LIB_DIR";
const ARCHIVE: &str = "libcounter.a";

fn main() {
    println!("cargo:rerun-if-env-changed={DIR}");
    let dir = archive_dir();
    let archive = dir.join(ARCHIVE);
    println!("cargo:rerun-if-changed={}", archive.display());
    if !archive.is_file() {
        eprintln!("There is no {}.", archive.display());
        eprintln!("Run tools/native-archive in the repository to make it,");
        eprintln!("or name the directory of an archive in {DIR}.");
        exit(1);
    }
    println!("cargo:rustc-link-search=native={}", dir.display());
    println!("cargo:rustc-link-lib=static=counter");
    println!("cargo:rustc-env=SIFTPEBBLE_ARCHIVE={}", archive.display());
}

/// The directory named in the environment, else the repository's own.
fn archive_dir() -> PathBuf {
    match env::var_os(DIR) {
        Some(dir) => PathBuf::from(dir),
        None => repository().join("target/native"),
    }
}

fn repository() -> &'static Path {
    let own = Path::new(env!("CARGO_MANIFEST_DIR"));
    own.ancestors().nth(2).expect("two directories above")
}
