//! Each must-fail edit changes text that stands in its file, once. The gate's
//! last part finds out too, but only after half an hour.

use std::fs;
use std::path::{Path, PathBuf};

fn entries(folder: &Path) -> Vec<PathBuf> {
    let listed = fs::read_dir(folder).into_iter().flatten();
    listed.map(|entry| entry.unwrap().path()).collect()
}

/// Makes the edit's changes one after another; tells the text of one that cannot be made.
fn not_found(home: &Path, edit: &str) -> Option<String> {
    let field = |line: &'_ str, name: &str| line.strip_prefix(name).map(str::to_owned);
    let mut text = String::new();
    let mut old = String::new();
    for line in edit.lines() {
        if let Some(file) = field(line, "file: ") {
            text = fs::read_to_string(home.join(file)).unwrap();
        } else if let Some(words) = field(line, "old: ") {
            old = words;
            if text.matches(&old).count() != 1 {
                return Some(old);
            }
        } else if let Some(new) = field(line, "new: ") {
            text = text.replacen(&old, &new, 1);
        }
    }
    None
}

#[test]
fn every_edit_finds_its_text() {
    let crates = Path::new(env!("CARGO_MANIFEST_DIR")).join("../../crates");
    let mut seen = 0;
    for home in entries(&crates) {
        for path in entries(&home.join("must-fail")) {
            let missing = not_found(&home, &fs::read_to_string(&path).unwrap());
            assert_eq!(missing, None, "{}", path.display());
            seen += 1;
        }
    }
    assert!(seen > 100, "only {seen} edits were found");
}
