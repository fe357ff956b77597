//! docs/PROMISES.md names what meets each sentence. Every file that it names
//! is in the tree, and every name is declared in the file named before it.

use std::fs;
use std::path::{Path, PathBuf};

fn root() -> PathBuf {
    Path::new(env!("CARGO_MANIFEST_DIR")).join("../..")
}

/// The parts of a line between backticks, and those outside, in turn: the
/// first is outside.
fn parts(line: &str) -> impl Iterator<Item = (bool, &str)> {
    line.split('`')
        .enumerate()
        .map(|(i, part)| (i % 2 == 1, part))
}

fn is_path(cited: &str) -> bool {
    cited.contains('/') || cited.ends_with(".txt")
}

/// The files that a citation may stand for: a path is itself; `crate/Module`
/// is the module's definitions or its laws.
fn files(cited: &str) -> Vec<PathBuf> {
    let path = Path::new(cited);
    if let Some((owner, module)) = cited.split_once('/') {
        let home = Path::new("crates").join(owner);
        if path.extension().is_none() && root().join(&home).is_dir() {
            return ["specs", "proofs"]
                .map(|folder| home.join(folder).join(module).with_extension("antt"))
                .into_iter()
                .filter(|file| root().join(file).exists())
                .collect();
        }
    }
    let there = root().join(path).exists();
    there.then(|| path.to_path_buf()).into_iter().collect()
}

/// Whether a line of a source declares the name: `fn name`, `record Name`, or
/// `name :` behind words such as `pub`.
fn declares(line: &str, name: &str, rattle: bool) -> bool {
    const BEFORE: [&str; 12] = [
        "pub",
        "abbrev",
        "unfoldable",
        "record",
        "data",
        "fn",
        "extern",
        "\"C\"",
        "struct",
        "enum",
        "const",
        "impl",
    ];
    let behind = line
        .split_whitespace()
        .position(|w| !BEFORE.contains(&w))
        .unwrap_or(0);
    let mut words = line.split_whitespace().skip(behind);
    let first = words.next().unwrap_or("");
    let typed = first.ends_with(':') || words.next().is_some_and(|w| w.starts_with(':'));
    let bare = first.split(['(', '<', ':', ';', ',']).next();
    // in Rattle `name: ..` alone is a parameter, or a field in a literal
    bare == Some(name) && (behind > 0 || typed && !rattle)
}

/// The sources that may have that name: a crate's code, or the files before it.
fn sources_of<'a>(cited: &'a str, before: &[PathBuf]) -> (Vec<PathBuf>, &'a str) {
    if let Some((owner, name)) = cited.split_once("::") {
        let source = Path::new("crates").join(owner).join("src/lib.rt");
        return (vec![source], name.rsplit("::").next().unwrap_or(name));
    }
    (before.to_vec(), cited)
}

fn is_declared(source: &Path, name: &str) -> bool {
    let text = fs::read_to_string(root().join(source)).unwrap_or_default();
    let rattle = source.extension().is_some_and(|ending| ending == "rt");
    text.lines().any(|line| declares(line.trim(), name, rattle))
}

/// What is wrong with the citations of a line.
fn faults(line: &str) -> Vec<String> {
    let mut before: Vec<PathBuf> = Vec::new();
    let mut faults = Vec::new();
    for (_, cited) in parts(line).filter(|(cited, _)| *cited) {
        if is_path(cited) {
            before = files(cited);
            if before.is_empty() {
                faults.push(format!("no file {cited}: {line}"));
            }
            continue;
        }
        let (sources, name) = sources_of(cited, &before);
        if !sources.iter().any(|source| is_declared(source, name)) {
            faults.push(format!("no name {cited} in the file before it: {line}"));
        }
    }
    faults
}

#[test]
fn every_name_is_there() {
    let text = fs::read_to_string(root().join("docs/PROMISES.md")).expect("the promises");
    let faults: Vec<String> = text.lines().flat_map(faults).collect();
    assert!(faults.is_empty(), "{}", faults.join("\n"));
    let cited = text.matches('`').count() / 2;
    assert!(cited > 300, "only {cited} citations were read");
}

/// The check can fail.
#[test]
fn a_missing_name_is_found() {
    assert_eq!(faults("`template/Pels` `context`"), Vec::<String>::new());
    assert_eq!(faults("`template/Pels` `contexts`").len(), 1);
    assert_eq!(faults("`template/Pel`").len(), 1);
    assert_eq!(faults("`crates/template/specs/Pel.antt`").len(), 1);
    assert_eq!(faults("`context` of no file").len(), 1);
    assert_eq!(faults("`opening::open`, `opening::shut`").len(), 1);
    assert_eq!(faults("`counter::school`").len(), 1);
}
