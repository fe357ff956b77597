//! docs/BELIEVE.md is what the tool prints, every definition on it has a
//! sentence, and README says how many lines it has.

use siftpebble_believe::decl::{Decl, Form};
use siftpebble_believe::list::{List, Part};
use siftpebble_believe::table::{CALLS, EXPORTS, THEOREMS};
use siftpebble_believe::tree::Tree;
use siftpebble_believe::{page, root};
use std::collections::BTreeMap;
use std::fs;

fn read(path: &str) -> String {
    fs::read_to_string(root().join(path)).expect(path)
}

fn list() -> List {
    List::read(&root()).unwrap_or_else(|fault| panic!("{fault}"))
}

#[test]
fn the_page_is_what_the_tool_prints() {
    let (stored, printed) = (read("docs/BELIEVE.md"), page::page(&list()));
    let lines = || stored.lines().zip(printed.lines()).enumerate();
    let differs = lines().find(|(_, (stored, printed))| stored != printed);
    let first = differs.map(|(n, (stored, printed))| {
        let line = n + 1;
        format!("line {line}: {stored}\nis now: {printed}")
    });
    assert!(
        stored == printed,
        "run `tools/believe > docs/BELIEVE.md`; {}",
        first.unwrap_or_default()
    );
}

#[test]
fn every_definition_has_a_sentence() {
    let missing = list().missing();
    assert!(
        missing.is_empty(),
        "no comment above:\n{}",
        missing.join("\n")
    );
}

#[test]
fn readme_says_how_many_lines() {
    let wanted = format!("read these {} lines", list().lines());
    let readme = read("README.md");
    assert!(readme.contains("docs/BELIEVE.md"), "README points at it");
    assert!(readme.contains(&wanted), "README is to say: {wanted}");
}

/// The list starts from what docs/PROMISES.md promises by name.
#[test]
fn roots_are_promised() {
    let list = list();
    let mut cited: Vec<String> = Vec::new();
    for group in list.groups() {
        let owner = group.path.split('/').nth(1).unwrap_or_default();
        let calls = group.rows.iter().filter(|row| row.part == Part::Contract);
        cited.extend(calls.map(|row| format!("`{owner}::{}`", row.name)));
    }
    assert!(cited.len() > CALLS.len(), "calls are on the list");
    let laws = THEOREMS.iter().flat_map(|(_, laws)| laws.iter());
    let last = |law: &&str| law.rsplit('.').next().map(|name| format!("`{name}`"));
    cited.extend(laws.filter_map(last));
    let promises = read("docs/PROMISES.md");
    for name in cited {
        assert!(promises.contains(&name), "{name} in docs/PROMISES.md");
    }
}

/// A call's name, with its parameters, what it answers and its clauses.
fn said(decl: &Decl) -> (String, String) {
    let plain = |word: &&String| !["unsafe", "no_mangle", "extern", "C"].contains(&word.as_str());
    let head: Vec<&String> = decl.code.iter().filter(plain).collect();
    (decl.name.clone(), format!("{head:?} {:?}", decl.statement))
}

/// Whoever reads a call that is exported has read that of Rattle callers too:
/// it has the same name, parameters and clauses.
#[test]
fn exported_calls_say_what_rattle_calls_say() {
    let tree = Tree::read(&root()).unwrap_or_else(|fault| panic!("{fault}"));
    let calls = |owner: &str, exported: bool| -> BTreeMap<String, String> {
        // in Rattle, what is not public serves a call, and is none
        let public = |decl: &Decl| decl.code.iter().any(|word| word == "pub");
        let is = |decl: &Decl| decl.form == Form::Call { exported } && (exported || public(decl));
        let found = tree.of_crate(owner, |_, decl| is(decl));
        found.into_iter().map(|id| said(tree.decl(id))).collect()
    };
    let exported = calls(EXPORTS, true);
    assert_eq!(exported, calls("counter", false));
    assert!(exported.len() == 10 && calls("counter", true).is_empty());
}

/// The list is what it is meant to be: it holds what every call rests on, and
/// no lemma of a proof.
#[test]
fn the_list_is_neither_empty_nor_everything() {
    let list = list();
    let names: Vec<&str> = list
        .groups()
        .flat_map(|group| group.rows.iter().map(|row| row.name.as_str()))
        .collect();
    for wanted in [
        "written", "context", "rows", "byte", "lawful", "tests", "effect", "Serves", "serial",
    ] {
        assert!(names.contains(&wanted), "{wanted} is on the list");
    }
    for lemma in ["one-band", "lawful-sound", "stores", "AllSized", "refl"] {
        assert!(!names.contains(&lemma), "{lemma} is not on the list");
    }
}
