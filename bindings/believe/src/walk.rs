//! From the roots to everything that they rest on.

use crate::decl::{Decl, Form};
use crate::law::is_law;
use crate::names;
use crate::table::{CALLS, EXPORTS, THEOREMS};
use crate::tree::{File, Id, Meaning, Tree};
use std::collections::btree_map::Entry;
use std::collections::{BTreeMap, BTreeSet};

#[derive(Default)]
pub struct Found {
    /// Each declaration on the list, and whether only its statement is.
    pub stated: BTreeMap<Id, bool>,
    /// The names of the library, by module.
    pub library: BTreeMap<String, BTreeSet<String>>,
    /// The names of the language itself.
    pub language: BTreeSet<String>,
}

/// The one call, or the one other declaration, of a crate with that name. A
/// name that stands twice is said with its file: `Demand1.refused`.
fn one(tree: &Tree, owner: &str, root: &str, call: bool) -> Result<Id, String> {
    let (place, name) = root.rsplit_once('.').unwrap_or(("", root));
    let is = |file: &File, decl: &Decl| {
        let is_call = matches!(decl.form, Form::Call { .. });
        decl.name == name && is_call == call && (place.is_empty() || file.place == place)
    };
    match tree.of_crate(owner, is)[..] {
        [id] => Ok(id),
        [] => Err(format!("no {root} in the crate {owner}")),
        _ => Err(format!("more than one {root} in the crate {owner}")),
    }
}

/// Every public call and every final theorem.
pub fn roots(tree: &Tree) -> Result<Vec<Id>, String> {
    let exported = Form::Call { exported: true };
    let mut roots = tree.of_crate(EXPORTS, |_, decl| decl.form == exported);
    if roots.is_empty() {
        return Err(format!("the crate {EXPORTS} exports nothing"));
    }
    for (table, call) in [(CALLS, true), (THEOREMS, false)] {
        for (owner, names) in table {
            for name in *names {
                roots.push(one(tree, owner, name, call)?);
            }
        }
    }
    Ok(roots)
}

/// Everything that the roots rest on.
pub fn walk(tree: &Tree, roots: &[Id]) -> Result<Found, String> {
    let mut found = Found::default();
    let mut ahead: Vec<Id> = roots.to_vec();
    for &root in roots {
        found.stated.insert(root, true);
    }
    while let Some(id) = ahead.pop() {
        let stated = found.stated[&id];
        for next in named(tree, id, stated, &mut found)? {
            if let Entry::Vacant(place) = found.stated.entry(next) {
                place.insert(is_law(tree, next));
                ahead.push(next);
            }
        }
    }
    Ok(found)
}

/// The declarations that one names, and into `found` the other names.
fn named(tree: &Tree, id: Id, stated: bool, found: &mut Found) -> Result<Vec<Id>, String> {
    let (decl, file) = (tree.decl(id), &tree.files[id.file]);
    let line = decl.lines[0];
    let words = decl.code.iter();
    let mut next: Vec<Id> = words
        .filter_map(|w| tree.item_meaning(id.file, w))
        .collect();
    // a constructor is not the name of its declaration
    let makes = |word: &str| match tree.meaning(id.file, word, line) {
        Ok(Meaning::Declared(id)) => tree.decl(id).name != word,
        Ok(Meaning::Library { .. }) => true,
        _ => false,
    };
    for name in names::free(decl, !stated, &makes) {
        match tree.meaning(id.file, &name, line) {
            Ok(Meaning::Declared(id)) => next.push(id),
            Ok(Meaning::Library { module, name }) => {
                found.library.entry(module).or_default().insert(name);
            }
            Ok(Meaning::Language) => {
                found.language.insert(name);
            }
            Err(fault) => return Err(format!("{}:{line}: {fault}", file.path)),
        }
    }
    Ok(next)
}

#[cfg(test)]
mod tests {
    use super::*;

    const CODE: &str = "pub enum Way {\n    Out,\n    Back,\n}\n";
    const BASE: &str = "\
use lib.L.{ℕ}

pub data Kind : Type 0 where
  big small : Kind

helper : ℕ
helper = 1

unused : ℕ
unused = helper
";
    const SPECS: &str = "\
use lib.L.{ℕ, ◌≡◌}
use Rattle.b.specs.Base.{
    big,
    helper as one,
    unused,
    absent
}
use Rattle.b.specs.declared.Way.TheVariants as way

abbrev sized : Kind → ℕ
sized big = one
sized other = 0

abbrev turned : Way → ℕ
turned way.Out = 0
turned unused = unused

pub law : sized big ≡ turned way.Back
law = proof one

abbrev broken : ℕ
broken = absent

fault : broken ≡ 0
";

    fn tree() -> Tree {
        let files = [
            ("crates/b/src/lib.rt", CODE),
            ("crates/b/specs/Base.antt", BASE),
            ("crates/c/proofs/Law.antt", SPECS),
        ];
        Tree {
            files: files.map(|(path, text)| File::of(path, text)).into(),
        }
    }

    #[test]
    fn a_law_rests_on_its_statement_and_a_definition_on_all_of_it() {
        let tree = tree();
        let law = one(&tree, "c", "law", false).expect("the law");
        let found = walk(&tree, &[law]).expect("what it rests on");
        let shown = |(id, stated): (&Id, &bool)| (tree.decl(*id).name.clone(), *stated);
        let names: Vec<(String, bool)> = found.stated.iter().map(shown).collect();
        let wanted = ["Way", "Kind", "helper", "sized", "turned", "law"];
        let expected = wanted.map(|name| (name.to_string(), name == "law"));
        assert_eq!(names, expected);
        assert_eq!(found.library["lib.L"].len(), 2);
        let language: Vec<&str> = found.language.iter().map(String::as_str).collect();
        assert_eq!(language, ["Kind", "Type", "Way"]);
    }

    #[test]
    fn what_is_not_there_is_a_fault() {
        let tree = tree();
        assert!(one(&tree, "c", "lost", false).is_err());
        assert!(one(&tree, "b", "law", false).is_err());
        assert!(one(&tree, "c", "Base.law", false).is_err());
        assert!(one(&tree, "c", "Law.law", false).is_ok());
        assert!(roots(&tree).is_err());
        let fault = one(&tree, "c", "fault", false).expect("a law");
        let found = walk(&tree, &[fault]).map(|found| found.stated);
        let said = found.expect_err("no such name");
        assert!(said.contains("no absent in the module"), "{said}");
    }
}
