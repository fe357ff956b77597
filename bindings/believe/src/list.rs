//! The list: what the roots rest on, in document 01's order.

use crate::decl::{Decl, Form};
use crate::table::SECTIONS;
use crate::tree::{File, Id, Tree};
use crate::walk::{self, Found};
use std::collections::{BTreeMap, BTreeSet};
use std::path::Path;

/// How much of a declaration is on the list.
#[derive(Clone, Copy, Debug, PartialEq, Eq)]
pub enum Part {
    All,
    /// Of a law its statement: its proof is checked.
    Law,
    /// Of a call its contract: its body is proved.
    Contract,
}

pub struct Row {
    pub name: String,
    pub part: Part,
    /// The lines of the blocks it stands in, and its own.
    pub heads: Vec<usize>,
    pub lines: Vec<usize>,
    pub sentence: Option<String>,
}

/// A file with what of it is on the list.
pub struct Group {
    pub path: String,
    pub rows: Vec<Row>,
}

pub struct Section {
    pub title: &'static str,
    pub groups: Vec<Group>,
}

pub struct List {
    pub sections: Vec<Section>,
    pub library: BTreeMap<String, BTreeSet<String>>,
    pub language: BTreeSet<String>,
}

/// Where a file is printed: its section, and its place there.
fn place(file: &File) -> Result<(usize, usize), String> {
    let own = format!("{}/{}", file.owner, file.place);
    for wanted in [own.as_str(), file.owner.as_str()] {
        for (section, (_, files)) in SECTIONS.iter().enumerate() {
            if let Some(at) = files.iter().position(|file| *file == wanted) {
                return Ok((section, at));
            }
        }
    }
    Err(format!("{}: in no section of the table", file.path))
}

fn row(decl: &Decl, stated: bool) -> Row {
    let part = match decl.form {
        Form::Call { .. } => Part::Contract,
        _ if stated => Part::Law,
        _ => Part::All,
    };
    let heads = decl.heads.iter().flat_map(|head| &head.lines);
    Row {
        name: decl.name.clone(),
        part,
        heads: heads.copied().collect(),
        lines: if stated { &decl.stated } else { &decl.lines }.clone(),
        sentence: decl.sentence.clone(),
    }
}

impl Group {
    /// The lines on the list, each once.
    pub fn lines(&self) -> BTreeSet<usize> {
        let rows = self.rows.iter();
        rows.flat_map(|row| row.heads.iter().chain(&row.lines))
            .copied()
            .collect()
    }
}

impl List {
    /// Reads the sources below a repository's root.
    pub fn read(root: &Path) -> Result<List, String> {
        let tree = Tree::read(root)?;
        let found = walk::walk(&tree, &walk::roots(&tree)?)?;
        List::of(&tree, found)
    }

    pub fn of(tree: &Tree, found: Found) -> Result<List, String> {
        let mut files: BTreeMap<(usize, usize, usize), Vec<Row>> = BTreeMap::new();
        for (&Id { file, decl }, &stated) in &found.stated {
            let (section, at) = place(&tree.files[file])?;
            let row = row(&tree.files[file].decls[decl], stated);
            files.entry((section, at, file)).or_default().push(row);
        }
        let mut sections: Vec<Section> = SECTIONS
            .iter()
            .map(|(title, _)| Section {
                title,
                groups: Vec::new(),
            })
            .collect();
        for ((section, _, file), rows) in files {
            let path = tree.files[file].path.clone();
            sections[section].groups.push(Group { path, rows });
        }
        Ok(List {
            sections,
            library: found.library,
            language: found.language,
        })
    }

    pub fn groups(&self) -> impl Iterator<Item = &Group> {
        self.sections.iter().flat_map(|section| &section.groups)
    }

    pub fn lines(&self) -> usize {
        self.groups().map(|group| group.lines().len()).sum()
    }

    pub fn files(&self) -> usize {
        self.groups().count()
    }

    pub fn declarations(&self) -> usize {
        self.groups().map(|group| group.rows.len()).sum()
    }

    /// What has no comment directly above it.
    pub fn missing(&self) -> Vec<String> {
        let mut missing = Vec::new();
        for group in self.groups() {
            let rows = group.rows.iter().filter(|row| row.sentence.is_none());
            let shown = |row: &Row| format!("{}:{}: {}", group.path, row.lines[0], row.name);
            missing.extend(rows.map(shown));
        }
        missing
    }
}

#[cfg(test)]
mod tests {
    use super::*;

    fn list(files: &[(&str, &str)]) -> Result<List, String> {
        let files = files.iter().map(|(path, text)| File::of(path, text));
        let tree = Tree {
            files: files.collect(),
        };
        let mut found = Found::default();
        for (file, own) in tree.files.iter().enumerate() {
            let ids = (0..own.decls.len()).map(|decl| Id { file, decl });
            found.stated.extend(ids.map(|id| (id, false)));
        }
        List::of(&tree, found)
    }

    #[test]
    fn files_stand_in_the_order_of_the_table_and_lines_count_once() {
        let block = "module _ (n : ℕ) where\n  -- one\n  a : ℕ\n  a = n\n\n  b : ℕ\n  b = n\n";
        let list = list(&[
            (
                "crates/demands/specs/Ran.antt",
                "-- two\nc : ℕ\n-- more\nc = 0\n",
            ),
            ("crates/template/specs/Pels.antt", block),
            ("crates/desk/proofs/Desk.antt", "-- d\nd : ℕ\nd = 1\n"),
        ])
        .expect("a list");
        let paths: Vec<&str> = list.groups().map(|group| group.path.as_str()).collect();
        assert_eq!(
            paths,
            [
                "crates/desk/proofs/Desk.antt",
                "crates/template/specs/Pels.antt",
                "crates/demands/specs/Ran.antt"
            ]
        );
        assert_eq!((list.lines(), list.files(), list.declarations()), (9, 3, 4));
        assert_eq!(list.missing(), ["crates/template/specs/Pels.antt:6: b"]);
    }

    #[test]
    fn a_file_in_no_section_is_a_fault() {
        let fault = list(&[("crates/new/specs/A.antt", "-- a\na : ℕ\n")]).map(|list| list.lines());
        assert!(fault.is_err_and(|fault| fault.contains("crates/new/specs/A.antt")));
    }
}
