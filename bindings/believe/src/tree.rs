//! The crates' sources, and where each name of them is declared.

use crate::decl::{Decl, Form};
use crate::uses::Uses;
use crate::{antt, rattle};
use std::collections::HashMap;
use std::fs;
use std::path::{Path, PathBuf};

pub struct File {
    /// From the repository's root.
    pub path: String,
    pub owner: String,
    /// Its module without the folder: `Desk`, `close.Proof`; `src` of code.
    pub place: String,
    pub uses: Uses,
    pub items: HashMap<String, String>,
    pub decls: Vec<Decl>,
}

/// A declaration: its file, and its number there.
#[derive(Clone, Copy, Debug, PartialEq, Eq, PartialOrd, Ord)]
pub struct Id {
    pub file: usize,
    pub decl: usize,
}

/// What a name stands for.
#[derive(Debug, PartialEq)]
pub enum Meaning {
    Declared(Id),
    Library { module: String, name: String },
    Language,
}

pub struct Tree {
    pub files: Vec<File>,
}

fn entries(folder: &Path) -> Vec<PathBuf> {
    let entries = fs::read_dir(folder).into_iter().flatten().flatten();
    let mut paths: Vec<PathBuf> = entries.map(|entry| entry.path()).collect();
    paths.sort();
    paths
}

/// The files below a folder that have that ending.
fn below(folder: &Path, ending: &str) -> Vec<PathBuf> {
    let mut found = Vec::new();
    for path in entries(folder) {
        if path.is_dir() {
            found.extend(below(&path, ending));
        } else if path.extension().is_some_and(|own| own == ending) {
            found.push(path);
        }
    }
    found
}

/// A module's crate, and its folder with the rest: `Rattle.desk.specs.Parts`.
fn own_module(module: &str) -> Option<(&str, &str)> {
    module.strip_prefix("Rattle.")?.split_once('.')
}

impl File {
    /// A file by its path from the repository's root, such as
    /// `crates/desk/specs/Desk.antt`.
    pub fn of(path: &str, text: &str) -> File {
        let (stem, ending) = path.rsplit_once('.').unwrap_or((path, ""));
        let words: Vec<&str> = stem.split('/').collect();
        let mut file = File {
            path: path.to_string(),
            owner: words.get(1).unwrap_or(&"").to_string(),
            place: words.get(3..).unwrap_or_default().join("."),
            uses: Uses::default(),
            items: HashMap::new(),
            decls: Vec::new(),
        };
        if ending == "rt" {
            let parsed = rattle::parse(text);
            (file.uses, file.items, file.decls) = (parsed.uses, parsed.items, parsed.decls);
            file.place = "src".to_string();
        } else {
            let parsed = antt::parse(text);
            (file.uses, file.decls) = (parsed.uses, parsed.decls);
        }
        file
    }

    /// The folder and the module: `specs.Parts`.
    fn module(&self) -> String {
        let folder = self.path.split('/').nth(2).unwrap_or("");
        format!("{folder}.{}", self.place)
    }

    pub fn is_code(&self) -> bool {
        self.place == "src"
    }
}

impl Tree {
    pub fn read(root: &Path) -> Result<Tree, String> {
        let mut files = Vec::new();
        for owner in entries(&root.join("crates")) {
            for (folder, ending) in [("src", "rt"), ("specs", "antt"), ("proofs", "antt")] {
                for path in below(&owner.join(folder), ending) {
                    let text = fs::read_to_string(&path);
                    let text = text.map_err(|e| format!("{}: {e}", path.display()))?;
                    let shown = path.strip_prefix(root).unwrap_or(&path);
                    files.push(File::of(&shown.to_string_lossy(), &text));
                }
            }
        }
        match files.is_empty() {
            true => Err(format!("no sources in {}", root.join("crates").display())),
            false => Ok(Tree { files }),
        }
    }

    pub fn decl(&self, id: Id) -> &Decl {
        &self.files[id.file].decls[id.decl]
    }

    /// Every declaration of a crate that passes the test.
    pub fn of_crate(&self, owner: &str, test: impl Fn(&File, &Decl) -> bool) -> Vec<Id> {
        let mut found = Vec::new();
        for (n, file) in self.files.iter().enumerate() {
            let decls = file.decls.iter().enumerate();
            let passing = decls.filter(|(_, decl)| file.owner == owner && test(file, decl));
            found.extend(passing.map(|(decl, _)| Id { file: n, decl }));
        }
        found
    }

    /// A struct, an enum or a constant of a crate's code.
    fn item(&self, owner: &str, name: &str) -> Option<Id> {
        let is = |file: &File, decl: &Decl| {
            file.is_code() && decl.form == Form::Item && decl.name == name
        };
        self.of_crate(owner, is).first().copied()
    }

    /// A name in a file: of several the last one above the line, if there is
    /// one.
    fn in_file(&self, file: usize, name: &str, line: usize) -> Option<Id> {
        let decls = self.files[file].decls.iter().enumerate();
        let mut found = decls.filter(|(_, decl)| decl.answers_to(name)).peekable();
        let first = found.peek().map(|&(decl, _)| decl);
        let above = found.rfind(|(_, decl)| decl.lines[0] <= line);
        let decl = above.map(|(decl, _)| decl).or(first)?;
        Some(Id { file, decl })
    }

    /// What a module's name stands for. A crate that is none of the tree's is
    /// the library's. The modules that are made of a struct or an enum
    /// (`declared.Key`, `Parts.Laws`) stand for that.
    fn in_module(&self, module: &str, name: &str) -> Result<Meaning, String> {
        let is_own = |owner: &str| self.files.iter().any(|file| file.owner == owner);
        let Some((owner, rest)) = own_module(module).filter(|(owner, _)| is_own(owner)) else {
            let (module, name) = (module.to_string(), name.to_string());
            return Ok(Meaning::Library { module, name });
        };
        let file = |file: &File| file.owner == owner && file.module() == rest;
        let found = match self.files.iter().position(file) {
            Some(file) => self.in_file(file, name, usize::MAX),
            None => {
                let mut words = rest.split('.').skip(1).filter(|&w| w != "declared");
                words.next().and_then(|item| self.item(owner, item))
            }
        };
        let missing = || format!("no {name} in the module {module}");
        found.map(Meaning::Declared).ok_or_else(missing)
    }

    /// What a name stands for in a file, at a line. `m.a` is a name of the
    /// module that is known as `m`, and where there is none a field of `m`.
    pub fn meaning(&self, file: usize, name: &str, line: usize) -> Result<Meaning, String> {
        let uses = &self.files[file].uses;
        if let Some(id) = self.in_file(file, name, line) {
            return Ok(Meaning::Declared(id));
        }
        let operator = format!("◌{name}◌");
        let used = uses.names.get(name).or_else(|| uses.names.get(&operator));
        if let Some((module, name)) = used {
            return self.in_module(module, name);
        }
        let Some((first, rest)) = name.split_once('.').filter(|(first, _)| !first.is_empty())
        else {
            return Ok(Meaning::Language);
        };
        if let Some(module) = uses.modules.get(first) {
            let name = rest.split('.').next().unwrap_or(rest);
            return self.in_module(module, name);
        }
        match name.rsplit_once('.') {
            Some((module, name)) if first == "Rattle" => self.in_module(module, name),
            _ => self.meaning(file, first, line),
        }
    }

    /// What a word of the code stands for, where it is an item.
    pub fn item_meaning(&self, file: usize, word: &str) -> Option<Id> {
        let own = &self.files[file];
        if let Some((owner, name)) = word.split_once("::") {
            return self.item(owner, name);
        }
        let owner = own.items.get(word).filter(|owner| *owner != "crate");
        self.item(owner.unwrap_or(&own.owner), word)
    }
}

#[cfg(test)]
mod tests {
    use super::*;

    #[test]
    fn names_are_found_by_import_alias_and_path() {
        let there = File::of("crates/b/proofs/M.antt", "a : T\na = x\n\n◌⊛◌ : T\n");
        let uses = "use Rattle.b.proofs.M.{a as c, ◌⊛◌}\nuse Rattle.b.proofs.M as m\nuse Rattle.std.specs.L.{◌≡◌}\n";
        let here = File::of("crates/d/specs/N.antt", uses);
        let tree = Tree {
            files: vec![there, here],
        };
        let meaning = |name: &str| tree.meaning(1, name, 9);
        let a = Ok(Meaning::Declared(Id { file: 0, decl: 0 }));
        assert_eq!(meaning("c"), a);
        assert_eq!(meaning("m.a"), a);
        assert_eq!(meaning("m.a.low"), a);
        assert_eq!(meaning("c.low.high"), a);
        assert_eq!(meaning("Rattle.b.proofs.M.a"), a);
        assert_eq!(meaning("⊛"), Ok(Meaning::Declared(Id { file: 0, decl: 1 })));
        assert_eq!(meaning("a"), Ok(Meaning::Language));
        assert!(meaning("m.z").is_err());
        let library = Meaning::Library {
            module: "Rattle.std.specs.L".into(),
            name: "◌≡◌".into(),
        };
        assert_eq!(meaning("≡"), Ok(library));
    }

    #[test]
    fn modules_that_are_made_of_a_struct_stand_for_it() {
        let code = File::of("crates/b/src/lib.rt", "pub enum Found {\n    At(u64),\n}\n");
        let uses = "use Rattle.b.specs.declared.Found.{Found}\nuse Rattle.b.specs.declared.Found.TheVariants as way\nuse Rattle.b.proofs.Found.Laws as F\n";
        let here = File::of("crates/b/specs/deep/N.antt", uses);
        assert_eq!((here.owner.as_str(), here.place.as_str()), ("b", "deep.N"));
        let tree = Tree {
            files: vec![code, here],
        };
        let found = Ok(Meaning::Declared(Id { file: 0, decl: 0 }));
        for name in ["Found", "way.At", "F.mir"] {
            assert_eq!(tree.meaning(1, name, 1), found);
        }
    }
}
