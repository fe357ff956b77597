//! How much of each file is on the list, and which files of specs hold laws
//! beside definitions.

use crate::decl::Decl;
use crate::law::is_law;
use crate::list::{Group, List, Part};
use crate::tree::{File, Id, Tree};
use std::collections::BTreeSet;

/// The laws that a file declares beside those on the list.
fn others<'a>(tree: &'a Tree, file: usize, group: &Group) -> Vec<&'a str> {
    let decls = 0..tree.files[file].decls.len();
    let ids = decls.map(|decl| Id { file, decl });
    let off = |id: &Id| !group.lines().contains(&tree.decl(*id).lines[0]);
    let laws = ids.filter(|&id| is_law(tree, id)).filter(off);
    laws.map(|id| tree.decl(id).name.as_str()).collect()
}

/// All lines of a file's declarations, with their blocks.
fn lines(file: &File) -> BTreeSet<usize> {
    let of = |decl: &Decl| {
        let heads = decl.heads.iter().flat_map(|head| head.lines.clone());
        heads.chain(decl.lines.clone()).collect::<Vec<_>>()
    };
    file.decls.iter().flat_map(of).collect()
}

/// What is said of a file of specs that holds laws.
fn mixed(path: &str, on: &[&str], off: &[&str]) -> Option<String> {
    let holds = path.contains("/specs/") && on.len() + off.len() > 0;
    let named = |laws: &[&str]| match laws.is_empty() {
        true => "none".to_string(),
        false => laws.join(", "),
    };
    let said = || format!("{path}: on the list {}; others {}\n", named(on), named(off));
    holds.then(said)
}

pub fn stats(tree: &Tree, list: &List) -> String {
    let mut text = String::new();
    let mut laws_in = Vec::new();
    for group in list.groups() {
        let is = |file: &File| file.path == group.path;
        let at = tree.files.iter().position(is).unwrap_or_default();
        let on = group.lines().len();
        let off = lines(&tree.files[at]).difference(&group.lines()).count();
        text += &format!("{}: {on} on the list, {off} not\n", group.path);
        let laws = group.rows.iter().filter(|row| row.part == Part::Law);
        let listed: Vec<&str> = laws.map(|row| row.name.as_str()).collect();
        laws_in.extend(mixed(&group.path, &listed, &others(tree, at, group)));
    }
    let (lines, files, all) = (list.lines(), list.files(), list.declarations());
    text += &format!("{lines} lines in {files} files, {all} declarations\n");
    text += &format!("\nFiles of specs with laws in them, {}:\n", laws_in.len());
    text + &laws_in.concat()
}
