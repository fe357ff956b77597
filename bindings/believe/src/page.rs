//! The list as a page: docs/BELIEVE.md.

use crate::library;
use crate::list::{Group, List, Part, Row};

const READING: &str = "\
A row has the lines to read, in the file above it, the name that they declare, and the comment that stands there. \
Where a declaration stands in a block (`module _ (..) where`), the block's first lines come before the comma: what \
stands in the block is said of all that they name. Of a *law* only the statement is here, since its proof is checked; \
of a *contract* only the function's head, since its body is proved.

In the sources `p.field` is a field, `λ x. e` a function, and `record { .. }` a record by its fields; `◌+◌` in an \
import is the operator `+`. `pub`, `abbrev` and `unfoldable` say who may use and open a definition; they change no \
meaning. A struct or an enum of the code is a record or a data type of the same name in the specs; its numbers are \
natural numbers there, its arrays and slices lists. In a contract `x.now` is what a lent `x` holds, `x.old` what it \
holds at the call's start and `x.new` at its end, where the call may change it, and `result` is what the call answers.
";

/// Numbers in a row as `3-5`.
fn ranges(numbers: &[usize]) -> String {
    let mut ranges: Vec<(usize, usize)> = Vec::new();
    for &n in numbers {
        match ranges.last_mut() {
            Some((_, last)) if *last + 1 == n => *last = n,
            _ => ranges.push((n, n)),
        }
    }
    let shown: Vec<String> = ranges.iter().map(|&(a, b)| range(a, b)).collect();
    shown.join(", ")
}

fn range(first: usize, last: usize) -> String {
    match first == last {
        true => first.to_string(),
        false => format!("{first}-{last}"),
    }
}

fn row(row: &Row) -> String {
    let own = range(row.lines[0], row.lines[row.lines.len() - 1]);
    let lines = match row.heads.is_empty() {
        true => own,
        false => format!("{}, {own}", ranges(&row.heads)),
    };
    let part = match row.part {
        Part::All => "",
        Part::Law => " (law)",
        Part::Contract => " (contract)",
    };
    let sentence = row.sentence.as_deref().unwrap_or("");
    let said = sentence.replace('|', "\\|");
    format!("| {lines} | `{}`{part} | {said} |\n", row.name)
}

fn group(group: &Group) -> String {
    let rows: String = group.rows.iter().map(row).collect();
    let path = &group.path;
    format!("[`{path}`](../{path})\n\n| lines | name | in words |\n|---|---|---|\n{rows}\n")
}

fn opening(list: &List) -> String {
    format!(
        "# What a reader believes\n\n\
        Read these {} lines in {} files, {} declarations, and you have read all that the contracts of the public calls \
        and the final theorems rest on, in document 01's order. If these lines say what document 01 says, then so do \
        the promises (`docs/PROMISES.md`): what else stands in the crates is code, which is proved, and lemmas and \
        proofs, which are checked. `docs/ARCHITECTURE.md` says what is trusted besides.\n\n\
        `tools/believe > docs/BELIEVE.md` prints this page anew. Its sentences stand in the sources, as the comments \
        directly above the declarations. The tests hold it to the tree.\n\n{READING}",
        list.lines(),
        list.files(),
        list.declarations(),
    )
}

fn library(list: &List) -> String {
    let mut page = String::from(
        "\n## Names of the library and of the language\n\nThese are not followed: a reader believes that they mean what they usually mean.\n\n",
    );
    for (module, names) in &list.library {
        let shown: Vec<String> = names.iter().map(|name| library::shown(name)).collect();
        page += &format!("- `{module}`: {}\n", shown.join(", "));
    }
    let shown: Vec<String> = list.language.iter().map(|n| library::shown(n)).collect();
    page += &format!("- the language: {}\n", shown.join(", "));
    page
}

pub fn page(list: &List) -> String {
    let mut page = opening(list);
    for section in &list.sections {
        page += &format!("\n## {}\n\n", section.title);
        let groups: Vec<String> = section.groups.iter().map(group).collect();
        page += groups.concat().trim_end();
        page += "\n";
    }
    page + &library(list)
}

#[cfg(test)]
mod tests {
    use super::*;

    #[test]
    fn a_row_has_its_block_its_lines_and_its_sentence() {
        let law = Row {
            name: "in-order".into(),
            part: Part::Law,
            heads: vec![3, 4, 7],
            lines: vec![9, 10, 12],
            sentence: Some("a | b".into()),
        };
        assert_eq!(row(&law), "| 3-4, 7, 9-12 | `in-order` (law) | a \\| b |\n");
    }
}
