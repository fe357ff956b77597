//! The structs, enums, constants and functions of a Rattle source, each with
//! its comment; of a function the head, with its contract.

use crate::decl::{Decl, Form, Head};
use crate::source::{self, Chunk, Line};
use crate::token::{of_text, tokens};
use crate::uses::Uses;
use std::collections::HashMap;

#[derive(Default)]
pub struct Parsed {
    /// `ghost use`: what the contracts take.
    pub uses: Uses,
    /// `use desk::Key`: the crate of each item.
    pub items: HashMap<String, String>,
    pub decls: Vec<Decl>,
}

pub fn parse(text: &str) -> Parsed {
    let mut parsed = Parsed::default();
    let lines = source::lines(text, "//");
    let mut attribute: Option<Chunk> = None;
    for chunk in source::chunks(&lines) {
        let whole = match attribute.take() {
            Some(before) => joined(&lines, &before, &chunk),
            None => chunk,
        };
        let last = whole.lines.last();
        if last.is_some_and(|line| line.code.starts_with("#[")) {
            attribute = Some(whole);
        } else {
            parsed.chunk(&whole);
        }
    }
    parsed
}

/// An attribute and what it stands above.
fn joined<'a>(lines: &'a [Line], before: &Chunk<'a>, chunk: &Chunk<'a>) -> Chunk<'a> {
    let from = before.lines[0].number - 1;
    let to = chunk.lines[chunk.lines.len() - 1].number;
    Chunk {
        notes: before.notes.clone(),
        lines: &lines[from..to],
    }
}

/// Words such as `Key`, `desk::Key` and `u64`.
fn words(text: &str) -> Vec<String> {
    let part = |c: char| !c.is_alphanumeric() && c != '_' && c != ':';
    let words = text.split(part).map(|word| word.trim_matches(':'));
    words
        .filter(|w| !w.is_empty())
        .map(str::to_string)
        .collect()
}

fn text(lines: &[Line]) -> String {
    let code: Vec<&str> = lines.iter().map(|line| line.code.as_str()).collect();
    code.join("\n")
}

/// The names before a single colon: the parameters of a function.
fn parameters(text: &str) -> Vec<String> {
    let single = text.replace("::", " ");
    let parts: Vec<&str> = single.split(':').collect();
    let names = parts.iter().rev().skip(1).rev();
    let last = |part: &&str| words(part).last().cloned();
    names.filter_map(last).collect()
}

/// Whether a word begins a clause.
fn is_clause(word: &str) -> bool {
    matches!(word.trim_end_matches('*'), "requires" | "ensures")
}

/// Where the clauses of a function's head begin.
fn contract(head: &str) -> usize {
    let lines = head.split_inclusive('\n');
    let begins = |line: &&str| line.split_whitespace().next().is_some_and(is_clause);
    lines.take_while(|line| !begins(line)).map(str::len).sum()
}

/// The clauses' words without their own names: `ensures low { .. }`.
fn unnamed(tokens: &[String]) -> Vec<String> {
    let mut kept: Vec<String> = Vec::new();
    for (at, word) in tokens.iter().enumerate() {
        let opens = word != "{" && tokens.get(at + 1).is_some_and(|next| next == "{");
        let names = opens && kept.last().is_some_and(|last| is_clause(last));
        if !names {
            kept.push(word.clone());
        }
    }
    kept
}

/// The lines of a function before its body.
fn head(lines: &[Line]) -> &[Line] {
    let opens = |line: &Line| line.code.starts_with('{');
    let body = lines.iter().position(opens);
    let inline = || lines.iter().position(|line| line.code.ends_with('{'));
    let end = body.or_else(|| inline().map(|at| at + 1));
    &lines[..end.unwrap_or(lines.len())]
}

impl Parsed {
    fn chunk(&mut self, chunk: &Chunk) {
        let code = chunk.lines.iter().find(|line| !line.code.starts_with("#["));
        let first = code.map_or("", |line| line.code.as_str());
        let plain = first.strip_prefix("pub ").unwrap_or(first);
        let named = words(plain);
        let name = |at: usize| named.get(at).map_or("", String::as_str);
        match name(0) {
            "ghost" => self.uses.add(&tokens(chunk.lines)[2..]),
            "use" => self.import(&words(&text(chunk.lines))[1..]),
            "struct" | "enum" | "const" => self.item(chunk, name(1)),
            "fn" => self.call(chunk, name(1), false),
            "extern" => self.call(chunk, name(3), first.starts_with("pub")),
            _ => {}
        }
    }

    /// `use desk::Key` or `use desk::{Answer, Key}`.
    fn import(&mut self, path: &[String]) {
        let (owner, names) = match path {
            [path] => match path.split_once("::") {
                Some((owner, name)) => (owner, vec![name.to_string()]),
                None => return,
            },
            [owner, names @ ..] => (owner.as_str(), names.to_vec()),
            [] => return,
        };
        let items = names.into_iter().map(|name| (name, owner.to_string()));
        self.items.extend(items);
    }

    fn item(&mut self, chunk: &Chunk, name: &str) {
        let mut decl = Decl::new(name, Form::Item, source::sentence(&chunk.notes));
        let code = chunk
            .lines
            .iter()
            .filter(|line| !line.code.starts_with("#["));
        decl.code = code.flat_map(|line| words(&line.code)).collect();
        decl.lines = source::numbers(chunk.lines);
        decl.stated = decl.lines.clone();
        self.decls.push(decl);
    }

    fn call(&mut self, chunk: &Chunk, name: &str, exported: bool) {
        let form = Form::Call { exported };
        let mut decl = Decl::new(name, form, source::sentence(&chunk.notes));
        let head = head(chunk.lines);
        let text = text(head);
        let at = contract(&text);
        decl.code = words(&text[..at]);
        decl.statement = unnamed(&of_text(&text[at..]));
        let mut known = parameters(&text[..at]);
        known.push("result".to_string());
        decl.heads = vec![Head {
            known,
            ..Head::default()
        }];
        decl.stated = source::numbers(head);
        decl.lines = source::numbers(chunk.lines);
        self.decls.push(decl);
    }
}

#[cfg(test)]
mod tests {
    use super::*;

    const TEXT: &str = "// A file.
ghost use A.B.{c};
use limits::PAGES;
use desk::{
    Answer,
    Key,
};

// The lines.
#[repr(C)]
pub struct Book {
    pub pages: [desk::Line; PAGES],
}

// Close.
#[unsafe(no_mangle)]
pub extern \"C\" fn close<'a>(
    book: Book,
    key: &'a mut [[u8; PAGES]; 4],
) -> Reply
    requires { c key.old }
    ensures said { Serves book result
        key.new }
{
    let text = \"(\";
    done(book)
}

const N: usize = 2 * PAGES;
";

    #[test]
    fn items_and_calls_have_their_words() {
        let parsed = parse(TEXT);
        let [book, close, n] = &parsed.decls[..] else {
            panic!("three declarations");
        };
        assert_eq!(parsed.items["PAGES"], "limits");
        assert_eq!(parsed.items["Key"], "desk");
        assert_eq!(parsed.uses.names["c"], ("A.B".into(), "c".into()));
        assert_eq!(book.sentence.as_deref(), Some("The lines."));
        assert_eq!(book.lines, [10, 11, 12, 13]);
        assert!(book.code.contains(&"desk::Line".to_string()));
        assert_eq!(close.sentence.as_deref(), Some("Close."));
        assert_eq!(close.form, Form::Call { exported: true });
        assert_eq!(close.stated, [16, 17, 18, 19, 20, 21, 22, 23]);
        assert_eq!(close.heads[0].known, ["book", "key", "result"]);
        assert!(close.code.contains(&"Reply".to_string()));
        assert_eq!((n.name.as_str(), n.form), ("N", Form::Item));
    }

    #[test]
    fn a_contract_names_what_it_takes() {
        let parsed = parse(TEXT);
        let free = crate::names::free(&parsed.decls[1], false, &|_| false);
        let names: Vec<&str> = free.iter().map(String::as_str).collect();
        assert_eq!(names, ["Serves", "c"]);
    }
}
