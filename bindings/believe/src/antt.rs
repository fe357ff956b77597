//! The declarations of an antt file, with the blocks they stand in.

use crate::decl::{Clause, Decl, Form, Head, Member};
use crate::source::{self, Chunk, Line};
use crate::token::{self, tokens};
use crate::uses::Uses;

const MARKS: [&str; 3] = ["pub", "abbrev", "unfoldable"];

#[derive(Default)]
pub struct Parsed {
    pub uses: Uses,
    pub decls: Vec<Decl>,
    heads: Vec<Head>,
}

pub fn parse(text: &str) -> Parsed {
    let mut parsed = Parsed::default();
    parsed.block(&source::lines(text, "--"));
    parsed
}

/// The lines up to the first `where` at a line's end, and those after it.
fn split_where(lines: &[Line]) -> (Vec<String>, &[Line], &[Line]) {
    let ends = |line: &Line| line.code.split_whitespace().next_back() == Some("where");
    let at = lines.iter().position(ends);
    let (head, rest) = lines.split_at(at.map_or(lines.len(), |at| at + 1));
    let mut words = tokens(head);
    if at.is_some() {
        words.pop();
    }
    (words, head, rest)
}

/// `names : type`, with or without `pub`.
fn member(chunk: &Chunk) -> Option<Member> {
    let words = tokens(chunk.lines);
    let at = token::outside(&words, ":")?;
    let names = words[..at].iter().filter(|w| !MARKS.contains(&w.as_str()));
    Some(Member {
        names: names.cloned().collect(),
        tokens: words[at + 1..].to_vec(),
    })
}

impl Parsed {
    fn block(&mut self, lines: &[Line]) {
        for chunk in source::chunks(lines) {
            self.chunk(&chunk);
        }
    }

    fn chunk(&mut self, chunk: &Chunk) {
        let words = tokens(chunk.lines);
        let marked = words.iter().position(|w| !MARKS.contains(&w.as_str()));
        let (marks, words) = words.split_at(marked.unwrap_or(words.len()));
        let form = match marks.iter().any(|mark| mark != "pub") {
            true => Form::Marked,
            false => Form::Named,
        };
        match words.first().map(String::as_str) {
            Some("use") => self.uses.add(&words[1..]),
            Some("module") => self.module(chunk),
            Some("open") => self.open(chunk, words),
            Some("record") => self.members(chunk, Form::Record),
            Some("data") => self.members(chunk, Form::Data),
            Some(name) if words.get(1).is_some_and(|w| w == ":") => {
                let mut decl = self.start(chunk, name, form);
                decl.statement = words[2..].to_vec();
                decl.stated = decl.lines.clone();
                self.decls.push(decl);
            }
            Some("mod" | "infix" | "infixl" | "infixr") | None => {}
            Some(_) => self.clause(chunk),
        }
    }

    fn start(&self, chunk: &Chunk, name: &str, form: Form) -> Decl {
        let mut decl = Decl::new(name, form, source::sentence(&chunk.notes));
        decl.heads = self.heads.clone();
        decl.lines = source::numbers(chunk.lines);
        decl
    }

    fn module(&mut self, chunk: &Chunk) {
        let (words, head, rest) = split_where(chunk.lines);
        self.heads.push(Head {
            tokens: words.get(2..).unwrap_or_default().to_vec(),
            known: Vec::new(),
            lines: source::numbers(head),
        });
        self.block(rest);
        self.heads.pop();
    }

    /// `open value use {names}`: the names are known from here on.
    fn open(&mut self, chunk: &Chunk, words: &[String]) {
        let Some(head) = self.heads.last_mut() else {
            return;
        };
        let names = words.iter().position(|w| w == "use");
        let at = names.unwrap_or(words.len());
        let plain = |w: &&String| !matches!(w.as_str(), "{" | "}" | ",");
        head.tokens.extend_from_slice(&words[1..at]);
        head.known
            .extend(words.iter().skip(at + 1).filter(plain).cloned());
        head.lines.extend(source::numbers(chunk.lines));
    }

    /// `record Name ..` and `data Name ..`.
    fn members(&mut self, chunk: &Chunk, form: Form) {
        let (words, _, rest) = split_where(chunk.lines);
        let keyword = |w: &String| MARKS.contains(&w.as_str()) || w == "record" || w == "data";
        let mut words = words.into_iter().skip_while(keyword);
        let mut decl = self.start(chunk, &words.next().unwrap_or_default(), form);
        decl.statement = words.collect();
        decl.members = source::chunks(rest).iter().filter_map(member).collect();
        decl.stated = decl.lines.clone();
        self.decls.push(decl);
    }

    fn clause(&mut self, chunk: &Chunk) {
        let (words, _, rest) = split_where(chunk.lines);
        let Some(decl) = self.decls.last_mut() else {
            return;
        };
        decl.lines.extend(source::numbers(chunk.lines));
        let Some(at) = token::outside(&words, "=") else {
            return;
        };
        let mut inner = Parsed::default();
        inner.block(rest);
        decl.clauses.push(Clause {
            left: words[..at].to_vec(),
            right: words[at + 1..].to_vec(),
            inner: inner.decls,
        });
    }
}

#[cfg(test)]
mod tests {
    use super::*;

    fn names(parsed: &Parsed) -> Vec<&str> {
        parsed.decls.iter().map(|d| d.name.as_str()).collect()
    }

    #[test]
    fn declarations_have_their_lines_and_their_comment() {
        let parsed = parse(
            "-- A file.\nuse A.B.{\n    c,\n    d\n}\n\n-- twice\n-- so much\nabbrev pub two : ℕ\n    → ℕ\ntwo zero = 0\n-- more\ntwo (suc n) =\n    2\n\npub law : two 1 ≡ 2\nunfolding two\nlaw = refl\n",
        );
        assert_eq!(names(&parsed), ["two", "law"]);
        assert_eq!(parsed.uses.names.len(), 2);
        let two = &parsed.decls[0];
        assert_eq!(two.sentence.as_deref(), Some("twice so much"));
        assert_eq!(two.form, Form::Marked);
        assert_eq!(two.stated, [9, 10]);
        assert_eq!(two.lines, [9, 10, 11, 13, 14]);
        let law = &parsed.decls[1];
        assert_eq!((law.form, law.sentence.as_deref()), (Form::Named, None));
        assert_eq!((law.stated.as_slice(), law.clauses.len()), (&[16][..], 1));
    }

    #[test]
    fn blocks_give_their_heads_to_what_stands_in_them() {
        let parsed = parse(
            "module _ (S : Service)\n    (k : Key) where\n  open S use {Key, same}\n\n  -- own\n  own : ℕ\n  own = 0\n\n  module _ (n : ℕ) where\n    deep : ℕ\n    deep = n\n\nafter : ℕ\nafter = 1\n",
        );
        assert_eq!(names(&parsed), ["own", "deep", "after"]);
        let [own, deep, after] = &parsed.decls[..] else {
            panic!("three declarations");
        };
        assert_eq!(own.heads[0].known, ["Key", "same"]);
        assert_eq!(own.heads[0].lines, [1, 2, 3]);
        assert_eq!(deep.heads.len(), 2);
        assert_eq!(deep.lines, [10, 11]);
        assert!(after.heads.is_empty());
    }

    #[test]
    fn records_have_fields_and_data_have_constructors() {
        let parsed = parse(
            "-- a line\npub record Line (n : ℕ) : Type 0 where\n  -- its state\n  pub state : ℕ\n  pub key :\n    Key\n\npub data Change (A : Type 0) : Type 0 where\n  stays gone : Change A\n  becomes : A → Change A\n",
        );
        let [line, change] = &parsed.decls[..] else {
            panic!("two declarations");
        };
        assert_eq!(line.lines, [2, 4, 5, 6]);
        assert_eq!(line.members[1].names, ["key"]);
        assert_eq!(line.members[1].tokens, ["Key"]);
        assert!(change.constructs("gone") && change.answers_to("becomes"));
        assert!(!line.constructs("state"));
    }

    #[test]
    fn what_a_where_declares_belongs_to_its_clause() {
        let parsed =
            parse("f : ℕ → ℕ\nf n = go n\n  where\n    go : ℕ → ℕ\n    go m = m\n\ng : ℕ\ng = 0\n");
        assert_eq!(names(&parsed), ["f", "g"]);
        assert_eq!(parsed.decls[0].clauses[0].inner[0].name, "go");
        assert_eq!(parsed.decls[0].lines, [1, 2, 3, 4, 5]);
    }
}
