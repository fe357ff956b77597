//! The names that a declaration takes from outside: what it binds itself, by
//! a parameter, a `λ`, a `let`, a pattern or a `where`, hides other names.

use crate::decl::{Clause, Decl, Form};
use crate::token::{is_close, is_open, outside};
use std::collections::BTreeSet;

/// Words of the language that name nothing.
const WORDS: [&str; 21] = [
    ":",
    "=",
    "→",
    "←",
    "λ",
    ".",
    ",",
    ";",
    "|",
    "↦",
    "in",
    "let",
    "record",
    "where",
    "_",
    "@",
    "requires",
    "requires*",
    "ensures",
    "ensures*",
    "∀",
];

/// Tells constructors from variables in a pattern.
pub type Makes<'a> = &'a dyn Fn(&str) -> bool;

struct Frame {
    /// How many names were known when the bracket opened.
    known: usize,
    /// What the bracket binds for all that stands behind it.
    binds: Vec<String>,
}

struct Reading<'a> {
    makes: Makes<'a>,
    known: Vec<String>,
    frames: Vec<Frame>,
    free: BTreeSet<String>,
}

/// What its statement takes from outside, or all of it.
pub fn free(decl: &Decl, whole: bool, makes: Makes) -> BTreeSet<String> {
    let mut reading = Reading {
        makes,
        known: Vec::new(),
        frames: Vec::new(),
        free: BTreeSet::new(),
    };
    for head in &decl.heads {
        reading.tokens(&head.tokens);
        reading.known.extend(head.known.iter().cloned());
    }
    reading.decl(decl, whole);
    reading.free
}

fn is_plain(token: &str) -> bool {
    !WORDS.contains(&token) && !is_open(token) && !is_close(token)
}

/// The words of `(a b : ..`, where a bracket binds them.
fn bound(tokens: &[String]) -> &[String] {
    let end = tokens.iter().position(|t| !is_plain(t));
    match end {
        Some(end) if tokens[end] == ":" => &tokens[..end],
        _ => &[],
    }
}

impl Reading<'_> {
    fn decl(&mut self, decl: &Decl, whole: bool) {
        let known = self.known.len();
        self.tokens(&decl.statement);
        let fields = decl.form == Form::Record;
        for member in &decl.members {
            self.inside(|reading| reading.tokens(&member.tokens));
            if fields {
                self.known.extend(member.names.iter().cloned());
            }
        }
        self.known.truncate(known);
        for clause in decl.clauses.iter().filter(|_| whole) {
            self.inside(|reading| reading.clause(&decl.name, clause));
        }
    }

    /// What is bound there is forgotten afterwards.
    fn inside(&mut self, read: impl FnOnce(&mut Self)) {
        let known = self.known.len();
        read(self);
        self.known.truncate(known);
        self.frames.clear();
    }

    fn clause(&mut self, name: &str, clause: &Clause) {
        for word in clause.left.iter().filter(|w| is_plain(w) && *w != name) {
            if (self.makes)(word) {
                self.free.insert(word.clone());
            } else {
                self.known.push(word.clone());
            }
        }
        let inner = clause.inner.iter().map(|inner| inner.name.clone());
        self.known.extend(inner);
        let known = self.known.len();
        self.tokens(&clause.right);
        self.known.truncate(known);
        for inner in &clause.inner {
            self.decl(inner, true);
        }
    }

    fn tokens(&mut self, tokens: &[String]) {
        let mut at = 0;
        while at < tokens.len() {
            at += self.token(tokens, at);
        }
    }

    /// Reads what stands there, and says how many tokens that was.
    fn token(&mut self, tokens: &[String], at: usize) -> usize {
        let (word, rest) = (tokens[at].as_str(), &tokens[at + 1..]);
        if is_open(word) {
            let binds = bound(rest).to_vec();
            let read = binds.len();
            self.frames.push(Frame {
                known: self.known.len(),
                binds,
            });
            return 1 + read;
        }
        if is_close(word) {
            if let Some(frame) = self.frames.pop() {
                self.known.truncate(frame.known);
                self.known.extend(frame.binds);
            }
            return 1;
        }
        match word {
            "λ" => 1 + self.binders(rest, &["."]),
            "let" => 1 + self.binders(rest, &[":", "="]),
            _ => {
                self.word(tokens, at);
                1
            }
        }
    }

    /// The names up to one of the ends, outside all brackets, are bound. What
    /// stands in brackets with a type is read as usual.
    fn binders(&mut self, rest: &[String], ends: &[&str]) -> usize {
        let end = ends.iter().filter_map(|end| outside(rest, end)).min();
        let mut at = 0;
        while at < end.unwrap_or(0) {
            let typed = rest[at] == "(" && !bound(&rest[at + 1..]).is_empty();
            if typed {
                let close = outside(&rest[at + 1..], ")").map_or(1, |close| close + 2);
                self.tokens(&rest[at..at + close]);
                at += close;
                continue;
            }
            if is_plain(&rest[at]) {
                self.known.push(rest[at].clone());
            }
            at += 1;
        }
        at
    }

    fn word(&mut self, tokens: &[String], at: usize) {
        let word = &tokens[at];
        let next = tokens.get(at + 1).map(String::as_str);
        let before = at.checked_sub(1).map(|before| tokens[before].as_str());
        let label = next == Some("=") && matches!(before, Some("{" | ";"));
        let number = word.starts_with(|c: char| c.is_ascii_digit());
        let field = word.starts_with('.');
        let is_known = |name: &str| self.known.iter().any(|own| own == name);
        // `p.low` names `p`, and a field of it
        let of_known = word
            .split_once('.')
            .is_some_and(|(first, _)| is_known(first));
        if is_plain(word) && !label && !number && !field && !is_known(word) && !of_known {
            self.free.insert(word.clone());
        }
    }
}

#[cfg(test)]
mod tests {
    use super::*;
    use crate::antt::parse;

    fn of(text: &str, whole: bool) -> String {
        let decl = &parse(text).decls[0];
        let makes = |name: &str| matches!(name, "none" | "some" | "suc");
        let free = free(decl, whole, &makes);
        free.into_iter().collect::<Vec<_>>().join(" ")
    }

    #[test]
    fn parameters_hide_names() {
        let text = "law : (row : Row) {n : ℕ} → f row n ≡ {A = B} row.row\nlaw r = proof";
        assert_eq!(of(text, false), "B Row f ℕ ≡");
    }

    #[test]
    fn patterns_bind_and_constructors_are_named() {
        let text = "f : Option ℕ → ℕ\nf none = zero\nf (some f-of) = g f-of f";
        assert_eq!(of(text, true), "Option f g none some zero ℕ");
    }

    #[test]
    fn lambdas_and_lets_bind_to_the_end_of_their_bracket() {
        let text =
            "f : T\nf = (λ x (y : Y) z. x y z) x (let a : A = b in a) a (let (p, q) = r in p) q";
        assert_eq!(of(text, true), "A T Y a b q r x");
    }

    #[test]
    fn fields_hide_names_after_themselves() {
        let text = "record R (d : D) : Type 0 where\n  out : d ≡ out d\n  more : out ≡ d";
        assert_eq!(of(text, true), "D Type out ≡");
    }

    #[test]
    fn a_literal_names_values_and_not_fields() {
        let text = "f : R\nf = record { size = row_of; next = next }";
        assert_eq!(of(text, true), "R next row_of");
    }

    #[test]
    fn a_field_belongs_to_what_stands_before_it() {
        let text = "f : Row → ℕ\nf r = g r.low (h r).high.width r.0 + one.size";
        assert_eq!(of(text, true), "+ Row g h one.size ℕ");
    }

    #[test]
    fn a_block_gives_its_parameters() {
        let text = "module _ (S : Service) where\n  open S use {Key}\n  f : Key → S.Call → ℕ\n  f k c = g k\n    where\n      g : Key → ℕ\n      g j = h j";
        assert_eq!(of(text, true), "Service h ℕ");
    }
}
