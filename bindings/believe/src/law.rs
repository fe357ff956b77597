//! Laws and definitions. A law says that something is so, and rests on its
//! statement alone. Where that is not plain, it is taken for a definition, so
//! that the list has too much on it rather than too little.

use crate::decl::Form;
use crate::token::{is_close, is_open, outside};
use crate::tree::{Id, Meaning, Tree};

const RELATIONS: [&str; 6] = ["≡", "≢", "≤", "<", "⊎", "∣"];

/// Whether a declaration is a law: it has no mark, and its type is a
/// statement.
pub fn is_law(tree: &Tree, id: Id) -> bool {
    let decl = tree.decl(id);
    decl.form == Form::Named && Saying { tree, seen: vec![] }.says(id, &decl.statement)
}

/// What stands after the last arrow of a type.
fn conclusion(tokens: &[String]) -> &[String] {
    let mut rest = tokens;
    while let Some(at) = outside(rest, "→") {
        rest = &rest[at + 1..];
    }
    rest
}

/// Without the brackets around all of it.
fn bare(tokens: &[String]) -> &[String] {
    match tokens {
        [open, inner @ .., close]
            if is_open(open) && is_close(close) && outside(inner, close).is_none() =>
        {
            bare(inner)
        }
        _ => tokens,
    }
}

struct Saying<'a> {
    tree: &'a Tree,
    /// The names that are being looked at: one that speaks of itself is a
    /// statement if the rest of it is.
    seen: Vec<Id>,
}

impl Saying<'_> {
    /// Whether a type, in a declaration, is a statement.
    fn says(&mut self, id: Id, tokens: &[String]) -> bool {
        let said = bare(conclusion(bare(tokens)));
        if let Some(at) = outside(said, "×") {
            return self.says(id, &said[..at]) && self.says(id, &said[at + 1..]);
        }
        if RELATIONS.iter().any(|word| outside(said, word).is_some()) {
            return true;
        }
        let head = said.first().map_or("", String::as_str);
        let line = self.tree.decl(id).lines[0];
        match self.tree.meaning(id.file, head, line) {
            Ok(Meaning::Declared(named)) => self.is_statement(named),
            _ => matches!(head, "⊥" | "Unit"),
        }
    }

    /// Whether what a name declares is a statement about its arguments.
    fn is_statement(&mut self, id: Id) -> bool {
        if self.seen.contains(&id) {
            return true;
        }
        self.seen.push(id);
        let decl = self.tree.decl(id);
        let mut types = decl.members.iter().map(|member| &member.tokens);
        match decl.form {
            Form::Record => types.all(|tokens| self.says(id, tokens)),
            Form::Data => types.any(|tokens| outside(tokens, "≡").is_some()),
            Form::Marked => {
                let into = conclusion(&decl.statement).first();
                let mut values = decl.clauses.iter().map(|clause| &clause.right);
                into.is_some_and(|word| word == "Type")
                    && values.all(|tokens| self.says(id, tokens))
            }
            _ => false,
        }
    }
}

#[cfg(test)]
mod tests {
    use super::*;
    use crate::tree::File;

    const TEXT: &str = "\
use lib.L.{ℕ, List, ◌≡◌}

pub record Fits (n : ℕ) : Type 0 where
  pub size : n ≡ 0
  pub small : (i : ℕ) → i ≤ n

pub record Keys : Type 1 where
  pub Key : Type 0
  pub same-self : (k : Key) → same k k ≡ true

abbrev All : List ℕ → Type 0
All [] = Unit {0}
All (n ∷ ns) = Fits n × All ns

abbrev Numbers : Type 0
Numbers = List ℕ

law-one : (n : ℕ) → (n ≡ n) × Fits n
law-two : (ns : List ℕ) → (All ns)
law-three : (n : ℕ) → (n ≡ 0 → ⊥)
no-law : ℕ → Numbers
pair : ℕ → ℕ × List ℕ
keys : Keys
size : (n : ℕ) → n ≤ 2 → ℕ
";

    #[test]
    fn a_law_has_a_statement_for_its_type() {
        let tree = Tree {
            files: vec![File::of("crates/a/specs/A.antt", TEXT)],
        };
        let ids = (0..tree.files[0].decls.len()).map(|decl| Id { file: 0, decl });
        let laws = ids.filter(|&id| is_law(&tree, id));
        let names: Vec<&str> = laws.map(|id| tree.decl(id).name.as_str()).collect();
        assert_eq!(names, ["law-one", "law-two", "law-three"]);
    }
}
