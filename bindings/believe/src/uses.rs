//! What a file takes from other modules.

use std::collections::HashMap;

/// A name's module, and its name there.
pub type Origin = (String, String);

#[derive(Clone, Debug, Default, PartialEq)]
pub struct Uses {
    /// `use M.{a, b as c}`: each name as it is known here.
    pub names: HashMap<String, Origin>,
    /// `use M as m`: the modules that have a short name here.
    pub modules: HashMap<String, String>,
}

impl Uses {
    /// The tokens of a `use`, folded or not, from the module's name on.
    pub fn add(&mut self, tokens: &[String]) {
        let Some((module, rest)) = tokens.split_first() else {
            return;
        };
        let words: Vec<&str> = rest.iter().map(String::as_str).collect();
        match words.as_slice() {
            ["as", short, ..] => {
                self.modules.insert(short.to_string(), module.clone());
            }
            [".", "{", items @ ..] => {
                for item in items.split(|&word| word == ",") {
                    self.item(module, item);
                }
            }
            _ => {
                let last = module.rsplit('.').next().unwrap_or(module);
                self.modules.insert(last.to_string(), module.clone());
            }
        }
    }

    fn item(&mut self, module: &str, item: &[&str]) {
        let words: Vec<&str> = item.iter().copied().filter(|w| !"};".contains(w)).collect();
        let (Some(&name), Some(&known)) = (words.first(), words.last()) else {
            return;
        };
        let origin = (module.to_string(), name.to_string());
        self.names.insert(known.to_string(), origin);
    }
}

#[cfg(test)]
mod tests {
    use super::*;
    use crate::token::of_text;

    fn uses(text: &str) -> Uses {
        let mut uses = Uses::default();
        uses.add(&of_text(text)[1..]);
        uses
    }

    #[test]
    fn a_folded_import_is_one_import() {
        let folded = uses("use A.b.specs.M.{\n    a,\n    b as c,\n    ◌∷◌\n}");
        assert_eq!(folded, uses("use A.b.specs.M.{a, b as c, ◌∷◌};"));
        assert_eq!(folded.names["a"], ("A.b.specs.M".into(), "a".into()));
        assert_eq!(folded.names["c"], ("A.b.specs.M".into(), "b".into()));
        assert_eq!(folded.names.len(), 3);
    }

    #[test]
    fn a_module_has_a_short_name() {
        assert_eq!(uses("use A.b.C as m").modules["m"], "A.b.C");
        assert_eq!(uses("use A.b.C;").modules["C"], "A.b.C");
    }
}
