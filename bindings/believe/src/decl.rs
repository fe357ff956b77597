//! A declaration as it stands in a source.

/// What is declared, and how.
#[derive(Clone, Copy, Debug, PartialEq, Eq)]
pub enum Form {
    /// `abbrev name : type` or `unfoldable name : type`, with clauses.
    Marked,
    /// `name : type` with no such mark: a law, or a definition that nothing
    /// unfolds elsewhere.
    Named,
    Record,
    Data,
    /// A struct, an enum or a constant of the code.
    Item,
    /// A function of the code, with its contract.
    Call {
        exported: bool,
    },
}

/// What everything in a block is said of: the block's parameters, and the
/// names that it opens.
#[derive(Clone, Debug, Default)]
pub struct Head {
    pub tokens: Vec<String>,
    pub known: Vec<String>,
    pub lines: Vec<usize>,
}

/// A field of a record, or constructors of a data type, with their type.
#[derive(Clone, Debug)]
pub struct Member {
    pub names: Vec<String>,
    pub tokens: Vec<String>,
}

/// `left = right`, and what is declared in its `where`.
#[derive(Clone, Debug)]
pub struct Clause {
    pub left: Vec<String>,
    pub right: Vec<String>,
    pub inner: Vec<Decl>,
}

#[derive(Clone, Debug)]
pub struct Decl {
    pub name: String,
    pub form: Form,
    /// The comment directly above it.
    pub sentence: Option<String>,
    pub heads: Vec<Head>,
    /// Its type; of a record its parameters; of a call its contract.
    pub statement: Vec<String>,
    pub members: Vec<Member>,
    pub clauses: Vec<Clause>,
    /// The words of what is Rattle in it: all of an item, a call's parameters.
    pub code: Vec<String>,
    /// The lines of its statement, and all its lines, those with code.
    pub stated: Vec<usize>,
    pub lines: Vec<usize>,
}

impl Decl {
    pub fn new(name: &str, form: Form, sentence: Option<String>) -> Self {
        Decl {
            name: name.to_string(),
            form,
            sentence,
            heads: Vec::new(),
            statement: Vec::new(),
            members: Vec::new(),
            clauses: Vec::new(),
            code: Vec::new(),
            stated: Vec::new(),
            lines: Vec::new(),
        }
    }

    /// Whether it is known by that name: its own, or a constructor's. An
    /// operator `◌+◌` is also written `+`.
    pub fn answers_to(&self, name: &str) -> bool {
        let is = |own: &str| own == name || own.trim_matches('◌') == name;
        is(&self.name) || self.constructs(name)
    }

    pub fn constructs(&self, name: &str) -> bool {
        let made = self.members.iter().flat_map(|member| &member.names);
        self.form == Form::Data && made.into_iter().any(|own| own == name)
    }
}
