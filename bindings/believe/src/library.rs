//! Names of the library and of the language, in words: a reader believes that
//! they mean this.

const MEANINGS: &[(&str, &str)] = &[
    ("ℕ", "the natural numbers"),
    ("suc", "one more"),
    ("◌-◌", "0 where the second is larger"),
    ("◌/◌", "the whole part"),
    ("◌%◌", "the remainder"),
    ("◌^◌", "the power"),
    ("eqb", "equal, as a test"),
    ("leb", "at most, as a test"),
    ("ltb", "less, as a test"),
    ("drop", "`drop n l`: `l` without its first n"),
    (
        "get_or",
        "`get_or l i d`: the element i of `l`, counted from 0; `d` past its end",
    ),
    ("replicate", "`replicate n a`: n times `a`"),
    (
        "set",
        "`set l i a`: `l` with `a` at i; `l` itself where i is past its end",
    ),
    ("take", "`take n l`: the first n of `l`"),
    (
        "cond",
        "`cond b x y`: `x` where `b` is true, `y` where it is false",
    ),
    ("[]", "the empty list"),
    ("◌∷◌", "an element before a list"),
    ("◌++◌", "one list after another"),
    ("map", "`map f l`: `f` of each element"),
    ("◌≡◌", "equal"),
    ("◌≢◌", "not equal"),
    ("◌⊎◌", "or"),
    ("Option", "`some` of something, or `none`"),
    ("size", "the bytes that a type takes in memory"),
    ("×", "and"),
    ("⊥", "what never holds: `A → ⊥` says that `A` does not"),
    ("Unit", "what always holds"),
    (
        "Type",
        "the type of types, and of statements: a definition into it says what a statement means",
    ),
];

/// A name, with its meaning where it is worth a word.
pub fn shown(name: &str) -> String {
    let word = MEANINGS.iter().find(|(own, _)| *own == name);
    let plain = name.trim_matches('◌');
    match word {
        Some((_, meaning)) => format!("`{plain}` ({meaning})"),
        None => format!("`{plain}`"),
    }
}
