//! What the list starts from, and the order in which it is printed. A new
//! public call, final theorem or file is added here.

/// The crate whose exported functions other languages call, all of them.
pub const EXPORTS: &str = "counter_c";

/// The calls of Rattle callers: a crate, and its functions.
pub const CALLS: &[(&str, &[&str])] = &[
    ("opening", &["open"]),
    ("closing", &["close", "abandon"]),
    ("tables", &["forget", "look"]),
    ("writing", &["write"]),
    ("reading", &["read"]),
    ("store", &["front_of"]),
    // a band by either engine (request E8)
    ("writer", &["write_by"]),
];

/// The final theorems, as docs/PROMISES.md gives them: a crate, and their
/// names there, in whichever file.
#[rustfmt::skip]
pub const THEOREMS: &[(&str, &[&str])] = &[
    // demand 1
    ("demands", &["answers", "in_table", "refused", "alone", "all-zero", "accepted"]),
    // demand 2
    ("demands", &["wrote", "read_back", "damaged", "only_then", "marker-told"]),
    // how many pels are revisited (request E11)
    ("band", &["at_most_shifts", "at_most_pels"]),
    ("demands", &["revisits"]),
    // whichever engine writes (request E8)
    ("writer", &["either-engine"]),
    // demand 3
    ("demands", &["any_order", "as-run", "any-history"]),
    ("serial", &["calling_keys"]),
    // document 01: pels; the fresh table; the table of source document 000
    ("template", &["pel-bit"]),
    ("estimate", &["fresh-entry", "agrees"]),
    // its bytes: at most 8F after an FF; their number; 12 + S bits, and what follows; the length law; the end told
    ("band", &["code-lawful", "code-value", "code-covers", "code-length", "code_one", "code-last"]),
    ("unique", &["end-told"]),
    // its refusals: their order; the lent output after each; what no code has (request E4); a lawful desk stays
    // lawful; what other keys and looks see
    ("desk", &["in_order_lem", "each_lent"]),
    ("marker", &["code-unmarked", "marked-damaged"]),
    ("kept", &["empty-lawful", "call-lawful", "call-keeps", "call-leaves", "band-tables", "band-looks"]),
    // P1 to P11
    ("band", &["worked"]),
    // nothing more can vary
    ("unique", &["one_reader"]),
    ("demands", &["certain", "certain-parts", "certain-results"]),
    ("counter", &["desk-bytes", "desk-offsets"]),
];

/// Document 01's sections in its order, then the demands; in each its files in
/// the order in which they are read. A file is a crate and a module, whichever
/// folder it stands in, or `src` for the crate's code; a crate alone is all
/// of its files that are named nowhere else.
#[rustfmt::skip]
pub const SECTIONS: &[(&str, &[&str])] = &[
    ("The desk and who may stand at it", &[
        "limits/Limits", "limits/src", "ground", "desk/src", "desk/Desk", "parts/src", "parts/Parts", "desk/Places",
        "desk", "desk/Calls", "desk/Standing", "desk/Effects", "desk/Changes",
    ]),
    ("Pels, rows and the seven neighbours", &["template"]),
    ("The thirty rows of the Q-table", &["estimate/src", "estimate/Estimate", "estimate"]),
    ("The interval and its bytes", &[
        "interval", "octets", "coder/Writing", "coder", "store", "band/Band", "exact", "band",
    ]),
    ("Refusal numbers, in the order they are tested", &[
        "desk/Lawful", "desk/Refusals", "desk/Lent", "marker", "desk/Tests", "desk/Allowed", "kept",
    ]),
    ("Bands worked by hand", &["band/Worked"]),
    ("How much each public call must say", &[
        "parts", "desk/Asked", "counter_c/src", "counter", "opening", "closing", "tables", "writing", "reading", "store/src",
        "writer/src", "writer/Wrote", "writer",
        "unique/Search", "unique/BandOfCode", "unique", "demands/Certain",
    ]),
    ("The three demands", &[
        "demands/Demand1", "demands/Demand2", "demands/Damaged", "demands/Revisits",
        "turns/Service", "turns/Serial", "turns/Base", "turns/Strike", "turns/Own", "turns/Order", "turns",
        "serial/Run", "serial", "demands/AnyOrder", "demands",
    ]),
];
