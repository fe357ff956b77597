//! The C example, compiled as C and as C++ and linked with the archive; and
//! the numbers and the answer of the header, which are the crate's.

use siftpebble::sys::Answer;
use std::env;
use std::mem::{offset_of, size_of};
use std::path::{Path, PathBuf};
use std::process::Command;

const EXPECTED: &str = "\
P1: AC 10 S=2
P7: A8 10 S=2
revisited: 2 pels
learned: 04 at context 0
last FF: 15 6E FF 00 S=12
marker: refused 15
";

const HEADER: &str = include_str!("../../../include/siftpebble.h");

/// A language with its standard, its compiler, and the variable of the
/// environment that names another one.
struct Language {
    name: &'static str,
    standard: &'static str,
    compiler: &'static str,
    variable: &'static str,
}

const C: Language = Language {
    name: "c",
    standard: "-std=c11",
    compiler: "cc",
    variable: "CC",
};

const CPP: Language = Language {
    name: "c++",
    standard: "-std=c++17",
    compiler: "c++",
    variable: "CXX",
};

fn bindings() -> PathBuf {
    Path::new(env!("CARGO_MANIFEST_DIR")).join("..")
}

/// A file of a test's own.
fn own_file(name: &str) -> PathBuf {
    Path::new(env!("CARGO_TARGET_TMPDIR")).join(name)
}

impl Language {
    /// The compiler on a source, with every warning an error.
    fn compiler(&self, source: &Path) -> Command {
        let compiler = env::var(self.variable).unwrap_or_else(|_| self.compiler.into());
        let mut command = Command::new(compiler);
        command
            .args(["-Wall", "-Wextra", "-pedantic", "-Werror", self.standard])
            .arg("-I")
            .arg(bindings().join("../include"))
            .args(["-x", self.name])
            .arg(source);
        command
    }

    /// Compiles the example and runs it; answers what it wrote.
    fn run_example(&self) -> String {
        let program = own_file(self.name);
        let status = self
            .compiler(&bindings().join("c/example.c"))
            .args(["-x", "none", env!("SIFTPEBBLE_ARCHIVE")])
            .arg("-o")
            .arg(&program)
            .status()
            .expect("a compiler");
        assert!(status.success());
        let output = Command::new(program).output().expect("the example");
        assert!(output.status.success());
        String::from_utf8(output.stdout).expect("text")
    }
}

#[test]
fn from_c() {
    assert_eq!(C.run_example(), EXPECTED);
}

#[test]
fn from_cpp() {
    assert_eq!(CPP.run_example(), EXPECTED);
}

/// The header's names and numbers of the refusals are the crate's.
#[test]
fn the_header_has_the_numbers() {
    for refusal in siftpebble::Refusal::ALL {
        let mut name = String::new();
        for letter in format!("{refusal:?}").chars() {
            if letter.is_uppercase() {
                name.push('_');
            }
            name.push(letter.to_ascii_uppercase());
        }
        let wanted = format!("SIFTPEBBLE{name} = {}", refusal.number());
        let there = |line: &str| line.trim().trim_end_matches(',') == wanted;
        assert!(HEADER.lines().any(there), "{wanted}");
    }
}

/// The header lists the numbers in the order in which they are tested.
#[test]
fn the_header_has_the_order() {
    let lines = HEADER.lines().map(str::trim);
    let entries = lines.filter(|line| line.starts_with("SIFTPEBBLE_"));
    let number = |entry: &str| {
        let number = entry.split_once(" = ")?.1.trim_end_matches(',');
        number.parse().ok()
    };
    let numbers: Vec<u64> = entries.filter_map(number).collect();
    assert_eq!(numbers, [0, 12, 1, 6, 3, 2, 7, 11, 4, 5, 8, 9, 15, 10]);
    assert_eq!(numbers.len(), 1 + siftpebble::Refusal::ALL.len());
}

/// The crate's limits by their names.
macro_rules! limits {
    ($($name:ident)*) => {
        [$((stringify!($name), siftpebble::$name as u64)),*]
    };
}

const LIMITS: [(&str, u64); 10] = limits![
    MAX_KEY PAGES PLACES MAX_WIDTH MAX_ROWS MAX_CODE CONTEXTS TABLE_BYTES
    MAX_ROW_BYTES MAX_BAND_BYTES
];

/// The names that follow these words at the start of a line.
fn names<'a>(text: &'a str, words: &'a str) -> Vec<&'a str> {
    let behind = text.lines().filter_map(|line| line.strip_prefix(words));
    let name = |rest: &'a str| {
        rest.split(|c: char| !c.is_alphanumeric() && c != '_')
            .next()
    };
    behind.filter_map(name).collect()
}

/// No limit is in one of the two alone, and they stand in the same order.
#[test]
fn the_header_and_the_crate_have_the_same_limits() {
    let here: Vec<&str> = LIMITS.iter().map(|limit| limit.0).collect();
    let header = names(HEADER, "#define SIFTPEBBLE_");
    assert_eq!(header[0], "H", "the guard of the header");
    assert_eq!(header[1..], here);
    assert_eq!(names(include_str!("../src/limits.rs"), "pub const "), here);
}

/// The compilers find all of these true of the header.
fn assert_of_header(name: &str, claims: &[String]) {
    let line = |claim: &String| format!("static_assert({claim}, \"{claim}\");\n");
    let lines: String = claims.iter().map(line).collect();
    let source = own_file(name);
    let text = format!("#include \"siftpebble.h\"\n#include <assert.h>\n{lines}");
    std::fs::write(&source, text).expect("a file");
    for language in [C, CPP] {
        let mut compiler = language.compiler(&source);
        let status = compiler.arg("-fsyntax-only").status().expect("a compiler");
        assert!(status.success(), "{}", language.name);
    }
}

/// Each of the header's limits is equal to the crate's.
#[test]
fn the_limits_are_equal() {
    let equal = |(name, value)| format!("SIFTPEBBLE_{name} == {value}");
    assert_of_header("limits.c", &LIMITS.map(equal));
}

/// The fields of the crate's answer and their places. All of them are named,
/// and each is a u64.
macro_rules! fields {
    ($($name:ident)*) => {{
        let _all = |Answer { $($name),* }: Answer| -> [u64; 4] { [$($name),*] };
        [$((stringify!($name), offset_of!(Answer, $name))),*]
    }};
}

/// The header's answer has the crate's fields, each at its place, and no more.
#[test]
fn the_answers_are_equal() {
    let (whole, each) = (size_of::<Answer>(), size_of::<u64>());
    let mut claims = vec![format!("sizeof(struct siftpebble_answer) == {whole}")];
    for (name, place) in fields![number length shifts revisits] {
        claims.push(format!(
            "offsetof(struct siftpebble_answer, {name}) == {place}"
        ));
        claims.push(format!(
            "sizeof(((struct siftpebble_answer *)0)->{name}) == {each}"
        ));
    }
    assert_of_header("answer.c", &claims);
}
