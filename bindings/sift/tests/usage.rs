//! The command line: help, version, and what is wrong in one.

mod common;

use common::{directory, names, sift};
use siftpebble::{MAX_KEY, MAX_ROWS};

#[test]
fn help_and_version() {
    let dir = directory("help");
    let general = sift(&dir, &["--help"], b"").fine();
    for job in ["pack", "unpack", "show", "look"] {
        assert!(general.text().contains(&format!("sift {job} ")));
        for help in ["--help", "-h"] {
            let ran = sift(&dir, &[job, help], b"").fine();
            assert!(ran.text().starts_with(&format!("sift {job} ")));
        }
        // help goes before every fault after it
        sift(&dir, &[job, "--help", "--nonsense"], b"").fine();
    }
    for words in [["-h"], ["help"]] {
        assert_eq!(sift(&dir, &words, b"").fine().text(), general.text());
    }
    let version = format!("sift {}\n", env!("CARGO_PKG_VERSION"));
    for words in [["--version"], ["-V"]] {
        assert_eq!(sift(&dir, &words, b"").fine().text(), version);
    }
}

/// Wrong command lines, and what is said of them.
const CASES: &[(&[&str], &str)] = &[
    (&[], "nothing to do; see sift --help"),
    (&["fold"], "there is no job \"fold\"; see sift --help"),
    (&["pack"], "pack: no page is named"),
    (&["pack", "a.pbm"], "pack: no output is named: -o FILE"),
    (&["pack", "a.pbm", "-o"], "pack: no value follows -o"),
    (
        &["pack", "a.pbm", "-o", ""],
        "pack: the name after -o is empty",
    ),
    (&["pack", "-o", "f"], "pack: no page is named"),
    (
        &["pack", "-", "-", "-o", "f"],
        "pack: standard input can be read once only",
    ),
    (
        &["pack", "a.pbm", "-o", "f", "-o", "g"],
        "pack: -o is given twice",
    ),
    (
        &["pack", "a.pbm", "-o", "f", "--force=1"],
        "pack: --force takes no value",
    ),
    (
        &["pack", "a.pbm", "-o", "f", "--plain"],
        "pack: there is no option --plain",
    ),
    (&["pack", "a.pbm", "-of"], "pack: there is no option -of"),
    (&["unpack"], "unpack: no file is named"),
    (&["unpack", "f"], "unpack: no output is named: -o DIR"),
    (
        &["unpack", "f", "g", "-o", "d"],
        "unpack: more than one file is named",
    ),
    (
        &["unpack", "f", "-o", "d", "--rows", "3"],
        "unpack: there is no option --rows",
    ),
    (&["show"], "show: no file is named"),
    (&["show", "f", "-o", "d"], "show: there is no option -o"),
    (&["look"], "look: no file is named"),
    (&["look", "f", "g"], "look: more than one file is named"),
    (
        &["look", "f", "--bands"],
        "look: there is no option --bands",
    ),
];

#[test]
fn wrong_command_lines() {
    let dir = directory("usage");
    std::fs::write(dir.join("a.pbm"), b"P4 1 1 \0").expect("a file");
    for (words, said) in CASES {
        let ran = sift(&dir, words, b"");
        let hint = said.split_once(':').map(|(job, _)| job);
        let line = match hint.filter(|job| words.first() == Some(job)) {
            Some(job) => format!("sift: {said}; see sift {job} --help"),
            None => format!("sift: {said}"),
        };
        let ran = ran.refused(2, &[&line]);
        assert!(ran.stdout.is_empty());
    }
    assert_eq!(names(&dir), ["a.pbm"]);
}

#[test]
fn numbers_have_limits() {
    let dir = directory("limits");
    std::fs::write(dir.join("a.pbm"), b"P4 1 1 \0").expect("a file");
    for (option, most) in [
        ("--school", MAX_KEY),
        ("--class", MAX_KEY),
        ("--rows", MAX_ROWS as u64),
    ] {
        let line =
            format!("sift: pack: {option} is a number from 1 to {most}; see sift pack --help");
        let over = (most + 1).to_string();
        let huge = "99999999999999999999999";
        for value in ["0", "-1", "+5", "", "x", "1.0", &over, huge] {
            let words = ["pack", "a.pbm", "-o", "f", option, value];
            sift(&dir, &words, b"").refused(2, &[&line]);
        }
        for value in ["1", &most.to_string()] {
            let joined = format!("{option}={value}");
            let words = ["pack", "a.pbm", "-o", "-", &joined];
            sift(&dir, &words, b"").fine();
        }
    }
    assert_eq!(names(&dir), ["a.pbm"]);
}

#[test]
fn two_dashes_end_the_options() {
    let dir = directory("dashes");
    std::fs::write(dir.join("--force"), b"P4 1 1 \0").expect("a file");
    let said = "sift: --force: page 1: a page cannot have the name \"--force\": \
                it starts with '-', and would be taken for an option";
    let words = ["pack", "-o", "f", "--", "--force"];
    sift(&dir, &words, b"").refused(1, &[said]);
    assert_eq!(names(&dir), ["--force"]);
}
