//! Pages and files that are refused, with what is said of them.

mod common;

use common::{crc32, directory, header, names, one_pel, record, sift, summed};
use siftpebble::{MAX_CODE, MAX_ROWS, MAX_ROW_BYTES, MAX_WIDTH};
use std::path::Path;

/// The most pages of a file, and the most rows of a page.
const MOST: usize = 65_535;

/// Pages that cannot be packed, and what is said after `FILE: page `.
const PAGES: &[(&[u8], &str)] = &[
    (b"", "1: there is no picture in it"),
    (b" \n", "1: there is no picture in it"),
    (b"PK", "1: it is no PBM picture: no P1 or P4 stands here"),
    (b"P", "1: it is no PBM picture: no P1 or P4 stands here"),
    (
        b"P5 1 1 255 x",
        "1: it is grey or coloured; only PBM is read, P1 and P4",
    ),
    (b"P4", "1: no white space follows P1 or P4"),
    (b"P48 1 \0", "1: no white space follows P1 or P4"),
    (
        b"P4 ",
        "1: the width is not a number with white space after it",
    ),
    (
        b"P4 -8 1 \0",
        "1: the width is not a number with white space after it",
    ),
    (
        b"P4 8x 1 \0",
        "1: the width is not a number with white space after it",
    ),
    (
        b"P4 8",
        "1: the width is not a number with white space after it",
    ),
    (
        b"P4 8 #",
        "1: the height is not a number with white space after it",
    ),
    (
        b"P4 8 1",
        "1: the height is not a number with white space after it",
    ),
    (b"P4 0 1 ", "1: it is 0 x 1 pels: there is no pel"),
    (b"P1 1 0 ", "1: it is 1 x 0 pels: there is no pel"),
    (b"P4 9 2 \0\0\0", "1: its 2 rows are not all there"),
    (b"P1 3 1 0 #111\n1", "1: its 1 rows are not all there"),
    (b"P1 3 1 012", "1: a pel is neither 0 nor 1"),
    (
        b"P4 8 1 \0P1 1 1 1x",
        "3: it is no PBM picture: no P1 or P4 stands here",
    ),
];

/// A page cannot be packed, by its name after one that can be, or by standard
/// input.
#[track_caller]
fn not_packed(dir: &Path, pbm: &[u8], said: &str) {
    std::fs::write(dir.join("good.pbm"), b"P4 8 1 \0").expect("a file");
    std::fs::write(dir.join("a.pbm"), pbm).expect("a file");
    let line = format!("sift: a.pbm: page {said}");
    for output in ["f", "-"] {
        let words = ["pack", "good.pbm", "a.pbm", "-o", output];
        let ran = sift(dir, &words, b"").refused(1, &[&line]);
        assert!(ran.stdout.is_empty());
    }
    let line = format!("sift: standard input: page {said}");
    sift(dir, &["pack", "-", "-o", "f"], pbm).refused(1, &[&line]);
    assert_eq!(names(dir), ["a.pbm", "good.pbm"]);
}

#[test]
fn pages_that_cannot_be_packed() {
    let dir = directory("pages");
    for (pbm, said) in PAGES {
        not_packed(&dir, pbm, said);
    }
}

#[test]
fn pages_too_wide_or_too_high() {
    let dir = directory("too_large");
    let wide = |width: usize| {
        format!(
            "it is {width} pels wide, and the widest page is {MAX_WIDTH}: \
             make it smaller, or cut it into strips"
        )
    };
    let high = |height: usize| {
        format!("it is {height} rows high, and the highest page is {MOST}: cut it into pages")
    };
    let short = format!("its {MOST} rows are not all there");
    let (over, far) = (MAX_WIDTH + 1, 2 * MAX_WIDTH);
    let cases = [
        (format!("P4 {over} 1 "), 1, wide(over)),
        (format!("P4 8 1 \0P4 {far} 1 "), 2, wide(far)),
        (format!("P1 1 {} ", MOST + 1), 1, high(MOST + 1)),
        (
            format!("P4 {MAX_WIDTH} 99999999999999999999999 "),
            1,
            high(usize::MAX),
        ),
        (format!("P4 {MAX_WIDTH} {MOST} "), 1, short.clone()),
        (format!("P1 {MAX_WIDTH} {MOST} 1"), 1, short),
    ];
    for (pbm, page, said) in cases {
        not_packed(&dir, pbm.as_bytes(), &format!("{page}: {said}"));
    }
}

#[test]
fn the_widest_page_is_packed() {
    let dir = directory("widest");
    let header = format!("P4 {MAX_WIDTH} 1 ");
    let pbm = [header.as_bytes(), &[0x5A; MAX_ROW_BYTES]].concat();
    sift(&dir, &["pack", "-", "-o", "f"], &pbm).fine();
}

#[test]
fn two_pages_of_one_name() {
    let dir = directory("one_name");
    std::fs::create_dir(dir.join("b")).expect("a directory");
    for path in ["a.pbm", "b/a.pbm", "a-2.pbm"] {
        std::fs::write(dir.join(path), b"P4 1 1 \0").expect("a file");
    }
    let said =
        |name| format!("another page has the name {name} already: rename one, or pack them apart");
    let line = format!("sift: b/a.pbm: page 1: {}", said("a.pbm"));
    let words = ["pack", "a.pbm", "b/a.pbm", "-o", "f"];
    sift(&dir, &words, b"").refused(1, &[&line]);
    // the number of a second picture makes a name too
    std::fs::write(dir.join("a.pbm"), b"P4 1 1 \0P4 1 1 \0").expect("a file");
    let line = format!("sift: a-2.pbm: page 1: {}", said("a-2.pbm"));
    let words = ["pack", "a.pbm", "a-2.pbm", "-o", "f"];
    sift(&dir, &words, b"").refused(1, &[&line]);
    assert!(!dir.join("f").exists());
}

#[test]
fn names_of_files_that_no_page_can_have() {
    let dir = directory("file_names");
    let two = b"P4 1 1 \0P4 1 1 \0";
    let long = "x".repeat(255);
    std::fs::write(dir.join(&long), two).expect("a file");
    let words = ["pack", &long, "-o", "f"];
    let line = format!(
        "sift: {long}: page 2: a page cannot have the name \"{long}-2\": \
         it has more than 255 bytes"
    );
    sift(&dir, &words, b"").refused(1, &[&line]);
    std::fs::write(dir.join("a\\b"), two).expect("a file");
    let line = "sift: a\\b: page 1: a page cannot have the name \"a\\\\b\": \
                it has a '/' or a '\\', and would leave the directory";
    sift(&dir, &["pack", "a\\b", "-o", "f"], b"").refused(1, &[line]);
    assert_eq!(names(&dir), ["a\\b", &long]);
}

#[cfg(target_os = "linux")]
#[test]
fn a_name_that_is_no_text() {
    use std::os::unix::ffi::OsStrExt;
    let dir = directory("no_text");
    let name = std::ffi::OsStr::from_bytes(b"\xFF.pbm");
    std::fs::write(dir.join(name), b"P4 1 1 \0").expect("a file");
    let output = std::process::Command::new(env!("CARGO_BIN_EXE_sift"))
        .current_dir(&dir)
        .args(["pack", "-o", "f"])
        .arg(name)
        .output()
        .expect("the program");
    assert_eq!(output.status.code(), Some(1));
    let said = String::from_utf8(output.stderr).expect("text");
    assert!(said.ends_with(": page 1: the name \"\\xFF.pbm\" is not UTF-8\n"));
    assert!(!dir.join("f").exists());
}

#[test]
fn as_many_pages_as_a_file_has() {
    let dir = directory("pages_at_most");
    let pages = b"P4\n1 1\n\x80".repeat(MOST);
    let file = sift(&dir, &["pack", "-", "-o", "-"], &pages).fine();
    let back = sift(&dir, &["unpack", "-", "-o", "-"], &file.stdout).fine();
    assert!(back.stdout == pages);
    let more = [&pages[..], b"P1 1 1 1"].concat();
    let over = MOST + 1;
    let line = format!("sift: standard input: page {over}: a file has at most {MOST} pages");
    sift(&dir, &["pack", "-", "-o", "f"], &more).refused(1, &[&line]);
    assert!(names(&dir).is_empty());
}

#[test]
fn inputs_that_cannot_be_read() {
    let dir = directory("inputs");
    for words in [
        &["pack", "none.pbm", "-o", "f"][..],
        &["unpack", "none.pbm", "-o", "d"],
        &["show", "none.pbm"],
        &["look", "none.pbm"],
    ] {
        let ran = sift(&dir, words, b"");
        assert_eq!(ran.status, 1);
        assert!(ran.stderr.starts_with("sift: none.pbm: "), "{}", ran.stderr);
    }
    let ran = sift(&dir, &["pack", ".", "-o", "f"], b"");
    assert_eq!(ran.status, 1);
    assert!(ran.stderr.starts_with("sift: .: "), "{}", ran.stderr);
    assert!(names(&dir).is_empty());
}

/// Every job that reads a packed file refuses this one with these lines; what
/// unpack and show deliver before that is answered.
#[track_caller]
fn refused(test: &str, file: &[u8], lines: &[&str]) -> Vec<u8> {
    let dir = directory(test);
    std::fs::write(dir.join("f"), file).expect("a file");
    let lines: Vec<_> = lines
        .iter()
        .map(|line| format!("sift: f: {line}"))
        .collect();
    let lines: Vec<_> = lines.iter().map(String::as_str).collect();
    sift(&dir, &["show", "f"], b"").refused(1, &lines);
    let looked = sift(&dir, &["look", "f"], b"").refused(1, &lines);
    assert!(looked.stdout.is_empty());
    sift(&dir, &["unpack", "f", "-o", "d"], b"").refused(1, &lines);
    let ran = sift(&dir, &["unpack", "f", "-o", "-"], b"").refused(1, &lines);
    // a directory is made for a page only
    assert_eq!(ran.stdout.is_empty(), !dir.join("d").exists());
    ran.stdout
}

/// A file of one page, as another version of the format would have it.
fn of_version(version: u8) -> Vec<u8> {
    let file = one_pel(b"a");
    let mut header = file[..12].to_vec();
    header[4] = version;
    [&summed(header), &file[16..]].concat()
}

/// Every job names the old version, even where nothing but that is there.
#[test]
fn files_of_the_old_version() {
    let said = "it is a packed file of the old version 1, whose codes may end in FF: \
                unpack it with an older sift, and pack it again with this one";
    let old = of_version(1);
    for file in [&old[..], &old[..5], b"SIFT\x01 and noise"] {
        assert!(refused("old", file, &[said]).is_empty());
    }
    let dir = directory("of_now");
    sift(&dir, &["show", "-"], &of_version(2)).fine();
}

#[test]
fn headers_that_are_refused() {
    let no_file = "it is no packed file: it does not start with SIFT";
    refused("empty", b"", &[no_file]);
    refused("other", b"P4 1 1 \0", &[no_file]);
    for version in [0, 3, 255] {
        let said = format!("its format is version {version}, and 2 is known");
        refused("version", &of_version(version), &[&said]);
    }
    let ends = "the file ends within its header";
    refused("short", b"SIFT", &[ends]);
    let limits = "the header has a number out of its limits";
    let most = MAX_ROWS as u8;
    for (rows, school, class, pages) in [
        (0, 1, 1, 1),
        (most + 1, 1, 1, 1),
        (most, 0, 1, 1),
        (most, 1, 0, 1),
        (most, 1, 1, 0),
    ] {
        let file = [&header(rows, school, class, pages)[..], b"END\n"].concat();
        refused("header", &file, &[limits]);
    }
}

#[test]
fn numbers_of_a_page_out_of_their_limits() {
    let limits = "page 1: the page record has a number out of its limits";
    let (wide, rows, long) = (MAX_WIDTH as u16, MAX_ROWS as u8, MAX_CODE as u16);
    for (width, height, lengths) in [
        (0, 1, &[2][..]),
        (wide + 1, 1, &[2]),
        (1, 0, &[]),
        (1, 1, &[0]),
        (1, 1, &[long + 1]),
        (1, u16::from(rows) + 1, &[2, 0]),
    ] {
        let record = record(width, height, b"a", lengths, 0);
        let codes = vec![0; lengths.iter().map(|&length| usize::from(length)).sum()];
        let file = [&header(rows, 1, 1, 1)[..], &record, &codes, b"END\n"].concat();
        assert!(refused("numbers", &file, &[limits]).is_empty());
    }
}

#[test]
fn names_that_are_kept() {
    let long = [b'x'; 255];
    for name in [&b"a"[..], b"...", b"a b.pbm", "\u{e9}".as_bytes(), &long] {
        let dir = directory("good_name");
        let ran = sift(&dir, &["unpack", "-", "-o", "d"], &one_pel(name));
        ran.fine();
        let name = std::str::from_utf8(name).expect("text");
        assert_eq!(names(&dir.join("d")), [name]);
        assert_eq!(names(&dir), ["d"]);
    }
}

#[test]
fn names_that_are_refused() {
    for (name, why) in [
        ("", "it is empty"),
        (".", "it is a directory's"),
        ("..", "it is a directory's"),
        ("-o", "it starts with '-', and would be taken for an option"),
        (
            "../a",
            "it has a '/' or a '\\', and would leave the directory",
        ),
        (
            "/a",
            "it has a '/' or a '\\', and would leave the directory",
        ),
        (
            "..\\a",
            "it has a '/' or a '\\', and would leave the directory",
        ),
        ("a\0", "it has a control character"),
        ("a\n", "it has a control character"),
        ("\u{1B}[2J", "it has a control character"),
        ("\u{9B}2J", "it has a control character"),
    ] {
        let line = format!("page 1: a page cannot have the name {name:?}: {why}");
        assert!(refused("name", &one_pel(name.as_bytes()), &[&line]).is_empty());
    }
    let line = "page 1: the page's name is not UTF-8";
    assert!(refused("name", &one_pel(b"\xFF"), &[line]).is_empty());
}

#[test]
fn a_name_twice_in_a_file() {
    let first = record(1, 1, b"a", &[2], crc32(&[0]));
    let page = [&first[..], &[0xAC, 0x10]].concat();
    let file = [&header(64, 1, 1, 2)[..], &page, &page, b"END\n"].concat();
    let line = "page 2 (a): an earlier page has that name";
    assert_eq!(refused("twice", &file, &[line]), b"P4\n1 1\n\0");
}

#[test]
fn trailing_bytes_and_a_wrong_end() {
    let whole = one_pel(b"a");
    for (more, said) in [
        (&b"\n"[..], "bytes follow the end mark"),
        (&whole, "bytes follow the end mark"),
    ] {
        let file = [&whole, more].concat();
        assert_eq!(refused("trailing", &file, &[said]), b"P4\n1 1\n\0");
    }
    let mut wrong = whole.clone();
    *wrong.last_mut().expect("a byte") = b' ';
    let said = "there is no end mark after the last page";
    assert_eq!(refused("wrong_end", &wrong, &[said]), b"P4\n1 1\n\0");
}
