//! docs/FORMAT.md: its worked example is what the program writes, and its
//! limits are the library's.

mod common;

use common::{crc32, directory, sift};
use siftpebble::{MAX_CODE, MAX_KEY, MAX_ROWS, MAX_ROW_BYTES, MAX_WIDTH};

const DOCUMENT: &str = include_str!("../../../docs/FORMAT.md");

/// The text between the fences of the one block of this language.
fn block(language: &str) -> &'static str {
    let fence = format!("```{language}\n");
    let mut parts = DOCUMENT.split(&fence);
    let block = parts.nth(1).expect("a block");
    assert!(parts.next().is_none(), "one block");
    block.split("```").next().expect("a part")
}

/// The bytes of a hex line; two spaces end them.
fn bytes(line: &str) -> Vec<u8> {
    let hex = line.split("  ").next().expect("a part");
    let byte = |pair| u8::from_str_radix(pair, 16).expect("a byte");
    hex.split(' ').map(byte).collect()
}

#[test]
fn the_worked_example() {
    let dir = directory("example");
    let words: Vec<_> = block("sh").split_whitespace().collect();
    assert_eq!(words[0], "sift");
    std::fs::write(dir.join("tiny.pbm"), block("pbm")).expect("a file");
    sift(&dir, &words[1..], b"").fine();
    let written = std::fs::read(dir.join("tiny.sift")).expect("a file");
    let documented: Vec<_> = block("hex").lines().flat_map(bytes).collect();
    assert_eq!(written, documented);
    let count = format!("The {} bytes of `tiny.sift`", written.len());
    assert!(DOCUMENT.contains(&count));

    let shown = sift(&dir, &["show", "--bands", "tiny.sift"], b"").fine();
    for line in [
        "band 1: rows 2, code bytes 4, S 16, revisits 12\n",
        "band 2: rows 1, code bytes 3, S 8, revisits 8\n",
    ] {
        assert!(shown.text().contains(line), "{line}");
    }
}

/// A number as the document writes it, with a comma before three digits.
fn with_commas(number: usize) -> String {
    match number {
        0..=999 => number.to_string(),
        _ => format!("{},{:03}", with_commas(number / 1000), number % 1000),
    }
}

#[test]
fn the_limits_of_the_document() {
    for (what, most, end) in [
        ("rows of a band", MAX_ROWS, " |"),
        ("school number", MAX_KEY as usize, " |"),
        ("class number", MAX_KEY as usize, " |"),
        ("width in pels", MAX_WIDTH, " |"),
        ("bytes of each band's code", MAX_CODE, " each |"),
    ] {
        let row = format!("| {what} | 1 to {}{end}", with_commas(most));
        assert!(DOCUMENT.contains(&row), "{row}");
    }
    let page = format!("at most 65,535 × {} bytes", with_commas(MAX_ROW_BYTES));
    assert!(DOCUMENT.contains(&page), "{page}");
}

#[test]
fn the_checksum_of_the_document() {
    assert!(DOCUMENT.contains("of `123456789` it is CBF43926"));
    assert_eq!(crc32(b"123456789"), 0xCBF4_3926);
}
