//! Pages come back as they went in, in every form that PBM has, and the packed
//! file is the one that the model of the rules makes.

mod common;

use common::{directory, packed, sift, Sheet};
use siftpebble::{CONTEXTS, MAX_KEY, MAX_ROWS, MAX_WIDTH};
use siftpebble_model::random::Random;
use siftpebble_model::Key;
use std::path::Path;

const KEY: Key = Key {
    school: 1,
    class: 1,
};

/// Widths at the edges of bytes and of what is lawful, and others.
fn width(random: &mut Random) -> usize {
    let any = random.between(1, 300);
    let (wide, widest) = (MAX_WIDTH - 1, MAX_WIDTH);
    random.pick(&[1, 2, 7, 8, 9, 63, 64, 65, wide, widest, any, any, any])
}

fn height(random: &mut Random) -> usize {
    let any = random.between(1, 150);
    let (less, more) = (MAX_ROWS - 1, MAX_ROWS + 1);
    random.pick(&[1, 2, less, MAX_ROWS, more, 2 * MAX_ROWS, any, any])
}

fn save(dir: &Path, name: &str, bytes: &[u8]) {
    std::fs::write(dir.join(name), bytes).expect("a file");
}

/// Packs these pages with random numbers, and answers them and the file.
fn pack(dir: &Path, random: &mut Random, names: &[&str]) -> (Key, usize, Vec<u8>) {
    let key = Key {
        school: random.pick(&[1, 2, MAX_KEY]),
        class: random.pick(&[1, 5, MAX_KEY]),
    };
    let rows = random.pick(&[1, 2, 17, MAX_ROWS - 1, MAX_ROWS]);
    let school = key.school.to_string();
    let (class, rows_word) = (format!("--class={}", key.class), rows.to_string());
    let options = ["pack", "--school", &school, &class, "--rows", &rows_word];
    let words = [&options[..], names, &["-o", "file", "--force"]].concat();
    sift(dir, &words, b"").fine();
    let file = std::fs::read(dir.join("file")).expect("a file");
    (key, rows, file)
}

#[test]
fn many_pages_of_many_kinds() {
    let dir = directory("many");
    let mut random = Random::new(1);
    for turn in 0..60 {
        let count = random.between(1, 4);
        let names = &["p1.pbm", "p2.pbm", "p3.pbm", "p4.pbm"][..count];
        let sheets: Vec<_> = (0..count)
            .map(|_| {
                let (width, height) = (width(&mut random), height(&mut random));
                Sheet::random(&mut random, width, height)
            })
            .collect();
        let pages: Vec<_> = names.iter().copied().zip(&sheets).collect();
        for (name, sheet) in &pages {
            save(&dir, name, &sheet.p4());
        }
        let (key, rows, file) = pack(&dir, &mut random, names);
        assert!(file == packed(key, rows, &pages).file, "turn {turn}");

        let out = format!("out{turn}");
        sift(&dir, &["unpack", "file", "-o", &out], b"").fine();
        assert_eq!(common::names(&dir.join(&out)), names);
        for (name, sheet) in &pages {
            let back = std::fs::read(dir.join(&out).join(name)).expect("a page");
            assert!(back == sheet.p4(), "turn {turn}, {name}");
        }
    }
}

/// Packs what comes in and unpacks it, over pipes alone.
fn through(dir: &Path, pbm: &[u8]) -> Vec<u8> {
    let file = sift(dir, &["pack", "-", "-o", "-"], pbm).fine().stdout;
    sift(dir, &["unpack", "-", "-o", "-"], &file).fine().stdout
}

#[test]
fn pipes_and_several_pictures_in_one() {
    let dir = directory("pipes");
    let mut random = Random::new(2);
    for _ in 0..20 {
        let count = random.between(1, 5);
        let sheets: Vec<_> = (0..count)
            .map(|_| {
                let (width, height) = (random.between(1, 90), random.between(1, 90));
                Sheet::random(&mut random, width, height)
            })
            .collect();
        let all: Vec<u8> = sheets.iter().flat_map(Sheet::p4).collect();
        assert!(through(&dir, &all) == all);
        // P1 and P4 mixed, with white space between the pictures
        let mixed = sheets.iter().flat_map(|sheet| match random.below(2) {
            0 => [sheet.p4(), b" \n".to_vec()].concat(),
            _ => [sheet.p1(|| ""), b"\n\n".to_vec()].concat(),
        });
        let mixed: Vec<u8> = mixed.collect();
        assert!(through(&dir, &mixed) == all);
    }
    assert!(common::names(&dir).is_empty());
}

#[test]
fn the_pictures_of_one_file_are_numbered() {
    let dir = directory("numbered");
    let sheet = Sheet::random(&mut Random::new(3), 9, 3);
    let two = [sheet.p4(), sheet.p4()].concat();
    save(&dir, "sheet.one.pbm", &two);
    save(&dir, "bare", &two);
    save(&dir, ".hidden", &two);
    let words = ["pack", "sheet.one.pbm", "bare", ".hidden", "-", "-o", "f"];
    sift(&dir, &words, &two).fine();
    sift(&dir, &["unpack", "f", "-o", "out"], b"").fine();
    let names = common::names(&dir.join("out"));
    let expected =
        ".hidden .hidden-2 bare bare-2 page-2.pbm page.pbm sheet.one-2.pbm sheet.one.pbm";
    assert_eq!(names.join(" "), expected);
}

#[test]
fn plain_pictures_both_ways() {
    let dir = directory("plain");
    let mut random = Random::new(4);
    for _ in 0..30 {
        let (width, height) = (random.between(1, 150), random.between(1, 20));
        let sheet = Sheet::random(&mut random, width, height);
        let spaces = ["", " ", "\n", "\r\n\t", "#\n", "# 0 1 0\r"];
        let plain = sheet.p1(|| random.pick(&spaces));
        assert!(through(&dir, &plain) == sheet.p4());

        let file = sift(&dir, &["pack", "-", "-o", "-"], &sheet.p4()).fine();
        let words = ["unpack", "--plain", "-", "-o", "-"];
        let back = sift(&dir, &words, &file.stdout).fine();
        let lines: Vec<_> = back.text().lines().collect();
        assert_eq!(lines[..2], ["P1", &format!("{width} {height}")]);
        assert!(lines.iter().all(|line| line.len() <= 70));
        assert_eq!(lines[2..].concat().len(), width * height);
        assert!(through(&dir, &back.stdout) == sheet.p4());
    }
}

#[test]
fn headers_with_comments_and_white_space() {
    let dir = directory("headers");
    let page = b"P4\n9 2\n\xA5\x80\x3C\x00".to_vec();
    let raster = &page[7..];
    let headers = [
        "P4 9 2 ",
        "P4\t9\r2\r",
        "P4\n# made by hand\n9 2\n",
        "P4#\n9#width\n2#height\n",
        "P4 # one\n# two\n\n  009   # 77\n 0002\t",
    ];
    for header in headers {
        let pbm = [header.as_bytes(), raster].concat();
        assert_eq!(through(&dir, &pbm), page, "{header:?}");
    }
    // one space ends the header: what follows is a pel byte, not a comment
    let hash = b"P4 8 2 # ";
    assert_eq!(through(&dir, hash), b"P4\n8 2\n# ");
    let spaces = b"P4 8 2 \n\n";
    assert_eq!(through(&dir, spaces), b"P4\n8 2\n\n\n");
}

#[test]
fn padding_bits_may_be_anything() {
    let dir = directory("padding");
    let mut random = Random::new(5);
    for width in 1..=17 {
        let sheet = Sheet::random(&mut random, width, 4);
        let mut dirty = sheet.p4();
        let start = dirty.len() - sheet.rows.len();
        let padding = sheet.row_bytes() * 8 - width;
        for row in dirty[start..].chunks_mut(sheet.row_bytes()) {
            *row.last_mut().expect("a byte") |= ((1_u32 << padding) - 1) as u8;
        }
        assert_eq!(dirty == sheet.p4(), width % 8 == 0);
        assert!(through(&dir, &dirty) == sheet.p4(), "width {width}");
    }
}

#[test]
fn the_highest_page() {
    let dir = directory("highest");
    let sheet = Sheet::random(&mut Random::new(6), 3, 65_535);
    assert!(through(&dir, &sheet.p4()) == sheet.p4());
}

/// Request E2: the code of this row would end in FF, so a 00 follows.
#[test]
fn a_last_ff_has_its_00() {
    let dir = directory("last_ff");
    let sheet = Sheet {
        width: 13,
        height: 1,
        rows: vec![0xE6, 0x60],
    };
    let words = ["pack", "-", "-o", "-"];
    let file = sift(&dir, &words, &sheet.p4()).fine().stdout;
    assert!(file.ends_with(b"\x15\x6E\xFF\x00END\n"));
    assert_eq!(file, packed(KEY, 64, &[("page.pbm", &sheet)]).file);
    let shown = sift(&dir, &["show", "--bands", "-"], &file).fine();
    let line = "band 1: rows 1, code bytes 4, S 12, revisits 12\n";
    assert!(shown.text().contains(line));
    let back = sift(&dir, &["unpack", "-", "-o", "-"], &file).fine();
    assert_eq!(back.stdout, sheet.p4());
}

fn saving(raw: usize, code: usize) -> String {
    let (raw, code) = (raw as f64, code as f64);
    format!("{:.1}%", 100.0 * (raw - code) / raw)
}

#[test]
fn show_tells_bytes_and_counts() {
    let dir = directory("show");
    let mut random = Random::new(7);
    let first = Sheet::random(&mut random, 100, 70);
    let second = Sheet::random(&mut random, 20, 5);
    let model = packed(KEY, 64, &[("a.pbm", &first), ("b b.pbm", &second)]);
    let mut expected = vec!["page pels bands raw bytes code bytes S revisits saving name".into()];
    let mut totals = (0, 0, 0);
    let facts = ["1 100 x 70 2 910", "2 20 x 5 1 15"];
    for ((start, name), bands) in facts.iter().zip(["a.pbm", "b b.pbm"]).zip(&model.bands) {
        let code: usize = bands.iter().map(|band| band.1.len()).sum();
        let shifts: u64 = bands.iter().map(|band| band.2.shifts).sum();
        let revisits: u64 = bands.iter().map(|band| band.2.revisits).sum();
        assert_ne!(shifts, revisits, "one column is not the other");
        let raw = start.rsplit(' ').next().expect("a word");
        let saving = saving(raw.parse().expect("a number"), code);
        expected.push(format!(
            "{start} {code} {shifts} {revisits} {saving} {name}"
        ));
        for (index, (rows, code, answer)) in bands.iter().enumerate() {
            let (band, bytes) = (index + 1, code.len());
            let counts = format!("S {}, revisits {}", answer.shifts, answer.revisits);
            expected.push(format!(
                "band {band}: rows {rows}, code bytes {bytes}, {counts}"
            ));
        }
        totals = (totals.0 + code, totals.1 + shifts, totals.2 + revisits);
    }
    let (code, shifts, revisits) = totals;
    let saving = saving(925, code);
    expected.push(format!(
        "total 2 pages 3 925 {code} {shifts} {revisits} {saving}"
    ));
    let bytes = model.file.len();
    expected.push(format!("The file has {bytes} bytes, its frame among them."));
    let ran = sift(&dir, &["show", "--bands", "-"], &model.file).fine();
    let squeezed = |line: &str| line.split_whitespace().collect::<Vec<_>>().join(" ");
    let lines: Vec<_> = ran.text().lines().skip(1).map(squeezed).collect();
    assert_eq!(lines, expected);
}

/// The numbers of the pages and of the total end where the names of their
/// columns do.
#[test]
fn show_has_columns() {
    let dir = directory("columns");
    let sheet = Sheet::random(&mut Random::new(9), 300, 200);
    let model = packed(KEY, 64, &[("a", &sheet), ("b", &sheet)]);
    let ran = sift(&dir, &["show", "-"], &model.file).fine();
    let lines: Vec<_> = ran.text().lines().skip(1).collect();
    let (head, rows) = (lines[0], &lines[1..4]);
    for name in [" bands", " raw bytes", " code bytes", " S", " revisits"] {
        let end = head.find(name).expect("a column") + name.len();
        for row in rows.iter().map(|row| row.as_bytes()) {
            assert!(row[end - 1].is_ascii_digit() && row[end] == b' ', "{name}");
        }
    }
}

#[test]
fn look_is_the_learned_table() {
    let dir = directory("look");
    let mut random = Random::new(8);
    let first = Sheet::random(&mut random, 200, 100);
    let second = Sheet::random(&mut random, 50, 64);
    let model = packed(KEY, 64, &[("a", &first), ("b", &second)]);
    assert!(model.table.iter().any(|&entry| entry != 0));
    let ran = sift(&dir, &["look", "-"], &model.file).fine();
    let lines: Vec<_> = ran.text().lines().skip(2).collect();
    assert_eq!(lines.len(), CONTEXTS);
    for (context, line) in lines.into_iter().enumerate() {
        let words: Vec<_> = line.split_whitespace().collect();
        let black = |bits: &[usize]| -> String {
            let mark = |&bit| ['.', '#'][context >> bit & 1];
            bits.iter().map(mark).collect()
        };
        let (index, sense) = (model.table[context] / 2, model.table[context] % 2);
        let (above, before) = (black(&[6, 5, 4, 3, 2]), black(&[1, 0]));
        let expected = format!("{context} {above} {before} {index} {sense}");
        assert_eq!(words.join(" "), expected);
    }
}
