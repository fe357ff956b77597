//! Damaged files: every cut, every flipped bit, and garbage. No run crashes,
//! every one ends with status 1, and what is delivered is the right pages from
//! the first one on.

mod common;

use common::{crc32, directory, header, packed, record, sift, Modelled, Ran, Sheet};
use siftpebble::{MAX_CODE, MAX_ROWS, MAX_WIDTH};
use siftpebble_model::random::Random;
use siftpebble_model::{sample, Key};
use std::path::Path;

const KEY: Key = Key {
    school: 2,
    class: 5,
};

/// A small file of three pages in bands of 4 rows, and its pages.
fn small() -> (Modelled, Vec<Sheet>) {
    let mut random = Random::new(11);
    let sizes = [(11, 6), (20, 9), (9, 3)];
    let sheets = sizes.map(|(width, height)| Sheet {
        width,
        height,
        rows: sample::noise(&mut random, width, height, 20),
    });
    let names = ["a.pbm", "b.pbm", "c.pbm"];
    let pages: Vec<_> = names.into_iter().zip(&sheets).collect();
    let model = packed(KEY, 4, &pages);
    (model, sheets.to_vec())
}

/// What unpack may write: the first pages, none to all.
fn fronts(sheets: &[Sheet]) -> Vec<Vec<u8>> {
    let mut fronts = vec![Vec::new()];
    for sheet in sheets {
        let longer = [fronts.last().expect("a front"), &sheet.p4()[..]].concat();
        fronts.push(longer);
    }
    fronts
}

fn unpack(dir: &Path, file: &[u8]) -> Ran {
    sift(dir, &["unpack", "-", "-o", "-"], file)
}

/// Refuses in words, and delivers nothing but a front of the pages. Answers
/// how many pages came.
#[track_caller]
fn check(ran: &Ran, fronts: &[Vec<u8>]) -> usize {
    assert_eq!(ran.status, 1, "{}", ran.stderr);
    let named = |line: &str| line.starts_with("sift: standard input: ");
    assert!(ran.stderr.lines().all(named), "{}", ran.stderr);
    assert!(!ran.stderr.is_empty());
    let pages = fronts.iter().position(|front| *front == ran.stdout);
    pages.expect("nothing but right pages")
}

#[test]
fn the_small_file_itself_is_right() {
    let (model, sheets) = small();
    let ran = unpack(&directory("small"), &model.file).fine();
    assert!(ran.stdout == *fronts(&sheets).last().expect("a front"));
}

#[test]
fn every_truncation() {
    let dir = directory("truncation");
    let (model, sheets) = small();
    let fronts = fronts(&sheets);
    let mut before = 0;
    for length in 0..model.file.len() {
        let pages = check(&unpack(&dir, &model.file[..length]), &fronts);
        // a longer front never brings fewer pages
        assert!(pages >= before);
        before = pages;
    }
    // only the end mark was cut
    assert_eq!(before, 3);
}

#[test]
fn every_flipped_bit() {
    let dir = directory("flips");
    let (model, sheets) = small();
    let fronts = fronts(&sheets);
    let mut in_codes = 0;
    for bit in 0..model.file.len() * 8 {
        let mut file = model.file.clone();
        file[bit / 8] ^= 0x80 >> (bit % 8);
        let ran = unpack(&dir, &file);
        check(&ran, &fronts);
        let by_desk = ran.stderr.contains(": the code is damaged\n");
        let by_marker = ran.stderr.contains(": not a code of ours: marker FF ");
        let by_sum = ran.stderr.contains(": the rows are not those");
        in_codes += usize::from(by_desk || by_marker || by_sum);
    }
    // those in the frame were refused as such, and all others by reading
    let codes = model.bands.iter().flatten().map(|band| band.1.len());
    assert_eq!(in_codes, codes.sum::<usize>() * 8);
}

#[test]
fn every_byte_left_out_or_put_in() {
    let dir = directory("slips");
    let (model, sheets) = small();
    let fronts = fronts(&sheets);
    for at in 0..model.file.len() {
        let mut file = model.file.clone();
        let byte = file.remove(at);
        check(&unpack(&dir, &file), &fronts);
        let mut file = model.file.clone();
        file.insert(at, !byte);
        check(&unpack(&dir, &file), &fronts);
    }
}

#[test]
fn garbage() {
    let dir = directory("garbage");
    let (model, sheets) = small();
    let fronts = fronts(&sheets);
    let mut random = Random::new(12);
    for turn in 0..400 {
        let length = random.between(0, 400);
        let noise = random.bytes(length);
        let file = match turn % 4 {
            0 => noise,
            // a right header, so that the noise is taken for a page
            1 => [&header(4, 2, 5, 3)[..], &noise].concat(),
            // a right record, so that the noise is taken for codes
            2 => {
                let lengths: Vec<_> = (0..9).map(|_| random.between(1, 9) as u16).collect();
                let record = record(300, 36, b"n", &lengths, 0);
                [&header(4, 2, 5, 1)[..], &record, &noise].concat()
            }
            _ => {
                let mut file = model.file.clone();
                for _ in 0..random.between(1, 8) {
                    let at = random.below(file.len());
                    file[at] ^= random.between(1, 255) as u8;
                }
                file
            }
        };
        check(&unpack(&dir, &file), &fronts);
    }
}

/// The largest sizes that a few bytes can ask for.
#[test]
fn large_claims_in_few_bytes() {
    let dir = directory("claims");
    let none = [Vec::new()];
    let (width, rows) = (MAX_WIDTH as u16, MAX_ROWS as u8);
    let lengths = vec![MAX_CODE as u16; 65_535_usize.div_ceil(MAX_ROWS)];
    let claims = [
        [&header(rows, 1, 1, 65_535)[..], &[0xFF; 200]].concat(),
        [
            &header(rows, 1, 1, 1)[..],
            &record(width, 65_535, b"n", &lengths, 0),
            &[0; 100],
        ]
        .concat(),
        [&header(1, 1, 1, 1)[..], &[8, 0, 255, 255, 1, b'n', 0, 2]].concat(),
    ];
    for claim in claims {
        assert_eq!(check(&unpack(&dir, &claim), &none), 0);
    }
}

/// Where a page's codes start in the small file, and its bands' lengths.
fn codes_of(model: &Modelled, page: usize) -> (usize, Vec<usize>) {
    let mut at = 16;
    for (index, bands) in model.bands.iter().enumerate() {
        let lengths: Vec<_> = bands.iter().map(|band| band.1.len()).collect();
        at += 5 + "a.pbm".len() + 2 * lengths.len() + 8;
        if index == page {
            return (at, lengths);
        }
        at += lengths.iter().sum::<usize>();
    }
    unreachable!("a page of the small file")
}

#[test]
fn a_damaged_band_is_named() {
    let dir = directory("band");
    let (model, sheets) = small();
    let (start, lengths) = codes_of(&model, 1);
    let mut file = model.file.clone();
    // no code ends in FF
    let end = start + lengths[0] + lengths[1];
    file[end - 1] = 0xFF;
    std::fs::write(dir.join("f"), &file).expect("a file");
    let lines = [
        "sift: f: page 2 (b.pbm), band 2: the code is damaged",
        "sift: f: page 2 (b.pbm), band 3: not read, since band 2 was refused",
        "sift: f: page 3 (c.pbm): not read: it needs the table learned from page 2",
    ];
    sift(&dir, &["unpack", "f", "-o", "d"], b"").refused(1, &lines);
    assert_eq!(common::names(&dir.join("d")), ["a.pbm"]);
    let page = std::fs::read(dir.join("d/a.pbm")).expect("a page");
    assert_eq!(page, sheets[0].p4());
    let looked = sift(&dir, &["look", "f"], b"").refused(1, &lines);
    assert!(looked.stdout.is_empty());
    let shown = sift(&dir, &["show", "f"], b"").refused(1, &lines);
    assert!(shown.text().contains("\ntotal       1 page "));
    assert!(!shown.text().contains("b.pbm"));

    // three bands: the first one refused
    file[start + lengths[0] - 1] = 0xFF;
    let ran = unpack(&dir, &file);
    let line = "page 2 (b.pbm), bands 2 to 3: not read, since band 1 was refused";
    assert!(ran.stderr.contains(line), "{}", ran.stderr);
}

/// A file that the program packed, with a marker in the code of a band: the
/// band, the marker and its place are named by every job.
#[test]
fn a_marker_is_named() {
    let dir = directory("marker");
    let (model, sheets) = small();
    let names = ["a.pbm", "b.pbm", "c.pbm"];
    for (name, sheet) in names.iter().zip(&sheets) {
        std::fs::write(dir.join(name), sheet.p4()).expect("a file");
    }
    let options = ["--school", "2", "--class", "5", "--rows", "4", "-o", "-"];
    let words = [&["pack"], &names[..], &options].concat();
    let packed = sift(&dir, &words, b"").fine().stdout;
    assert_eq!(packed, model.file);
    let (start, lengths) = codes_of(&model, 1);
    for at in 0..lengths[1] - 1 {
        let mut file = packed.clone();
        let place = start + lengths[0] + at;
        file[place..place + 2].copy_from_slice(&[0xFF, 0x9A]);
        let page = "sift: standard input: page 2 (b.pbm), band";
        let lines = [
            &format!("{page} 2: not a code of ours: marker FF 9A at byte {at}"),
            &format!("{page} 3: not read, since band 2 was refused"),
            "sift: standard input: page 3 (c.pbm): not read: \
             it needs the table learned from page 2",
        ];
        let ran = unpack(&dir, &file).refused(1, &lines);
        assert_eq!(ran.stdout, sheets[0].p4());
        sift(&dir, &["show", "-"], &file).refused(1, &lines);
        sift(&dir, &["look", "-"], &file).refused(1, &lines);
    }
}

/// Codes in the place of that of a row of 36 pels, and what is said of them.
const CODES: [(&[u8], &str); 9] = [
    // cut, changed, and with something behind it
    (&[0x58, 0xDE, 0xFF, 0x8F, 0x1A], "the code is damaged"),
    (&[0x58, 0xDE, 0xFF], "the code is damaged"),
    (&[0x58, 0xDE, 0xFF, 0x8F, 0x1A, 0x91], "the code is damaged"),
    (
        &[0x58, 0xDE, 0xFF, 0x8F, 0x1A, 0x90, 0x00],
        "the code is damaged",
    ),
    // markers: in the place of 8F, at the end, behind it, and alone
    (
        &[0x58, 0xDE, 0xFF, 0x90, 0x1A, 0x90],
        "not a code of ours: marker FF 90 at byte 2",
    ),
    (
        &[0x58, 0xDE, 0xFF, 0x8F, 0xFF, 0xA0],
        "not a code of ours: marker FF A0 at byte 4",
    ),
    (
        &[0x58, 0xDE, 0xFF, 0x8F, 0x1A, 0x90, 0xFF, 0x90],
        "not a code of ours: marker FF 90 at byte 6",
    ),
    (
        &[0xFF, 0xD8, 0xFF, 0xE0],
        "not a code of ours: marker FF D8 at byte 0",
    ),
    (
        &[0x00, 0xFF, 0xFF],
        "not a code of ours: marker FF FF at byte 1",
    ),
];

/// A file of one page of 36 pels, with this code.
fn one_row(code: &[u8]) -> Vec<u8> {
    let sum = crc32(&[0xBB, 0x98, 0xEE, 0x66, 0x60]);
    let record = record(36, 1, b"a", &[code.len() as u16], sum);
    [&header(64, 1, 1, 1)[..], &record, code, b"END\n"].concat()
}

#[test]
fn a_marker_is_told_from_other_damage() {
    let dir = directory("told");
    let good = [0x58, 0xDE, 0xFF, 0x8F, 0x1A, 0x90];
    sift(&dir, &["show", "-"], &one_row(&good)).fine();
    for (code, said) in CODES {
        let line = format!("sift: standard input: page 1 (a), band 1: {said}");
        let ran = unpack(&dir, &one_row(code)).refused(1, &[&line]);
        assert!(ran.stdout.is_empty());
    }
}

#[test]
fn another_band_in_its_place_is_refused() {
    let dir = directory("another");
    let mut file = common::one_pel(b"a");
    let at = file.len() - 6;
    assert_eq!(file[at..at + 2], [0xAC, 0x10]);
    // the code of a black pel: as good a code, but not of this page
    file[at..at + 2].copy_from_slice(&[0, 0]);
    let said = "sift: standard input: page 1 (a): \
                the rows are not those that were packed: their checksum differs";
    let ran = unpack(&dir, &file).refused(1, &[said]);
    assert!(ran.stdout.is_empty());
}

/// A code that ends in FF, as version 1 of the format had it, and one with a
/// 00 too many.
#[test]
fn a_wrong_end_of_a_code_is_refused() {
    let dir = directory("code_end");
    let sum = crc32(&[0xE6, 0x60]);
    let codes: [&[u8]; 2] = [&[0x15, 0x6E, 0xFF], &[0x15, 0x6E, 0xFF, 0x00, 0x00]];
    for code in codes {
        let record = record(13, 1, b"a", &[code.len() as u16], sum);
        let file = [&header(64, 1, 1, 1)[..], &record, code, b"END\n"].concat();
        let said = "sift: standard input: page 1 (a), band 1: the code is damaged";
        let ran = unpack(&dir, &file).refused(1, &[said]);
        assert!(ran.stdout.is_empty());
    }
}

#[test]
fn pages_in_the_wrong_order_are_refused() {
    let dir = directory("order");
    let (model, sheets) = small();
    let (second, _) = codes_of(&model, 1);
    let (third, lengths) = codes_of(&model, 2);
    let record = |start: usize, bands: usize| start - (5 + 5 + 2 * bands + 8);
    let (second, third) = (record(second, 3), record(third, 1));
    let end = third + 20 + lengths[0];
    let file = [
        &model.file[..second],
        &model.file[third..end],
        &model.file[second..third],
        &model.file[end..],
    ]
    .concat();
    assert_eq!(file.len(), model.file.len());
    assert_eq!(check(&unpack(&dir, &file), &fronts(&sheets)), 1);
}

#[test]
fn a_damaged_record_is_named_with_the_pages_after_it() {
    let dir = directory("record");
    let (model, sheets) = small();
    let (codes, lengths) = codes_of(&model, 0);
    let second = codes + lengths.iter().sum::<usize>();
    let mut file = model.file.clone();
    file[second] ^= 1;
    let ran = unpack(&dir, &file).refused(
        1,
        &[
            "sift: standard input: page 2: the page record is damaged: its checksum differs",
            "sift: standard input: page 3: not read, since it is not known where it starts",
        ],
    );
    assert_eq!(ran.stdout, sheets[0].p4());
    let cut = &model.file[..second - 1];
    let ran = unpack(&dir, cut).refused(
        1,
        &[
            "sift: standard input: page 1 (a.pbm), band 2: the file ends within its code",
            "sift: standard input: pages 2 to 3: not read, since it is not known where they start",
        ],
    );
    assert!(ran.stdout.is_empty());
}
