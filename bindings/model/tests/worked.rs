//! Document 01's "Bands worked by hand" and "Run also", and a few more bands
//! whose codes were found by other means.

use siftpebble_model::band::Band;
use siftpebble_model::table::{after_unexpected, CONTEXTS};
use siftpebble_model::{Desk, Direction, Key, Refusal};

const KEY: Key = Key {
    school: 1,
    class: 5,
};

/// A desk with one page open.
fn open(direction: Direction, width: u64) -> Desk {
    let mut desk = Desk::default();
    desk.open(KEY, direction, width).expect("an empty desk");
    desk
}

/// Writes a band; answers its code and S.
fn write(desk: &mut Desk, rows: u64, pels: &[u8]) -> (Vec<u8>, u64) {
    let mut out = [0xA5; 64];
    let band = desk.write(KEY, rows, pels, &mut out).expect("a good band");
    assert!(out[band.length..].iter().all(|&byte| byte == 0xA5));
    (out[..band.length].to_vec(), band.shifts)
}

/// Reads a band; answers its rows and S.
fn read(desk: &mut Desk, rows: u64, code: &[u8], length: usize) -> (Vec<u8>, u64) {
    let mut out = [0xA5; 64];
    let band = desk.read(KEY, rows, code, &mut out).expect("a good code");
    assert_eq!(band.length, length);
    assert!(out[length..].iter().all(|&byte| byte == 0xA5));
    (out[..length].to_vec(), band.shifts)
}

/// A case: name, width, the bands (rows and pels), the last one's code and S.
type Case = (
    &'static str,
    u64,
    &'static [(u64, &'static [u8])],
    &'static [u8],
    u64,
);

const CASES: [Case; 13] = [
    ("P1", 1, &[(1, &[0x00])], &[0xAC, 0x10], 2),
    ("P2", 1, &[(1, &[0x80])], &[0x00, 0x00], 1),
    ("P3", 2, &[(1, &[0x00])], &[0xD6, 0x14], 3),
    ("P4", 2, &[(1, &[0x40])], &[0xAC, 0x10], 3),
    ("P5", 2, &[(1, &[0x80])], &[0x56, 0x08], 2),
    ("P6", 2, &[(1, &[0xC0])], &[0x00, 0x00], 2),
    ("P7", 1, &[(1, &[0x00]), (1, &[0x00])], &[0xA8, 0x10], 2),
    ("P8", 1, &[(2, &[0x00, 0x00])], &[0xD6, 0x14], 3),
    ("P9", 1, &[(1, &[0x80]), (1, &[0x80])], &[0x00, 0x00], 1),
    (
        "two forms",
        10,
        &[(1, &[0xE8, 0x00])],
        &[0x01, 0x00, 0x18],
        10,
    ),
    (
        "last FF",
        13,
        &[(1, &[0xE6, 0x60])],
        &[0x15, 0x6E, 0xFF, 0x00],
        12,
    ),
    (
        "FF 00 by the bits",
        14,
        &[(1, &[0xE6, 0x60])],
        &[0x15, 0x6E, 0xFF, 0x00],
        13,
    ),
    (
        "FF 8F",
        36,
        &[(1, &[0xBB, 0x98, 0xEE, 0x66, 0x60])],
        &[0x58, 0xDE, 0xFF, 0x8F, 0x1A, 0x90],
        34,
    ),
];

#[test]
fn bands_worked_by_hand() {
    for (name, width, bands, code, shifts) in CASES {
        let mut writing = open(Direction::Write, width);
        let mut reading = open(Direction::Read, width);
        let mut last = Default::default();
        for &(rows, pels) in bands {
            last = write(&mut writing, rows, pels);
            let rows = read(&mut reading, rows, &last.0, pels.len());
            assert_eq!(rows, (pels.to_vec(), last.1), "{name}");
        }
        assert_eq!(last, (code.to_vec(), shifts), "{name}");
    }
}

#[test]
fn p10_after_an_unexpected_pel() {
    for sense in [0, 1] {
        assert_eq!(after_unexpected(2 * 29 + sense), 2 * 27 + sense);
        assert_eq!(after_unexpected(2 * 24 + sense), 2 * 21 + sense);
        assert_eq!(after_unexpected(sense), sense ^ 1);
    }
}

#[test]
fn p11_damaged_codes() {
    let mut desk = open(Direction::Read, 1);
    let before = desk.clone();
    let codes: [&[u8]; 3] = [&[0xAC, 0x11], &[0, 0, 0], &[]];
    for code in codes {
        let mut out = [0xA5; 3];
        let answer = desk.read(KEY, 1, code, &mut out);
        assert_eq!(answer, Err(Refusal::Damaged));
        assert_eq!(out, [0; 3]);
        assert_eq!(desk, before);
    }
    assert_eq!(read(&mut desk, 1, &[0xAC, 0x10], 1), (vec![0], 2));
}

/// A last FF without its 00, and with one 00 too many.
#[test]
fn a_wrong_end_is_damaged() {
    let mut desk = open(Direction::Read, 13);
    let before = desk.clone();
    let codes: [&[u8]; 2] = [&[0x15, 0x6E, 0xFF], &[0x15, 0x6E, 0xFF, 0x00, 0x00]];
    for code in codes {
        let mut out = [0xA5; 3];
        let answer = desk.read(KEY, 1, code, &mut out);
        assert_eq!(answer, Err(Refusal::Damaged));
        assert_eq!((out, &desk), ([0; 3], &before));
    }
    let rows = read(&mut desk, 1, &[0x15, 0x6E, 0xFF, 0x00], 2);
    assert_eq!(rows, (vec![0xE6, 0x60], 12));
}

/// Another form of a number that a band has is no band's code.
#[test]
fn other_form_is_damaged() {
    let mut desk = open(Direction::Read, 10);
    let answer = desk.read(KEY, 1, &[0x00, 0xFF, 0x8C], &mut [0; 2]);
    assert_eq!(answer, Err(Refusal::Damaged));
}

#[test]
fn white_page() {
    let mut desk = open(Direction::Write, 2048);
    let mut out = [0; 10];
    let band = desk.write(KEY, 64, &[0; 64 * 256], &mut out);
    let expected = Band {
        length: 10,
        shifts: 61,
        revisits: 60, // only the first pel has two shifts
    };
    assert_eq!(band, Ok(expected));
    assert_eq!(
        out,
        [0xFF, 0x7F, 0xFF, 0x7F, 0xFF, 0x7F, 0xFF, 0x7F, 0x08, 0x18]
    );
}

fn look(desk: &Desk) -> [u8; CONTEXTS] {
    let mut out = [0xA5; CONTEXTS + 1];
    assert_eq!(desk.look(KEY, &mut out), Ok(CONTEXTS));
    assert_eq!(out[CONTEXTS], 0xA5);
    std::array::from_fn(|i| out[i])
}

#[test]
fn looks() {
    let mut desk = open(Direction::Write, 1);
    write(&mut desk, 1, &[0x00]);
    assert_eq!(desk.look(KEY, &mut [0; 128]), Err(Refusal::NoTable));
    desk.close(KEY).expect("an open page");
    let after_p1: [u8; CONTEXTS] = std::array::from_fn(|i| if i == 0 { 2 } else { 0 });
    assert_eq!(look(&desk), after_p1);

    desk.open(KEY, Direction::Write, 1).expect("no page open");
    write(&mut desk, 1, &[0x00]);
    assert_eq!(look(&desk), after_p1, "the old table while a page is open");
    desk.abandon(KEY).expect("an open page");
    assert_eq!(look(&desk), after_p1, "an abandoned page teaches nothing");

    let mut desk = open(Direction::Write, 1);
    write(&mut desk, 1, &[0x80]);
    write(&mut desk, 1, &[0x80]);
    desk.close(KEY).expect("an open page");
    assert_eq!(
        look(&desk),
        std::array::from_fn(|i| u8::from(i == 0 || i == 16))
    );
}

#[test]
fn limits_of_sizes() {
    let mut desk = Desk::default();
    for width in [0, 2049, u64::MAX] {
        assert_eq!(desk.open(KEY, Direction::Write, width), Err(Refusal::Size));
    }
    desk.open(KEY, Direction::Write, 2048).expect("width 2,048");
    let mut out = [0; 64];
    for rows in [0, 65, u64::MAX] {
        let answer = desk.write(KEY, rows, &[0; 65 * 256], &mut out);
        assert_eq!(answer, Err(Refusal::Size));
    }
    assert!(desk.write(KEY, 64, &[0; 64 * 256], &mut out).is_ok());
}

#[test]
fn four_pages_and_eight_places() {
    let mut desk = Desk::default();
    let key = |class| Key { school: 1, class };
    for class in 1..=4 {
        desk.open(key(class), Direction::Write, 8)
            .expect("a free slot");
    }
    assert_eq!(
        desk.open(key(5), Direction::Write, 8),
        Err(Refusal::PagesFull)
    );
    for class in 1..=8 {
        let _ = desk.open(key(class), Direction::Read, 8);
        desk.close(key(class)).expect("an open page");
    }
    assert_eq!(
        desk.open(key(9), Direction::Write, 8),
        Err(Refusal::PlacesFull)
    );
    desk.forget(key(3)).expect("a learned table");
    desk.open(key(9), Direction::Write, 8)
        .expect("a free place");
    let place = desk.places[2].as_ref().expect("the lowest free place");
    assert_eq!((place.key, place.learned), (key(9), None));
}

#[test]
fn p1_into_two_bytes_and_one() {
    let mut desk = open(Direction::Write, 1);
    let before = desk.clone();
    let mut one = [0xA5; 1];
    assert_eq!(desk.write(KEY, 1, &[0], &mut one), Err(Refusal::NoRoom));
    assert_eq!((one, &desk), ([0], &before));
    assert_eq!(desk.write(KEY, 1, &[0], &mut []), Err(Refusal::NoRoom));
    let mut two = [0xA5; 2];
    assert!(desk.write(KEY, 1, &[0], &mut two).is_ok());
    assert_eq!(two, [0xAC, 0x10]);
}

/// The 00 after a last FF counts in the length and needs its room.
#[test]
fn a_last_ff_into_four_bytes_and_three() {
    let mut desk = open(Direction::Write, 13);
    let before = desk.clone();
    let mut three = [0xA5; 3];
    let answer = desk.write(KEY, 1, &[0xE6, 0x60], &mut three);
    assert_eq!(answer, Err(Refusal::NoRoom));
    assert_eq!((three, &desk), ([0; 3], &before));
    let mut four = [0xA5; 4];
    let answer = desk.write(KEY, 1, &[0xE6, 0x60], &mut four);
    let band = Band {
        length: 4,
        shifts: 12,
        revisits: 12,
    };
    assert_eq!(answer, Ok(band));
    assert_eq!(four, [0x15, 0x6E, 0xFF, 0x00]);
}

#[test]
fn one_class_number_in_two_schools() {
    let other = Key {
        school: 2,
        class: 5,
    };
    let mut desk = open(Direction::Write, 1);
    desk.open(other, Direction::Read, 2).expect("another key");
    write(&mut desk, 1, &[0x00]);
    let mut out = [0; 1];
    assert!(desk.read(other, 1, &[0xAC, 0x10], &mut out).is_ok());
    assert_eq!(out, [0x40], "P4, from the other school's own page");
    assert_eq!(write(&mut desk, 1, &[0x00]), (vec![0xA8, 0x10], 2), "P7");
}
