//! Request E4: a code with a byte of 90 or more just after an FF is not a code
//! of ours. It is refused 15, and what is otherwise damaged 10.

use siftpebble::{first_marker, Band, Desk, Key, Refusal};
use siftpebble_model::band::has_marker;
use siftpebble_model::random::Random;

const KEY: Key = Key {
    school: 1,
    class: 5,
};

/// A row of 36 pels and its code on a new page, in which the byte after FF is
/// the greatest that is written.
const ROW: [u8; 5] = [0xBB, 0x98, 0xEE, 0x66, 0x60];
const CODE: [u8; 6] = [0x58, 0xDE, 0xFF, 0x8F, 0x1A, 0x90];

/// Reads a row of 36 pels on a new page, into so many bytes more than the row
/// has.
#[track_caller]
fn refused(code: &[u8], more: usize, refusal: Refusal) {
    let mut desk = Desk::new();
    desk.open_read(KEY, 36).expect("an empty desk");
    let mut out = vec![0xA5; ROW.len() + more];
    let answer = desk.read(KEY, 1, code, &mut out);
    assert_eq!(answer, Err(refusal), "{code:02X?}");
    assert!(out.iter().all(|&byte| byte == 0));
    // the page stays open, and the band may be sent again
    assert!(desk.read(KEY, 1, &CODE, &mut [0; ROW.len()]).is_ok());
}

#[test]
fn each_byte_after_an_ff() {
    let mut desk = Desk::new();
    desk.open_write(KEY, 36).expect("an empty desk");
    let mut out = [0; 8];
    let written = desk.write_code(KEY, 1, &ROW, &mut out);
    let band = Band {
        length: 6,
        shifts: 34,
        revisits: 33,
    };
    assert_eq!(written, Ok((&CODE[..], band)));
    let mut desk = Desk::new();
    desk.open_read(KEY, 36).expect("an empty desk");
    let mut row = [0; ROW.len()];
    let read = desk.read(KEY, 1, &CODE, &mut row);
    assert_eq!(read, Ok(Band { length: 5, ..band }));
    assert_eq!(row, ROW);
    for byte in 0x90..=0xFF {
        refused(&[0x58, 0xDE, 0xFF, byte, 0x1A, 0x90], 2, Refusal::Marker);
    }
}

#[test]
fn the_first_two_bytes_and_the_last_two() {
    for (byte, refusal) in [
        (0x8F, Refusal::Damaged),
        (0x90, Refusal::Marker),
        (0xFF, Refusal::Marker),
    ] {
        refused(&[0xFF, byte], 0, refusal);
        refused(&[0xFF, byte, 0x00, 0x00], 0, refusal);
        refused(&[0x58, 0xDE, 0x00, 0x00, 0xFF, byte], 0, refusal);
    }
}

/// No byte follows, so there is no marker.
#[test]
fn a_last_ff_alone_is_damaged() {
    for code in [&[0xFF][..], &[0x90, 0xFF], &[0x58, 0xDE, 0xFF]] {
        refused(code, 0, Refusal::Damaged);
    }
}

#[test]
fn behind_a_good_code() {
    for (more, refusal) in [
        (&[0x00][..], Refusal::Damaged),
        (&[0xFF], Refusal::Damaged),
        (&[0xFF, 0x8F], Refusal::Damaged),
        (&[0xFF, 0x90], Refusal::Marker),
        (&[0xFF, 0xFF], Refusal::Marker),
        (&[0x00, 0xFF, 0x90, 0x00], Refusal::Marker),
    ] {
        refused(&[&CODE[..], more].concat(), 3, refusal);
    }
}

/// A small buffer comes first.
#[test]
fn room_is_tested_before() {
    let mut desk = Desk::new();
    desk.open_read(KEY, 36).expect("an empty desk");
    for room in 0..ROW.len() {
        let mut out = vec![0xA5; room];
        let answer = desk.read(KEY, 1, &[0xFF, 0x90], &mut out);
        assert_eq!(answer, Err(Refusal::NoRoom));
        assert!(out.iter().all(|&byte| byte == 0));
    }
}

#[test]
fn the_first_marker_is_found() {
    assert_eq!(first_marker(&[]), None);
    assert_eq!(first_marker(&CODE), None);
    assert_eq!(first_marker(&[0xFF, 0xFF, 0x90]), Some(0));
    assert_eq!(first_marker(&[0x00, 0xFF, 0x8F, 0xFF, 0x90]), Some(3));
    let mut random = Random::new(1);
    for _ in 0..100_000 {
        let code = [0; 5].map(|_: u8| random.pick(&[0x00, 0x8F, 0x90, 0xFF]));
        let first = first_marker(&code);
        assert_eq!(first.is_some(), has_marker(&code), "{code:02X?}");
        if let Some(at) = first {
            assert!(has_marker(&code[at..at + 2]));
            assert!(!has_marker(&code[..=at]));
        }
    }
}
