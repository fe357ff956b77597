//! Request E4: a byte of 90 or more just after an FF is a marker. A code with
//! one is refused 15, and what is otherwise damaged 10.

mod common;

use common::{new_page, write};
use siftpebble_model::band::{self, has_marker, Band};
use siftpebble_model::random::Random;
use siftpebble_model::{sample, Desk, Direction, Key, Refusal};

const KEY: Key = Key {
    school: 1,
    class: 5,
};

/// A row of 36 pels and its code on a new page, in which the byte after FF is
/// the greatest that is written.
const ROW: [u8; 5] = [0xBB, 0x98, 0xEE, 0x66, 0x60];
const CODE: [u8; 6] = [0x58, 0xDE, 0xFF, 0x8F, 0x1A, 0x90];

/// Reads a row of 36 pels on a new page into so many bytes. A refusal leaves
/// the desk as it was and sets all of the bytes to zero.
fn read_into(room: usize, code: &[u8]) -> Result<Band, Refusal> {
    let mut desk = Desk::default();
    desk.open(KEY, Direction::Read, 36).expect("an empty desk");
    let before = desk.clone();
    let mut out = vec![0xA5; room];
    let answer = desk.read(KEY, 1, code, &mut out);
    if answer.is_err() {
        assert_eq!((desk, out), (before, vec![0; room]));
    }
    answer
}

/// The same with more room than the row needs.
fn read(code: &[u8]) -> Result<Band, Refusal> {
    read_into(ROW.len() + 2, code)
}

const GOOD: Result<Band, Refusal> = Ok(Band {
    length: 5,
    shifts: 34,
    revisits: 33,
});
const MARKER: Result<Band, Refusal> = Err(Refusal::Marker);
const DAMAGED: Result<Band, Refusal> = Err(Refusal::Damaged);
const NO_ROOM: Result<Band, Refusal> = Err(Refusal::NoRoom);

#[test]
fn each_byte_after_an_ff() {
    assert_eq!(write(&new_page(), 36, &ROW).0, CODE);
    assert_eq!(read(&CODE), GOOD);
    for byte in 0..=0xFF {
        let mut code = CODE;
        code[3] = byte;
        assert_eq!(read(&code) == MARKER, byte >= 0x90, "{byte:02X}");
    }
}

#[test]
fn the_first_two_bytes_and_the_last_two() {
    for (byte, answer) in [(0x8F, DAMAGED), (0x90, MARKER), (0xFF, MARKER)] {
        assert_eq!(read(&[0xFF, byte]), answer);
        assert_eq!(read(&[0xFF, byte, 0x00, 0x00]), answer);
        assert_eq!(read(&[0x58, 0xDE, 0x00, 0x00, 0xFF, byte]), answer);
    }
}

/// No byte follows, so there is no pair.
#[test]
fn a_last_ff_alone_is_damaged() {
    for code in [&[0xFF][..], &[0x90, 0xFF], &[0x58, 0xDE, 0xFF]] {
        assert_eq!(read(code), DAMAGED);
    }
    assert_eq!(read(&[&CODE[..], &[0xFF]].concat()), DAMAGED);
}

#[test]
fn behind_a_good_code() {
    for (more, answer) in [
        (&[0x00][..], DAMAGED),
        (&[0x90], DAMAGED),
        (&[0xFF, 0x00], DAMAGED),
        (&[0xFF, 0x8F], DAMAGED),
        (&[0xFF, 0x90], MARKER),
        (&[0xFF, 0xFF], MARKER),
        (&[0x00, 0xFF, 0x90], MARKER),
        (&[0x00, 0xFF, 0x90, 0x00], MARKER),
    ] {
        assert_eq!(read(&[&CODE[..], more].concat()), answer, "{more:02X?}");
    }
}

/// A small buffer comes first.
#[test]
fn room_is_tested_before() {
    for code in [&[0xFF, 0x90][..], &[0x58, 0xDE, 0xFF, 0x90, 0x1A, 0x90]] {
        for room in 0..ROW.len() {
            assert_eq!(read_into(room, code), NO_ROOM);
        }
        assert_eq!(read_into(ROW.len(), code), MARKER);
    }
}

/// The pairs of all codes of up to three bytes, by their numbers.
#[test]
fn all_codes_of_three_bytes() {
    for length in 0..=3 {
        for number in 0..1u32 << (8 * length) {
            let code = &number.to_be_bytes()[4 - length..];
            let pair = |number: u32| (0xFF90..=0xFFFF).contains(&(number & 0xFFFF));
            let marker = length >= 2 && pair(number) || length == 3 && pair(number >> 8);
            assert_eq!(has_marker(code), marker, "{code:02X?}");
        }
    }
}

/// No band is written with a marker: a code that has one was damaged before it
/// was called by its name. So 15 takes nothing from what is read.
#[test]
fn a_code_with_a_marker_was_damaged() {
    let mut random = Random::new(10);
    let (mut markers, mut behind) = (0, 0);
    for _ in 0..50_000 {
        let (width, rows) = (random.between(1, 40), random.between(1, 8));
        let from = sample::state(&mut random, width);
        let pels = sample::band(&mut random, &from, width, rows);
        let (good, ..) = write(&from, width, &pels);
        assert!(!has_marker(&good));
        let code = sample::with_ff(&mut random, &good);
        if has_marker(&code) {
            let mut out = vec![0; pels.len()];
            let read = band::read(&mut from.clone(), width, &code, &mut out);
            assert_eq!(read, DAMAGED);
            markers += 1;
            behind += usize::from(code.starts_with(&good));
        }
    }
    assert!(markers > 10_000 && behind > 100, "{markers} {behind}");
}
