//! Request E2: where the last byte of a code is FF, one more byte 00 follows.

mod common;

use common::{all_bands, assert_bounds, is_short, made, new_page, write};
use siftpebble_model::band::{self, State};
use siftpebble_model::random::Random;
use siftpebble_model::{sample, Refusal};

/// Bands of a new page whose codes end in FF 00: width, pels, code and S.
type Case = (usize, &'static [u8], &'static [u8], u64);

/// The bits end with the FF, and the 00 follows by the rule.
const BY_THE_RULE: [Case; 4] = [
    (13, &[0xE6, 0x60], &[0x15, 0x6E, 0xFF, 0x00], 12),
    (13, &[0xED, 0xB0], &[0x0A, 0xAC, 0xFF, 0x00], 12),
    (4, &[0x30, 0x00, 0x00], &[0xE0, 0xBD, 0xFF, 0x00], 12),
    (990, &[0; 124], &[0xFF, 0x7F, 0xFF, 0x6A, 0xFF, 0x00], 26),
];

/// The bits go on after the FF, and need the 00: nothing follows it. The
/// first has the bytes of another band, with another S.
const BY_THE_BITS: [Case; 3] = [
    (14, &[0xE6, 0x60], &[0x15, 0x6E, 0xFF, 0x00], 13),
    (13, &[0x55, 0x00], &[0xCB, 0xFC, 0xFF, 0x00], 14),
    (6, &[0x60, 0x00], &[0xC1, 0x86, 0xFF, 0x00], 13),
];

fn read(from: &State, width: usize, code: &[u8], bytes: usize) -> Result<Vec<u8>, Refusal> {
    let mut rows = vec![0xA5; bytes];
    band::read(&mut from.clone(), width, code, &mut rows).map(|_| rows)
}

#[test]
fn the_two_ways_to_a_last_ff_00() {
    let rule = BY_THE_RULE.map(|case| (case, 1));
    let bits = BY_THE_BITS.map(|case| (case, 0));
    for ((width, pels, code, shifts), added) in rule.into_iter().chain(bits) {
        let written = write(&new_page(), width, pels);
        assert_eq!((&written.0[..], written.1), (code, shifts));
        assert_eq!(code.len() - made(code, shifts).len(), added);
        assert_bounds(code, shifts);
        let rows = read(&new_page(), width, code, pels.len());
        assert_eq!(rows, Ok(pels.to_vec()));
    }
}

/// The length rule of document 01 does not hold of every code as it is now.
#[test]
fn the_length_rule_gains_a_byte() {
    let kept = BY_THE_RULE.map(|(_, _, code, shifts)| is_short(code.len(), shifts));
    assert_eq!(kept, [true, true, true, false]);
}

/// How many of these codes end in FF 00 by the rule, and by their bits.
#[derive(Debug, Default)]
struct Ends {
    rule: usize,
    bits: usize,
}

impl Ends {
    fn count(&mut self, code: &[u8], shifts: u64) {
        assert_bounds(code, shifts);
        if made(code, shifts).len() < code.len() {
            self.rule += 1;
        } else if code.ends_with(&[0xFF, 0x00]) {
            self.bits += 1;
        }
    }
}

#[test]
fn ends_of_all_small_bands() {
    let mut ends = Ends::default();
    for pels in 1..=14 {
        for width in (1..=pels).filter(|width| pels % width == 0) {
            for band in all_bands(width, pels / width) {
                let (code, shifts, _) = write(&new_page(), width, &band);
                ends.count(&code, shifts);
            }
        }
    }
    assert!(ends.rule > 0 && ends.bits > 0, "{ends:?}");
}

#[test]
fn ends_of_random_bands() {
    let mut random = Random::new(6);
    let mut ends = Ends::default();
    for _ in 0..60_000 {
        let (width, rows) = (random.between(1, 40), random.between(1, 8));
        let from = sample::state(&mut random, width);
        let pels = sample::band(&mut random, &from, width, rows);
        let (code, shifts, _) = write(&from, width, &pels);
        ends.count(&code, shifts);
    }
    assert!(ends.rule > 0 && ends.bits > 0, "{ends:?}");
}

/// From any table and last row: the code is read, and is damaged with the 00
/// left out, with another byte in its place, or with anything behind it.
#[test]
fn nothing_but_one_00_after_a_last_ff() {
    let mut random = Random::new(7);
    for _ in 0..200 {
        let (from, width, pels) = sample::last_ff(&mut random);
        let (code, shifts, _) = write(&from, width, &pels);
        assert_eq!(made(&code, shifts).len(), code.len() - 1);
        assert_bounds(&code, shifts);
        let read = |code: &[u8]| read(&from, width, code, pels.len());
        assert_eq!(read(&code), Ok(pels.clone()));
        assert_eq!(read(made(&code, shifts)), Err(Refusal::Damaged));
        for byte in 0..=0xFF {
            let longer = [&code[..], &[byte]].concat();
            assert_eq!(read(&longer), Err(Refusal::Damaged));
            let mut other = code.clone();
            *other.last_mut().expect("a byte") = byte;
            if let Ok(rows) = read(&other) {
                assert_eq!(write(&from, width, &rows).0, other);
                assert_eq!(rows == pels, byte == 0x00);
            }
        }
    }
}

#[test]
fn the_00_needs_room() {
    let mut random = Random::new(8);
    for _ in 0..100 {
        let (from, width, pels) = sample::last_ff(&mut random);
        let (code, ..) = write(&from, width, &pels);
        let room = |bytes: usize| {
            let mut out = vec![0xA5; bytes];
            let written = band::write(&mut from.clone(), width, &pels, &mut out, ());
            written.map(|_| out)
        };
        assert_eq!(room(code.len()), Ok(code.clone()));
        assert_eq!(room(code.len() - 1), Err(Refusal::NoRoom));
    }
}

/// Of all codes of two bytes, FF and up to one byte more, or 00 00, exactly
/// those of the bands are accepted.
#[test]
fn all_codes_with_ff_as_the_third_byte() {
    let (width, from) = (13, new_page());
    let written = all_bands(width, 1).map(|pels| write(&from, width, &pels).0);
    let mut expected: Vec<Vec<u8>> = written.filter(|code| code.get(2) == Some(&0xFF)).collect();
    assert!(expected.iter().all(|code| code.len() == 4));
    let one_more = (0..=0xFF).map(|byte| vec![0xFF, byte]);
    let endings: Vec<Vec<u8>> = one_more
        .chain([vec![0xFF], vec![0xFF, 0x00, 0x00]])
        .collect();
    let mut accepted = Vec::new();
    for front in 0..=u16::MAX {
        for ending in &endings {
            let code = [&front.to_be_bytes()[..], ending].concat();
            if read(&from, width, &code, 2).is_ok() {
                accepted.push(code);
            }
        }
    }
    accepted.sort();
    expected.sort();
    assert_eq!(accepted, expected);
    assert!(accepted.contains(&vec![0x15, 0x6E, 0xFF, 0x00]));
}
