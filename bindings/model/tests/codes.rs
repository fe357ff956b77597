//! The fast coder against the definition in exact numbers, and the reader
//! against all bands.

mod common;

use common::{all_bands, assert_bounds, context, new_page, write, write_band};
use siftpebble_model::band::{self, row_bytes, Band, State};
use siftpebble_model::random::Random;
use siftpebble_model::sample;
use siftpebble_model::table::{after_expected, after_unexpected, Table, SIZES};
use std::collections::BTreeMap;

/// A fraction below 1.0, of any number of binary digits.
#[derive(Clone, Default, PartialEq, Debug)]
struct Digits(Vec<u8>);

impl Digits {
    /// Adds a number of units of the last digit.
    fn add(&mut self, mut number: u32) {
        for digit in self.0.iter_mut().rev() {
            number += u32::from(*digit);
            *digit = (number & 1) as u8;
            number >>= 1;
        }
        assert_eq!(number, 0, "the lower end stays below 1.0");
    }

    /// The first digits, zeros shifted in behind the last.
    fn front(&self, count: usize) -> Digits {
        let mut digits = self.0.clone();
        digits.resize(count.max(self.0.len()), 0);
        digits.truncate(count);
        Digits(digits)
    }
}

/// The number that a code stands for.
fn number(code: &[u8]) -> Digits {
    let mut digits = Digits::default();
    let mut after_ff = false;
    for &byte in code {
        if after_ff {
            digits.add(u32::from(byte >> 7));
        }
        let first = if after_ff { 6 } else { 7 };
        digits
            .0
            .extend((0..=first).rev().map(|bit| byte >> bit & 1));
        after_ff = byte == 0xFF;
    }
    digits
}

/// The next byte of a code, made from the lower end as it is now.
fn make_byte(code: &mut Vec<u8>, lower: &Digits) {
    let covered = number(code).0.len();
    let mut carry = u8::from(lower.front(covered) != number(code));
    let mut after_ff = false;
    if let Some(before) = code.last_mut() {
        if *before != 0xFF {
            *before += carry;
            carry = 0;
        }
        after_ff = *before == 0xFF;
    }
    let count = if after_ff { 7 } else { 8 };
    let new = lower.front(covered + count).0[covered..].to_vec();
    code.push(new.iter().fold(carry, |byte, digit| byte << 1 | digit));
}

/// Document 01's writer of a band, in exact numbers.
struct Defined {
    table: Table,
    interval: u32,
    lower: Digits,
    code: Vec<u8>,
    /// The shifts at which the next byte goes out.
    due: usize,
    revisits: u64,
}

impl Defined {
    fn pel(&mut self, context: usize, pel: u8) {
        let entry = self.table[context];
        let size = u32::from(SIZES[usize::from(entry / 2)]);
        let expected = pel == entry & 1;
        if expected {
            self.lower.add(size);
            self.interval -= size;
        } else {
            self.interval = size;
        }
        if self.interval < 0x1000 {
            let next = if expected {
                after_expected
            } else {
                after_unexpected
            };
            self.table[context] = next(entry);
        }
        let before = self.shifts();
        while self.interval < 0x1000 {
            self.interval *= 2;
            self.lower.0.push(0);
            if self.shifts() == self.due {
                let covered = number(&self.code).0.len();
                make_byte(&mut self.code, &self.lower);
                self.due += number(&self.code).0.len() - covered;
            }
        }
        self.revisits += u64::from(self.shifts() > before);
    }

    fn shifts(&self) -> usize {
        self.lower.0.len() - 12
    }
}

/// Document 01's code and answer of a band, with the end that request E2 gives
/// the code, and with request E11's count.
fn defined(from: &State, width: usize, pels: &[u8]) -> (Vec<u8>, Band) {
    let mut writer = Defined {
        table: from.table,
        interval: 0x1000,
        lower: Digits(vec![0; 12]),
        code: Vec::new(),
        due: 12,
        revisits: 0,
    };
    let mut above = &from.last[..row_bytes(width)];
    for row in pels.chunks(row_bytes(width)) {
        for x in 0..width {
            let pel = row[x / 8] >> (7 - x % 8) & 1;
            writer.pel(context(above, row, width, x), pel);
        }
        above = row;
    }
    while number(&writer.code).0.len() < writer.lower.0.len() {
        make_byte(&mut writer.code, &writer.lower);
    }
    if writer.code.ends_with(&[0xFF]) {
        writer.code.push(0x00);
    }
    let band = Band {
        length: writer.code.len(),
        shifts: writer.shifts() as u64,
        revisits: writer.revisits,
    };
    (writer.code, band)
}

const SMALL: [(usize, usize); 15] = [
    (1, 1),
    (2, 1),
    (1, 2),
    (3, 1),
    (1, 6),
    (2, 4),
    (3, 3),
    (4, 3),
    (5, 2),
    (6, 2),
    (9, 1),
    (10, 1),
    (12, 1),
    (13, 1),
    (14, 1),
];

#[test]
fn small_bands_have_the_defined_codes() {
    let mut random = Random::new(1);
    for (width, rows) in SMALL {
        for from in [
            new_page(),
            sample::state(&mut random, width),
            sample::state(&mut random, width),
        ] {
            for pels in all_bands(width, rows) {
                let (code, band, _) = write_band(&from, width, &pels);
                assert_eq!((code, band), defined(&from, width, &pels));
            }
        }
    }
}

#[test]
fn random_bands_have_the_defined_codes() {
    let mut random = Random::new(2);
    for _ in 0..3000 {
        let (width, rows) = (random.between(1, 40), random.between(1, 8));
        let from = sample::state(&mut random, width);
        let pels = sample::band(&mut random, &from, width, rows);
        let (code, band, _) = write_band(&from, width, &pels);
        assert_eq!((code, band), defined(&from, width, &pels));
    }
}

#[test]
fn bands_with_a_last_ff_have_the_defined_codes() {
    let mut random = Random::new(9);
    for _ in 0..500 {
        let (from, width, pels) = sample::last_ff(&mut random);
        let (code, band, _) = write_band(&from, width, &pels);
        assert_eq!((code, band), defined(&from, width, &pels));
    }
}

/// Every band of a size from a state, under its code.
fn codes(from: &State, width: usize, rows: usize) -> BTreeMap<Vec<u8>, Vec<u8>> {
    let bands = all_bands(width, rows);
    bands
        .map(|pels| (write(from, width, &pels).0, pels))
        .collect()
}

/// Reads every code of up to `bytes` bytes: accepted are those of the bands,
/// and no others.
fn exactly_the_bands(from: &State, width: usize, rows: usize, bytes: u32) {
    let codes = codes(from, width, rows);
    assert_eq!(
        codes.len(),
        1 << (width * rows),
        "no two bands have one code"
    );
    let mut accepted = 0;
    let mut pels = vec![0; rows * row_bytes(width)];
    for length in 0..=bytes {
        for number in 0..1u32 << (8 * length) {
            let code = &number.to_be_bytes()[4 - length as usize..];
            if band::read(&mut from.clone(), width, code, &mut pels).is_ok() {
                assert_eq!(codes.get(code), Some(&pels));
                accepted += 1;
            }
        }
    }
    let short = codes.keys().filter(|code| code.len() <= bytes as usize);
    assert_eq!(accepted, short.count());
}

#[test]
fn all_codes_of_two_bytes() {
    let mut random = Random::new(3);
    for (width, rows) in SMALL {
        exactly_the_bands(&new_page(), width, rows, 2);
        let from = sample::state(&mut random, width);
        exactly_the_bands(&from, width, rows, 2);
    }
}

#[test]
fn all_codes_of_three_bytes() {
    exactly_the_bands(&new_page(), 10, 1, 3);
    exactly_the_bands(&new_page(), 3, 3, 3);
}

#[test]
fn bands_are_read_back() {
    let mut random = Random::new(4);
    let mut carries = 0;
    for _ in 0..20_000 {
        let (width, rows) = (sample::width(&mut random), random.between(1, 9));
        let from = sample::state(&mut random, width);
        let pels = sample::band(&mut random, &from, width, rows);
        let (code, written, after) = write_band(&from, width, &pels);
        let mut state = from.clone();
        let mut out = vec![0xA5; pels.len()];
        let band = band::read(&mut state, width, &code, &mut out).expect("a band's code");
        let expected = Band {
            length: pels.len(),
            ..written
        };
        assert_eq!((out, band), (pels, expected));
        assert_eq!(state, after);
        assert_bounds(&code, written.shifts);
        carries += code.windows(2).filter(|pair| is_stuff_carry(pair)).count();
    }
    assert!(carries > 1000, "{carries} carries in stuff bits");
}

fn is_stuff_carry(pair: &[u8]) -> bool {
    pair[0] == 0xFF && pair[1] >= 0x80
}

/// Other bytes of the same length that have the same number.
fn is_other_form(code: &[u8], good: &[u8]) -> bool {
    let (mut one, mut two) = (sample::digits(code), sample::digits(good));
    let length = one.len().max(two.len());
    one.resize(length, false);
    two.resize(length, false);
    code != good && code.len() == good.len() && one == two
}

/// A spoiled code is read only if the rows found have that very code.
#[test]
fn spoiled_codes_are_damaged() {
    let mut random = Random::new(5);
    let (mut forms, mut accepted) = (0, 0);
    for _ in 0..50_000 {
        let (width, rows) = (random.between(1, 40), random.between(1, 8));
        let from = sample::state(&mut random, width);
        let pels = sample::band(&mut random, &from, width, rows);
        let (good, ..) = write(&from, width, &pels);
        let code = sample::spoiled(&mut random, &good);
        forms += usize::from(is_other_form(&code, &good));
        let mut out = vec![0; pels.len()];
        if band::read(&mut from.clone(), width, &code, &mut out).is_ok() {
            assert_eq!(write(&from, width, &out).0, code);
            accepted += 1;
        }
    }
    assert!(forms > 100 && accepted > 100, "{forms} {accepted}");
}
