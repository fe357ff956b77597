//! From a new page, for every size of up to 8 pels: all codes of up to so many
//! bytes are read, and exactly as many are accepted as bands are written so,
//! with the counts that the write answered; exactly those with a marker are
//! refused as such. The same of some longer codes, for a size at which one has
//! a last FF.

use siftpebble::{Band, Desk, Key, Refusal};
use siftpebble_model::band::has_marker;
use std::collections::BTreeMap;
use std::thread;

const KEY: Key = Key {
    school: 1,
    class: 5,
};

fn sizes() -> impl Iterator<Item = (usize, usize)> {
    (1..=8).flat_map(|width| (1..=8 / width).map(move |rows| (width, rows)))
}

fn reading(width: usize) -> Desk {
    let mut desk = Desk::new();
    desk.open_read(KEY, width as u64).unwrap();
    desk
}

/// The rows of a band, a byte each, from its pels as a number.
fn band(number: u32, width: usize, rows: usize) -> Vec<u8> {
    let row = |y: usize| (number >> (y * width)) as u8;
    (0..rows).map(|y| row(y) << (8 - width)).collect()
}

/// What a write was given and a read gives back, the rows a byte each, and what
/// both answer of it.
#[derive(Debug, PartialEq)]
struct Sent {
    pels: Vec<u8>,
    shifts: u64,
    revisits: u64,
}

/// The codes of all bands of a size.
fn codes(width: usize, rows: usize) -> BTreeMap<Vec<u8>, Sent> {
    let write = |number| {
        let pels = band(number, width, rows);
        let mut desk = Desk::new();
        desk.open_write(KEY, width as u64).unwrap();
        let mut out = [0; 16];
        let written = desk.write_code(KEY, rows as u64, &pels, &mut out);
        let (code, band) = written.unwrap();
        (code.to_vec(), sent(pels, band))
    };
    (0..1 << (width * rows)).map(write).collect()
}

fn sent(pels: Vec<u8>, band: Band) -> Sent {
    Sent {
        pels,
        shifts: band.shifts,
        revisits: band.revisits,
    }
}

/// What a code gives back; nothing where it is refused, which it is for its
/// marker if it has one.
fn read(desk: &mut Desk, rows: usize, code: &[u8]) -> Option<Sent> {
    let mut out = [0; 8];
    match desk.read(KEY, rows as u64, code, &mut out) {
        Ok(band) => Some(sent(out[..rows].to_vec(), band)),
        Err(refusal) => {
            let expected = match has_marker(code) {
                true => Refusal::Marker,
                false => Refusal::Damaged,
            };
            assert_eq!(refusal, expected, "{code:02X?}");
            None
        }
    }
}

/// Reads every code of up to `bytes` bytes; answers how many were accepted.
fn exactly_the_bands(width: usize, rows: usize, bytes: usize) -> usize {
    let codes = codes(width, rows);
    assert_eq!(
        codes.len(),
        1 << (width * rows),
        "no two bands have one code"
    );
    let mut desk = reading(width);
    let mut accepted = 0;
    for length in 0..=bytes {
        for number in 0..1u32 << (8 * length) {
            let code = &number.to_be_bytes()[4 - length..];
            if let Some(sent) = read(&mut desk, rows, code) {
                assert_eq!(codes[code], sent);
                accepted += 1;
                desk = reading(width);
            }
        }
    }
    let short = codes.keys().filter(|code| code.len() <= bytes).count();
    assert_eq!(accepted, short, "width {width}, {rows} rows");
    accepted
}

#[test]
fn of_two_bytes() {
    for (width, rows) in sizes() {
        exactly_the_bands(width, rows, 2);
    }
}

/// 4 x 3 pels, where a code has a last FF: all codes of two bytes and one of
/// these endings.
#[test]
fn of_two_bytes_and_an_ff() {
    const ENDINGS: [&[u8]; 9] = [
        &[0xFF],
        &[0xFF, 0x00],
        &[0xFF, 0x01],
        &[0xFF, 0x7F],
        &[0xFF, 0x80],
        &[0xFF, 0x8F],
        &[0xFF, 0x90],
        &[0xFF, 0xFF],
        &[0xFF, 0x00, 0x00],
    ];
    let (width, rows) = (4, 3);
    let mut codes = codes(width, rows);
    codes.retain(|code, _| ENDINGS.contains(&&code[2..]));
    assert!(codes.contains_key(&[0xE0, 0xBD, 0xFF, 0x00][..]));
    let mut desk = reading(width);
    let mut accepted = BTreeMap::new();
    for front in 0..=u16::MAX {
        for ending in ENDINGS {
            let code = [&front.to_be_bytes(), ending].concat();
            if let Some(sent) = read(&mut desk, rows, &code) {
                accepted.insert(code, sent);
                desk = reading(width);
            }
        }
    }
    assert_eq!(accepted, codes);
}

/// Minutes; by hand: `cargo test --release --test all_codes -- --ignored`.
#[test]
#[ignore]
fn of_three_bytes() {
    let every_band = |(width, rows)| {
        let accepted = exactly_the_bands(width, rows, 3);
        assert_eq!(accepted, 1 << (width * rows), "a code of up to 3 bytes");
    };
    thread::scope(|scope| {
        scope.spawn(|| sizes().step_by(2).for_each(every_band));
        sizes().skip(1).step_by(2).for_each(every_band);
    });
}
