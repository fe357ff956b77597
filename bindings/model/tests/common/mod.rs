//! What the tests of codes share: bands written, and what holds of every code.

#![allow(dead_code)] // no test uses all of it

use siftpebble_model::band::{self, Band, State, MAX_CODE};
use siftpebble_model::sample;
use siftpebble_model::table::FRESH;

pub fn new_page() -> State {
    let last = [0; 256];
    State { table: FRESH, last }
}

/// Writes a band; answers the code, the answer and the state after it.
pub fn write_band(from: &State, width: usize, pels: &[u8]) -> (Vec<u8>, Band, State) {
    let mut state = from.clone();
    let mut out = vec![0; MAX_CODE];
    let band = band::write(&mut state, width, pels, &mut out, ()).expect("room");
    out.truncate(band.length);
    (out, band, state)
}

/// The same with no more than S of the answer.
pub fn write(from: &State, width: usize, pels: &[u8]) -> (Vec<u8>, u64, State) {
    let (code, band, state) = write_band(from, width, pels);
    (code, band.shifts, state)
}

/// The context by its definition.
pub fn context(above: &[u8], row: &[u8], width: usize, x: usize) -> usize {
    let pel = |line: &[u8], shift: isize| match x.checked_add_signed(shift) {
        Some(at) if at < width => usize::from(line[at / 8] >> (7 - at % 8) & 1),
        _ => 0,
    };
    pel(row, -1)
        + 2 * pel(row, -2)
        + 4 * pel(above, 2)
        + 8 * pel(above, 1)
        + 16 * pel(above, 0)
        + 32 * pel(above, -1)
        + 64 * pel(above, -2)
}

/// All bands of a size.
pub fn all_bands(width: usize, rows: usize) -> impl Iterator<Item = Vec<u8>> {
    let pels = width * rows;
    (0..1usize << pels)
        .map(move |n| sample::rows(width, rows, |x, y| n >> (y * width + x) & 1 == 1))
}

/// The bits that these bytes bring: 8 each, or 7 after an FF.
pub fn places(code: &[u8]) -> u64 {
    let after_ff = code.windows(2).filter(|pair| pair[0] == 0xFF);
    (8 * code.len() - after_ff.count()) as u64
}

/// A code without the 00 that follows a last FF: S tells whether its bits
/// needed that byte.
pub fn made(code: &[u8], shifts: u64) -> &[u8] {
    match code {
        [made @ .., 0x00] if made.ends_with(&[0xFF]) && places(made) >= 12 + shifts => made,
        _ => code,
    }
}

/// The length rule for a code of n bytes, before request E2.
pub fn is_short(n: usize, shifts: u64) -> bool {
    let before_last = n as u64 - 1;
    8 * before_last - before_last / 2 <= 11 + shifts
}

/// What holds of every code. Its bytes are made until they cover all 12 + S
/// bits; where the last one is FF, one more byte 00 follows. The length rule
/// gains one byte in that case. The byte after an FF is at most 8F.
pub fn assert_bounds(code: &[u8], shifts: u64) {
    let made = made(code, shifts);
    assert!(places(made) >= 12 + shifts);
    assert!(places(&made[..made.len() - 1]) < 12 + shifts);
    let added: &[u8] = if made.ends_with(&[0xFF]) {
        &[0x00]
    } else {
        &[]
    };
    assert_eq!(code, [made, added].concat());
    assert!(is_short(code.len() - added.len(), shifts));
    let mut pairs = code.windows(2);
    assert!(pairs.all(|pair| pair[0] != 0xFF || pair[1] <= 0x8F));
}
