//! Rows seen 64 pels at a time, and runs of pels that are alike.

/// Eight bytes of a row, the leftmost pel on top; white beyond the row.
#[inline]
pub fn load(row: &[u8], at: usize) -> u64 {
    match row.get(at..at + 8) {
        Some(bytes) => u64::from_be_bytes(bytes.try_into().expect("eight bytes")),
        None => load_edge(row, at),
    }
}

/// The same where the row has fewer than eight bytes left.
#[inline(never)]
fn load_edge(row: &[u8], at: usize) -> u64 {
    let left = row.len().saturating_sub(at);
    match row.last_chunk() {
        _ if left == 0 => 0,
        Some(bytes) => u64::from_be_bytes(*bytes) << (64 - 8 * left),
        None => {
            let word = row[at..]
                .iter()
                .fold(0, |word, &byte| word << 8 | u64::from(byte));
            word << (64 - 8 * left)
        }
    }
}

/// The window of x: its top bit is the pel x - 2, the leftmost neighbour.
#[inline]
pub fn window(row: &[u8], x: usize) -> u64 {
    match x.checked_sub(2) {
        Some(first) => load(row, first / 8) << (first % 8),
        None => load(row, 0) >> (2 - x),
    }
}

/// How many pels from x on have all their neighbours in the window of x. Two
/// pels behind them a byte begins.
#[inline]
pub fn reach(x: usize) -> usize {
    match x.checked_sub(2) {
        Some(first) => 60 - first % 8,
        None => 54 - x,
    }
}

/// Stores the pels up to x, the last ones read, from the byte of `start` on.
/// What it stores behind x is stored once more later.
#[inline]
pub fn store(row: &mut [u8], start: usize, x: usize, here: u64) {
    let at = start / 8;
    let pels = x - 8 * at;
    if pels == 0 {
        return;
    }
    let bytes = (here << (64 - pels)).to_be_bytes();
    match row.get_mut(at..at + 8) {
        Some(place) => place.copy_from_slice(&bytes),
        None => {
            let place = &mut row[at..];
            place.copy_from_slice(&bytes[..place.len()]);
        }
    }
}

/// A run of fewer pels is not worth the way around.
pub const LEAST_RUN: u32 = 4;

/// As many pels of the colour of the top one.
#[inline]
pub fn fill(word: u64) -> u64 {
    (word as i64 >> 63) as u64
}

/// The context whose neighbours are filled so: 0, 3, 124 or 127. It is the
/// next pel's too, if that one and the pel that comes into view are like them.
#[inline]
pub fn uniform(over: u64, here: u64) -> usize {
    (over & 124 | here & 3) as usize
}

/// The end of a white run that is known to reach `end`, two pels before a
/// byte: it goes on up to the first black pel of the row, or to two pels
/// before the first one above. Beyond the right edge all is white.
#[inline]
pub fn white_end(above: &[u8], row: &[u8], end: usize) -> usize {
    let start = (end + 2) / 8;
    if row[start - 1] & 3 != 0 {
        return end;
    }
    let (above, row) = (&above[start..], &row[start..]);
    let at = white_bytes::<32>(above, row, 0);
    let at = white_bytes::<8>(above, row, at);
    let black = load(above, at) | load(row, at) >> 2;
    end + 8 * at + black.leading_zeros() as usize
}

/// Goes on from the byte `at` while so many bytes of both rows are white.
#[inline]
fn white_bytes<const BYTES: usize>(above: &[u8], row: &[u8], at: usize) -> usize {
    let (above, _) = above[at..].as_chunks::<BYTES>();
    let (row, _) = row[at..].as_chunks::<BYTES>();
    let pairs = above.iter().zip(row);
    let white = pairs.take_while(|(above, row)| ink(above) | ink(row) == 0);
    at + BYTES * white.count()
}

/// Zero if all these bytes are white.
#[inline]
fn ink<const BYTES: usize>(bytes: &[u8; BYTES]) -> u64 {
    let (words, _) = bytes.as_chunks::<8>();
    words
        .iter()
        .fold(0, |all, word| all | u64::from_ne_bytes(*word))
}
