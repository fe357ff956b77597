//! The numbers of the interval, and what a table byte says of it.

use siftpebble_model::table::{after_expected, after_unexpected, ENTRIES, SIZES};

/// The bits below the 12 of the width: so many that the width 1.0 is the top
/// bit of a word, and the shifts of a width are its leading zeros. The reader
/// has so much of the code at hand.
pub const AHEAD: u32 = 19;

/// The width 1.0, below which the interval is doubled.
pub const ONE: u32 = 0x1000 << AHEAD;

/// The shifts before the first byte.
pub const FIRST: u32 = 12;

/// The bits of the lower end when a byte is due; one more is a carry.
pub const BITS: u32 = 24 + AHEAD;

/// What the coder needs to know of a table byte, looked up in one go.
#[derive(Clone, Copy)]
pub struct Estimate {
    /// The size of the unexpected part.
    pub size: u32,
    /// The table byte after an unexpected pel, and after an expected one that
    /// shifts.
    pub after: [u8; 2],
}

/// A power of two, so that a masked table byte needs no test.
const PADDED: usize = ENTRIES.next_power_of_two();

static ESTIMATES: [Estimate; PADDED] = estimates();

const fn estimates() -> [Estimate; PADDED] {
    let mut all = [estimate_of(0); PADDED];
    let mut entry = 1;
    while entry < ENTRIES {
        all[entry] = estimate_of(entry as u8);
        entry += 1;
    }
    all
}

const fn estimate_of(entry: u8) -> Estimate {
    Estimate {
        size: (SIZES[entry as usize / 2] as u32) << AHEAD,
        after: [after_unexpected(entry), after_expected(entry)],
    }
}

/// The estimate of a lawful table byte.
#[inline]
pub fn estimate(entry: u8) -> &'static Estimate {
    &ESTIMATES[usize::from(entry) % PADDED]
}
