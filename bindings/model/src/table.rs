//! The thirty rows of the Q-table, and the table of a class.

/// A context is a number below this.
pub const CONTEXTS: usize = 128;

/// One byte for each context: 2 x index + sense.
pub type Table = [u8; CONTEXTS];

/// The fresh table: index 0 and sense 0 everywhere.
pub const FRESH: Table = [0; CONTEXTS];

/// A table byte is lawful below this.
pub const ENTRIES: usize = 2 * SIZES.len();

/// The size of the unexpected part, index 0 to 29.
pub const SIZES: [u16; 30] = [
    0x0AC1, 0x0A81, 0x0A01, 0x0901, 0x0701, 0x0681, 0x0601, 0x0501, 0x0481, 0x0441, //
    0x0381, 0x0301, 0x02C1, 0x0281, 0x0241, 0x0181, 0x0121, 0x00E1, 0x00A1, 0x0071, //
    0x0059, 0x0053, 0x0027, 0x0017, 0x0013, 0x000B, 0x0007, 0x0005, 0x0003, 0x0001,
];

/// What the coder needs to know of a table byte, looked up in one go.
#[derive(Clone, Copy)]
pub struct Estimate {
    pub size: u32,
    pub after_expected: u8,
    pub after_unexpected: u8,
}

/// The estimate of every lawful table byte.
pub static ESTIMATES: [Estimate; ENTRIES] = estimates();

const fn estimates() -> [Estimate; ENTRIES] {
    let mut all = [Estimate {
        size: 0,
        after_expected: 0,
        after_unexpected: 0,
    }; ENTRIES];
    let mut entry = 0;
    while entry < ENTRIES {
        all[entry] = Estimate {
            size: SIZES[entry / 2] as u32,
            after_expected: after_expected(entry as u8),
            after_unexpected: after_unexpected(entry as u8),
        };
        entry += 1;
    }
    all
}

/// The table byte after a renormalisation on the expected pel.
pub const fn after_expected(entry: u8) -> u8 {
    if entry / 2 == 29 {
        entry
    } else {
        entry + 2
    }
}

/// The table byte after an unexpected pel.
pub const fn after_unexpected(entry: u8) -> u8 {
    match entry / 2 {
        0 => entry ^ 1,
        1..=6 => entry - 2,
        24 | 26 | 28 => entry - 6,
        _ => entry - 4,
    }
}
