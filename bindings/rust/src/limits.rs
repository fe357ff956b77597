//! Document 01's limits. `include/siftpebble.h` has them under the same names,
//! behind `SIFTPEBBLE_`.

/// A school number and a class number are 1 to this.
pub const MAX_KEY: u64 = 65_535;

/// The open pages that a desk has room for.
pub const PAGES: usize = 4;

/// The class places of a desk.
pub const PLACES: usize = 8;

/// A page is 1 to this many pels wide.
pub const MAX_WIDTH: usize = 2_048;

/// A band has 1 to this many rows.
pub const MAX_ROWS: usize = 64;

/// The most bytes of a band's code.
pub const MAX_CODE: usize = 32_768;

/// The contexts of a table.
pub const CONTEXTS: usize = 128;

/// The bytes of a learned table: one for each context.
pub const TABLE_BYTES: usize = CONTEXTS;

/// The bytes of the widest row.
pub const MAX_ROW_BYTES: usize = MAX_WIDTH.div_ceil(8);

/// The bytes of all rows of the largest band.
pub const MAX_BAND_BYTES: usize = MAX_ROWS * MAX_ROW_BYTES;
