//! The packed file around the codes, as docs/FORMAT.md describes it: its parts,
//! and how they are written. All numbers are big-endian.

use crate::crc::crc32;
use crate::pbm::row_bytes;
use siftpebble::{Key, MAX_CODE, MAX_KEY, MAX_ROWS, MAX_WIDTH};

pub const MAGIC: &[u8] = b"SIFT";
pub const VERSION: u8 = 2;
/// The version before, whose codes may end in FF.
pub const OLD_VERSION: u8 = 1;
pub const END: &[u8] = b"END\n";
pub const HEADER_BYTES: usize = 16;

/// The most pages of a file.
pub const MAX_PAGES: usize = 65_535;

/// The most rows of a page.
pub const MAX_HEIGHT: usize = 65_535;

// the library's limits fit the fields that a file has for them
const _: () = assert!(MAX_ROWS <= u8::MAX as usize);
const _: () = assert!(MAX_KEY <= u16::MAX as u64);
const _: () = assert!(MAX_WIDTH <= u16::MAX as usize);
const _: () = assert!(MAX_CODE <= u16::MAX as usize);

/// What a file says of all its pages.
#[derive(Clone, Copy)]
pub struct Header {
    pub key: Key,
    /// The rows of a band; the last one of a page may have fewer.
    pub rows: usize,
    pub pages: usize,
}

/// What a file says of one page, before its codes.
pub struct Record {
    pub name: String,
    pub width: usize,
    pub height: usize,
    /// The bytes of each band's code.
    pub lengths: Vec<usize>,
    /// The CRC-32 of the page's packed rows.
    pub sum: u32,
}

impl Record {
    /// The bytes of the page's packed rows.
    pub fn raw_bytes(&self) -> usize {
        self.height * row_bytes(self.width)
    }

    /// The bytes of its codes.
    pub fn code_bytes(&self) -> usize {
        self.lengths.iter().sum()
    }

    /// The rows of each band, for bands of so many rows.
    pub fn band_rows(&self, rows: usize) -> impl Iterator<Item = usize> + '_ {
        (0..self.height)
            .step_by(rows)
            .map(move |y| rows.min(self.height - y))
    }
}

pub fn put_header(header: &Header, out: &mut Vec<u8>) {
    let start = out.len();
    out.extend_from_slice(MAGIC);
    out.push(VERSION);
    out.push(header.rows as u8);
    put_16(header.key.school as usize, out);
    put_16(header.key.class as usize, out);
    put_16(header.pages, out);
    let sum = crc32(&out[start..]);
    out.extend_from_slice(&sum.to_be_bytes());
}

pub fn put_record(record: &Record, out: &mut Vec<u8>) {
    let start = out.len();
    put_16(record.width, out);
    put_16(record.height, out);
    out.push(record.name.len() as u8);
    out.extend_from_slice(record.name.as_bytes());
    for &length in &record.lengths {
        put_16(length, out);
    }
    out.extend_from_slice(&record.sum.to_be_bytes());
    let sum = crc32(&out[start..]);
    out.extend_from_slice(&sum.to_be_bytes());
}

pub fn put_end(out: &mut Vec<u8>) {
    out.extend_from_slice(END);
}

fn put_16(number: usize, out: &mut Vec<u8>) {
    let number = u16::try_from(number).expect("a number within its limit");
    out.extend_from_slice(&number.to_be_bytes());
}
