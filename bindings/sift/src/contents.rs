//! What is in a packed file. Any bytes may come in: no length is believed
//! before the bytes are there.

use crate::crc::crc32;
use crate::frame::{Header, Record, END, HEADER_BYTES, MAGIC, MAX_HEIGHT, MAX_PAGES};
use crate::frame::{OLD_VERSION, VERSION};
use crate::name;
use siftpebble::{Key, MAX_CODE, MAX_KEY, MAX_ROWS, MAX_WIDTH};
use std::collections::HashSet;
use std::ops::Range;

/// A page as it lies in a file.
pub struct Page {
    pub record: Record,
    /// Where its codes are.
    pub codes: Range<usize>,
}

/// A file's header and all its pages, or those before the first fault.
pub struct Contents {
    pub header: Header,
    pub pages: Vec<Page>,
    pub faults: Vec<String>,
}

impl Contents {
    /// Takes a file apart. Only a header that is wrong is an error by itself:
    /// what stands before a later fault can still be read.
    pub fn of(bytes: &[u8]) -> Result<Self, String> {
        let header = header(bytes)?;
        let (mut found, mut faults) = (Vec::new(), Vec::new());
        if let Err(fault) = pages(bytes, &header, &mut found) {
            faults.push(fault);
            faults.extend(lost(found.len() + 2, header.pages));
        }
        Ok(Contents {
            header,
            pages: found,
            faults,
        })
    }
}

/// What is said of the pages after one whose place or size is in doubt.
fn lost(first: usize, last: usize) -> Option<String> {
    match first {
        _ if first > last => None,
        _ if first == last => Some(format!(
            "page {last}: not read, since it is not known where it starts"
        )),
        _ => Some(format!(
            "pages {first} to {last}: not read, since it is not known where they start"
        )),
    }
}

fn check_version(version: u8) -> Result<(), String> {
    match version {
        VERSION => Ok(()),
        OLD_VERSION => Err(format!(
            "it is a packed file of the old version {OLD_VERSION}, whose codes may end in FF: \
             unpack it with an older sift, and pack it again with this one"
        )),
        other => Err(format!(
            "its format is version {other}, and {VERSION} is known"
        )),
    }
}

fn header(bytes: &[u8]) -> Result<Header, String> {
    if !bytes.starts_with(MAGIC) {
        return Err("it is no packed file: it does not start with SIFT".into());
    }
    if let Some(&version) = bytes.get(MAGIC.len()) {
        check_version(version)?;
    }
    let Some(bytes) = bytes.get(..HEADER_BYTES) else {
        return Err("the file ends within its header".into());
    };
    if !sum_is_right(bytes) {
        return Err("the header is damaged: its checksum differs".into());
    }
    let key = Key {
        school: get_16(bytes, 6) as u64,
        class: get_16(bytes, 8) as u64,
    };
    let (rows, pages) = (usize::from(bytes[5]), get_16(bytes, 10));
    let numbers = 1..=MAX_KEY;
    let lawful = numbers.contains(&key.school)
        && numbers.contains(&key.class)
        && (1..=MAX_ROWS).contains(&rows)
        && (1..=MAX_PAGES).contains(&pages);
    if !lawful {
        return Err("the header has a number out of its limits".into());
    }
    Ok(Header { key, rows, pages })
}

/// Adds the pages as far as they are right.
fn pages(bytes: &[u8], header: &Header, pages: &mut Vec<Page>) -> Result<(), String> {
    let mut names = HashSet::new();
    let mut at = HEADER_BYTES;
    for number in 1..=header.pages {
        let record = record(bytes, at, header.rows);
        let (record, start) = record.map_err(|fault| format!("page {number}: {fault}"))?;
        let name = &record.name;
        if !names.insert(name.clone()) {
            return Err(format!(
                "page {number} ({name}): an earlier page has that name"
            ));
        }
        at = start + record.code_bytes();
        if at > bytes.len() {
            let band = cut_band(&record.lengths, bytes.len() - start);
            let fault = "the file ends within its code";
            return Err(format!("page {number} ({name}), band {band}: {fault}"));
        }
        let codes = start..at;
        pages.push(Page { record, codes });
    }
    match &bytes[at..] {
        END => Ok(()),
        rest if rest.starts_with(END) => Err("bytes follow the end mark".into()),
        rest if END.starts_with(rest) => Err("the file ends before its end mark".into()),
        _ => Err("there is no end mark after the last page".into()),
    }
}

/// The number of the first band that does not lie in so many bytes.
fn cut_band(lengths: &[usize], bytes: usize) -> usize {
    let ends = lengths.iter().scan(0, |end, length| {
        *end += length;
        Some(*end)
    });
    1 + ends.take_while(|&end| end <= bytes).count()
}

/// The page record that starts here, and where it ends.
fn record(bytes: &[u8], at: usize, rows: usize) -> Result<(Record, usize), String> {
    let ends = || "the file ends within the page record".to_string();
    let rest = &bytes[at..];
    let fixed = rest.get(..5).ok_or_else(ends)?;
    let (width, height) = (get_16(fixed, 0), get_16(fixed, 2));
    let bands = 5 + usize::from(fixed[4]);
    let sum = bands + 2 * height.div_ceil(rows);
    let record = rest.get(..sum + 8).ok_or_else(ends)?;
    if !sum_is_right(record) {
        return Err("the page record is damaged: its checksum differs".into());
    }
    let name = std::str::from_utf8(&record[5..bands]);
    let name = name.map_err(|_| "the page's name is not UTF-8")?;
    name::check(name)?;
    let lengths: Vec<_> = (bands..sum)
        .step_by(2)
        .map(|at| get_16(record, at))
        .collect();
    let lawful = (1..=MAX_WIDTH).contains(&width)
        && (1..=MAX_HEIGHT).contains(&height)
        && lengths.iter().all(|length| (1..=MAX_CODE).contains(length));
    if !lawful {
        return Err("the page record has a number out of its limits".into());
    }
    let page = Record {
        name: name.to_string(),
        width,
        height,
        lengths,
        sum: get_32(record, sum),
    };
    Ok((page, at + record.len()))
}

/// Whether the last four bytes are the sum of those before them.
fn sum_is_right(bytes: &[u8]) -> bool {
    let (rest, sum) = bytes.split_at(bytes.len() - 4);
    crc32(rest).to_be_bytes() == sum
}

fn get_16(bytes: &[u8], at: usize) -> usize {
    usize::from(bytes[at]) << 8 | usize::from(bytes[at + 1])
}

fn get_32(bytes: &[u8], at: usize) -> u32 {
    (get_16(bytes, at) as u32) << 16 | get_16(bytes, at + 2) as u32
}
