//! Sheets as all sides write and read them: the lines of their tables.

use crate::sheet::Sheet;
use crate::side::Side;
use crate::sides::Sides;
use crate::times::{measure, Times};
use crate::CLASS;
use siftpebble::MAX_CODE;
use siftpebble_model::Direction;

/// What is done with the lent buffer before each call, inside the time. No call
/// needs it cleared: an accepted one writes its front and leaves the rest.
#[derive(Clone, Copy)]
enum Before {
    AsItIs,
    Cleared,
}

impl Before {
    fn lend(self, buffer: &mut [u8]) -> &mut [u8] {
        if let Before::Cleared = self {
            buffer.fill(0);
        }
        buffer
    }
}

const AS_IT_IS: &[Before] = &[Before::AsItIs];
const BOTH: &[Before] = &[Before::AsItIs, Before::Cleared];

/// The same desks with a page of that width open.
fn opened(sides: &Sides, direction: Direction, width: usize) -> Vec<Box<dyn Side>> {
    let mut desks = sides.copy();
    for desk in &mut desks {
        desk.open(CLASS, direction, width as u64);
    }
    desks
}

/// The same for each of these ways, one after the other.
fn opened_for(
    ways: &[Before],
    sides: &Sides,
    direction: Direction,
    width: usize,
) -> Vec<Box<dyn Side>> {
    let desks = ways.iter().map(|_| opened(sides, direction, width));
    desks.flatten().collect()
}

/// The codes of a sheet's bands, which all sides must give.
fn codes_of(sides: &Sides, sheet: &Sheet) -> Vec<Vec<u8>> {
    let desks = opened(sides, Direction::Write, sheet.width);
    let mut codes = desks.into_iter().map(|mut desk| {
        let write = |(rows, pels): (u64, &[u8])| {
            let mut code = vec![0; MAX_CODE];
            let length = desk.write(CLASS, rows, pels, &mut code);
            code.truncate(length);
            code
        };
        sheet.bands().map(write).collect::<Vec<_>>()
    });
    let first = codes.next().expect("the library");
    assert!(codes.all(|code| code == first), "the codes differ");
    first
}

/// Writes a sheet again and again, in each of these ways.
fn time_write(sides: &Sides, sheet: &Sheet, ways: &[Before]) -> Times {
    let mut code = vec![0; MAX_CODE];
    let desks = opened_for(ways, sides, Direction::Write, sheet.width);
    let bands: Vec<_> = sheet.bands().collect();
    measure(
        &desks,
        sheet.repetitions,
        bands.len(),
        |desk, side, band| {
            let (way, (rows, pels)) = (ways[side / sides.count()], bands[band]);
            desk.write(CLASS, rows, pels, way.lend(&mut code));
        },
    )
}

/// Reads a sheet again and again, in each of these ways.
fn time_read(sides: &Sides, codes: &[Vec<u8>], sheet: &Sheet, ways: &[Before]) -> Times {
    let mut out = vec![0; sheet.band_bytes()];
    let desks = opened_for(ways, sides, Direction::Read, sheet.width);
    for mut desk in desks.iter().map(|desk| desk.copy()) {
        for ((rows, pels), code) in sheet.bands().zip(codes) {
            out.fill(0xA5);
            desk.read(CLASS, rows, code, &mut out);
            assert_eq!(&out[..pels.len()], pels, "the rows differ");
        }
    }
    let rows: Vec<u64> = sheet.bands().map(|(rows, _)| rows).collect();
    measure(
        &desks,
        sheet.repetitions,
        codes.len(),
        |desk, side, band| {
            let way = ways[side / sides.count()];
            desk.read(CLASS, rows[band], &codes[band], way.lend(&mut out));
        },
    )
}

/// A table with a line for each sheet: nanoseconds a pel, in the buffers as
/// they are.
pub fn time_sheets(sides: &Sides, what: &str, sheets: &[Sheet]) {
    let (write, read) = (sides.head("write: "), sides.head("read: "));
    println!("| {what} | code bytes |{write}{read}");
    println!("|---|---|{0}{0}", sides.rule());
    for sheet in sheets {
        let codes = codes_of(sides, sheet);
        let write = time_write(sides, sheet, AS_IT_IS).cells(sheet.pels());
        let read = time_read(sides, &codes, sheet, AS_IT_IS).cells(sheet.pels());
        let bytes: usize = codes.iter().map(Vec::len).sum();
        println!("| {} | {bytes} |{write}{read}", sheet.name);
    }
    println!();
}

/// The same for each side in both ways, a line for each sheet and job.
pub fn time_cleared<'a>(sides: &Sides, sheets: impl Iterator<Item = &'a Sheet>) {
    println!("| page, job |{}", sides.head_of_pairs("cleared"));
    println!("|---|{}", sides.rule_of_pairs());
    for sheet in sheets {
        let codes = codes_of(sides, sheet);
        let write = time_write(sides, sheet, BOTH).pairs(sheet.pels());
        let read = time_read(sides, &codes, sheet, BOTH).pairs(sheet.pels());
        println!("| {}, write |{write}", sheet.name);
        println!("| {}, read |{read}", sheet.name);
    }
    println!();
}
