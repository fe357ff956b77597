//! The least of calls on a full desk: what a call costs beside its band.

use crate::side::Side;
use crate::sides::Sides;
use crate::times::{measure, Times};
use crate::{CLASS, REPETITIONS, WIDTH};
use siftpebble::{PAGES, PLACES, TABLE_BYTES};
use siftpebble_model::Direction;

/// The first class with a learned table, and the first of the other pages.
pub const LEARNED: u64 = 11;
const OTHERS: u64 = 101;

const CALLS: usize = 500;

/// Fills an empty desk, but for one page and one place.
pub fn fill(desk: &mut dyn Side) {
    for class in (LEARNED..).take(PLACES - PAGES) {
        desk.open(class, Direction::Write, WIDTH as u64);
        desk.close(class);
    }
    for class in (OTHERS..).take(PAGES - 1) {
        desk.open(class, Direction::Write, WIDTH as u64);
    }
}

/// Full desks, one page of width 1.
fn full_desks(sides: &Sides, direction: Direction) -> Vec<Box<dyn Side>> {
    let mut desks = sides.copy();
    for desk in &mut desks {
        fill(&mut **desk);
        desk.open(CLASS, direction, 1);
    }
    desks
}

/// The codes of so many white bands of one pel, each from the state that the
/// one before left.
fn codes(sides: &Sides) -> Vec<[u8; 2]> {
    let mut desk = full_desks(sides, Direction::Write).remove(0);
    let mut code = [0; 2];
    let mut next = || {
        desk.write(CLASS, 1, &[0], &mut code);
        code
    };
    (0..CALLS).map(|_| next()).collect()
}

/// The same call so many times on a full desk.
fn time(sides: &Sides, mut call: impl FnMut(&mut dyn Side)) -> Times {
    let desks = full_desks(sides, Direction::Write);
    measure(&desks, REPETITIONS, 1, |desk, _, _| {
        for _ in 0..CALLS {
            call(desk);
        }
    })
}

/// Reads bands of 1 x 1.
fn time_reads(sides: &Sides) -> Times {
    let codes = codes(sides);
    let mut out = [0; 16];
    let desks = full_desks(sides, Direction::Read);
    measure(&desks, REPETITIONS, 1, |desk, _, _| {
        for code in &codes {
            desk.read(CLASS, 1, code, &mut out);
        }
    })
}

/// A table with a line for each call: nanoseconds a call.
pub fn time_calls(sides: &Sides) {
    println!("ns a call on a full desk ({PAGES} pages, {PLACES} places), {REPETITIONS} repetitions of {CALLS} calls;");
    println!("a band is 1 x 1, and the lent buffers are not cleared:");
    println!();
    println!("| call |{}", sides.head(""));
    println!("|---|{}", sides.rule());
    let line = |name, times: Times| println!("| {name} |{}", times.cells(CALLS));
    let (mut code, mut table) = ([0; 16], [0; TABLE_BYTES]);
    let write = |desk: &mut dyn Side| {
        desk.write(CLASS, 1, &[0], &mut code);
    };
    line("write", time(sides, write));
    line("read", time_reads(sides));
    line("look", time(sides, |desk| desk.look(LEARNED, &mut table)));
    line(
        "close, refused (2)",
        time(sides, |desk| desk.refused_close(LEARNED)),
    );
    println!();
}
