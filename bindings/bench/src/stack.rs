//! The stack that a call takes: how far down the bytes of a painted stack
//! change while it runs.

use crate::raw::{Calls, Library, Raw, Reply};
use crate::side::Side;
use crate::small::{fill, LEARNED};
use crate::times::short;
use crate::{CLASS, WIDTH};
use siftpebble::sys::{Answer, Desk};
use siftpebble::{MAX_CODE, MAX_ROWS};
use siftpebble_model::band::row_bytes;
use siftpebble_model::random::Random;
use siftpebble_model::{sample, Direction};
use std::hint::black_box;
use std::ptr::addr_of_mut;
use std::thread;

/// The bytes of the thread's stack, and how many of them are painted.
const STACK: usize = 1 << 20;
const PAINTED: usize = 1 << 18;

/// What is left below the frame that paints, for the frames of this file.
const GAP: usize = 1 << 12;

const PAINT: u8 = 0xA5;

/// Paints the stack below the gap, and answers where the paint begins.
#[inline(never)]
fn paint() -> *mut u8 {
    let mut here = 0;
    let top = addr_of_mut!(here).wrapping_sub(GAP);
    for down in 1..=PAINTED {
        // SAFETY: the thread has used little of its stack, which goes on for
        // more than this, and the gap is more than this function takes.
        unsafe { top.wrapping_sub(down).write_volatile(PAINT) };
    }
    top
}

/// Runs the work from a frame that ends below the gap.
#[inline(never)]
fn below(work: &mut dyn FnMut()) {
    let mut frame = [0u8; 2 * GAP];
    black_box(&mut frame);
    work();
    black_box(&mut frame);
}

/// How far down the paint changed.
#[inline(never)]
fn changed(top: *mut u8) -> usize {
    // SAFETY: these are the bytes that were painted.
    let is_changed = |&down: &usize| unsafe { top.wrapping_sub(down).read_volatile() } != PAINT;
    (1..=PAINTED).rev().find(is_changed).unwrap_or(0)
}

/// How far down the work goes on a stack of its own.
fn depth(mut work: impl FnMut() + Send) -> usize {
    let run = move || {
        let top = paint();
        below(&mut work);
        changed(top)
    };
    let stack = thread::Builder::new().stack_size(STACK);
    thread::scope(|scope| {
        let thread = stack.spawn_scoped(scope, run).expect("a thread");
        thread.join().expect("an accepted call")
    })
}

const ACCEPTED: Reply = Reply::new(Answer {
    number: 0,
    length: 0,
    shifts: 0,
    revisits: 0,
});

extern "C" fn no_bytes() -> usize {
    0
}

extern "C" fn no_empty(_: *mut Desk) {}

extern "C" fn no_open(_: *mut Desk, _: u64, _: u64, _: u64) -> Reply {
    ACCEPTED
}

extern "C" fn no_band(
    _: *mut Desk,
    _: u64,
    _: u64,
    _: u64,
    _: *const u8,
    _: usize,
    _: *mut u8,
    _: usize,
) -> Reply {
    ACCEPTED
}

extern "C" fn no_page(_: *mut Desk, _: u64, _: u64) -> Reply {
    ACCEPTED
}

extern "C" fn no_look(_: *mut Desk, _: u64, _: u64, _: *mut u8, _: usize) -> Reply {
    ACCEPTED
}

/// Calls that do nothing: what they take is not the library's.
fn idle() -> Calls {
    black_box(Calls {
        bytes: no_bytes,
        empty: no_empty,
        open_write: no_open,
        open_read: no_open,
        write: no_band,
        read: no_band,
        close: no_page,
        abandon: no_page,
        forget: no_page,
        look: no_look,
    })
}

/// A band, its code from a new page, and room for either.
struct Band {
    width: usize,
    rows: u64,
    pels: Vec<u8>,
    code: Vec<u8>,
    out: Vec<u8>,
}

impl Band {
    fn new(width: usize, rows: usize) -> Self {
        let pels = sample::noise(&mut Random::new(1), width, rows, 50);
        let (rows, room) = (rows as u64, MAX_CODE.max(rows * row_bytes(width)));
        let mut code = vec![0; MAX_CODE];
        let mut desk = Raw::new(Calls::linked());
        desk.open(CLASS, Direction::Write, width as u64);
        let length = desk.write(CLASS, rows, &pels, &mut code);
        code.truncate(length);
        let out = vec![0; room];
        Band {
            width,
            rows,
            pels,
            code,
            out,
        }
    }
}

/// A call, and the page that it asks for: with none open in either direction,
/// the desk has room for one page.
struct Row {
    call: &'static str,
    page: Option<Direction>,
    work: fn(&mut Raw, &mut Band),
}

const TO_WRITE: Option<Direction> = Some(Direction::Write);
const TO_READ: Option<Direction> = Some(Direction::Read);

/// The calls on a band.
const BANDS: [Row; 2] = [
    Row {
        call: "write",
        page: TO_WRITE,
        work: |desk, band| {
            desk.write(CLASS, band.rows, &band.pels, &mut band.out);
        },
    },
    Row {
        call: "read",
        page: TO_READ,
        work: |desk, band| desk.read(CLASS, band.rows, &band.code, &mut band.out),
    },
];

/// The others.
const CALLS: [Row; 6] = [
    Row {
        call: "open",
        page: None,
        work: |desk, band| desk.open(CLASS, Direction::Write, band.width as u64),
    },
    Row {
        call: "close",
        page: TO_WRITE,
        work: |desk, _| desk.close(CLASS),
    },
    Row {
        call: "abandon",
        page: TO_WRITE,
        work: |desk, _| assert_eq!(desk.page(desk.calls.abandon, CLASS), 0),
    },
    Row {
        call: "drop",
        page: TO_WRITE,
        work: |desk, _| assert_eq!(desk.page(desk.calls.forget, LEARNED), 0),
    },
    Row {
        call: "look",
        page: TO_WRITE,
        work: |desk, band| desk.look(LEARNED, &mut band.out),
    },
    Row {
        call: "empty",
        page: TO_WRITE,
        work: |desk, _| desk.empty(),
    },
];

impl Row {
    /// How far down the call goes on a full desk of these calls.
    fn depth(&self, calls: Calls, band: &mut Band) -> usize {
        let mut desk = Raw::new(calls);
        fill(&mut desk);
        if let Some(direction) = self.page {
            desk.open(CLASS, direction, band.width as u64);
        }
        depth(|| (self.work)(&mut desk, band))
    }

    /// The cells of a table: what it takes in each library.
    fn cells(&self, libraries: &[Calls], band: &mut Band) -> String {
        let nothing = self.depth(idle(), band);
        let mut taken = |&calls| self.depth(calls, band) - nothing;
        let taken: Vec<usize> = libraries.iter().map(&mut taken).collect();
        let ratio = |&bytes: &usize| match (taken[0], bytes) {
            (0, 0) => "1".into(),
            (mine, theirs) => short(mine as f64 / theirs as f64),
        };
        let others = taken[1..].iter();
        let others = others.map(|bytes| format!(" {bytes} | {} |", ratio(bytes)));
        format!(" {} |{}", taken[0], others.collect::<String>())
    }
}

/// A table with a line for each call: bytes of stack.
pub fn measure_calls(others: &[Library]) {
    let loaded = others.iter().map(|library| library.calls);
    let libraries: Vec<Calls> = [Calls::linked()].into_iter().chain(loaded).collect();
    let names = others.iter().map(|library| &library.name);
    let names: String = names.map(|name| format!(" {name} | ratio |")).collect();
    println!("Bytes of stack that a call takes on a full desk:");
    println!();
    println!("| call | library |{names}");
    println!("|---|---|{}", "---|---|".repeat(others.len()));
    let mut bands = [Band::new(WIDTH, MAX_ROWS), Band::new(1, 1)];
    for row in &BANDS {
        for band in &mut bands {
            let cells = row.cells(&libraries, band);
            println!("| {}, {} x {} |{cells}", row.call, band.width, band.rows);
        }
    }
    for row in &CALLS {
        println!("| {} |{}", row.call, row.cells(&libraries, &mut bands[0]));
    }
}
