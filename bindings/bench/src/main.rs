//! Measures the library beside the same rules in ordinary Rust, plain and fast,
//! and, where shared libraries are given as NAME=PATH, beside those other
//! builds of it, all in one run, and writes the results as tables for
//! docs/BENCHMARKS.md: whole pages, some of them with the lent buffer cleared
//! before each call, single bands, the least of calls, and the stack of each
//! call.
//!
//! All take turns at every band. A time is made of the best times of its bands
//! over many repetitions; a ratio is the median of the repetitions' own ratios,
//! with their tenth and ninetieth percentile. Each repetition starts from
//! copies of the same desks, made before the clock starts. The lent buffers are
//! the same ones throughout.

mod page;
mod raw;
mod sheet;
mod sheets;
mod side;
mod sides;
mod small;
mod stack;
mod times;

use raw::Library;
use sheet::Sheet;
use sheets::{time_cleared, time_sheets};
use sides::Sides;
use siftpebble::{MAX_CODE, MAX_ROWS as ROWS, MAX_WIDTH as WIDTH};
use siftpebble_model::random::Random;
use siftpebble_model::sample;

const NARROW: usize = 48;
const CLASS: u64 = 5;

const REPETITIONS: usize = 300;
const PAGE_REPETITIONS: usize = 25;

/// Pages on which clearing may show, being quick, and one on which it cannot.
const CLEARED: [&str; 4] = ["white", "ruled", "worksheet", "random 50 %"];

const HEAD: &str = "\
The sides: `library` is proved; `plain` is the rules in ordinary Rust; `fast` is ordinary Rust whose
writes and reads have every trick, and whose other calls are plain's. All must give the same codes
and rows, and they take turns at every band. A time is that of each band's best repetition, added up.
A ratio is the library's time divided by the other side's in the same repetition: the median of the
repetitions, and in brackets their tenth and ninetieth percentile.
";

/// Single bands of the greatest size, and too narrow for runs.
fn bands() -> Vec<Sheet> {
    let mut random = Random::new(1);
    let band = |name, pels| Sheet::new(name, WIDTH, pels, REPETITIONS);
    let narrow = |name, pels| Sheet::new(name, NARROW, pels, REPETITIONS);
    vec![
        band("white", sample::rows(WIDTH, ROWS, |_, _| false)),
        band("ruled", sample::ruled(WIDTH, ROWS)),
        band("random", sample::noise(&mut random, WIDTH, ROWS, 50)),
        band("halftone", sample::halftone(WIDTH, ROWS)),
        band("dots", sample::dots(&mut random, WIDTH, ROWS, 8)),
        narrow("narrow, white", sample::rows(NARROW, ROWS, |_, _| false)),
        narrow("narrow, dots", sample::dots(&mut random, NARROW, ROWS, 8)),
    ]
}

/// Whole pages.
fn pages() -> Vec<Sheet> {
    let sheet = |(name, pels)| Sheet::new(name, page::WIDTH, pels, PAGE_REPETITIONS);
    page::all().into_iter().map(sheet).collect()
}

/// Whole pages, in the buffers as they are, and some in cleared ones.
fn time_pages(sides: &Sides) {
    let pages = pages();
    let (width, height) = (page::WIDTH, page::HEIGHT);
    println!("ns a pel, pages of {width} x {height} in bands of {ROWS} rows, {PAGE_REPETITIONS} repetitions; the lent");
    println!("buffers are not cleared:");
    println!();
    time_sheets(sides, "page", &pages);
    let band = pages[0].band_bytes();
    println!("The same, and with all of the lent buffer cleared before each call, inside the time: {MAX_CODE}");
    println!("bytes for a write, {band} for a read. The ratio is the time so divided by the time without:");
    println!();
    let chosen = pages.iter().filter(|page| CLEARED.contains(&page.name));
    time_cleared(sides, chosen);
}

/// Single bands, in the buffers as they are.
fn time_bands(sides: &Sides) {
    println!("ns a pel, bands of {WIDTH} x {ROWS} ({NARROW} x {ROWS} where narrow) from a new page, {REPETITIONS}");
    println!("repetitions; the lent buffers are not cleared:");
    println!();
    time_sheets(sides, "band", &bands());
}

fn main() {
    let named: Vec<String> = std::env::args().skip(1).collect();
    let others: Vec<Library> = named.iter().map(|named| Library::load(named)).collect();
    let sides = Sides::new(&others);
    println!("{HEAD}");
    time_pages(&sides);
    time_bands(&sides);
    small::time_calls(&sides);
    stack::measure_calls(&others);
}
