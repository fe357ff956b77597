//! Demand 3 on the library: strike out, serve one page at a time, compare.
//!
//! `SIFTPEBBLE_TIMES=n` tries n times as many runs, `SIFTPEBBLE_SEED=n` others.

mod common;

use common::library::Safe;
use common::setting;
use siftpebble_model::turns::check_runs;

const RUNS: u64 = 3000;

fn main() {
    let first = setting("SIFTPEBBLE_SEED", 1) << 32;
    let runs = RUNS * setting("SIFTPEBBLE_TIMES", 1);
    let total = check_runs::<Safe>(first, runs as usize);
    println!("strike out and serve: {runs} runs of {} calls", total.calls);
    println!(
        "served again: {} calls, {} of them bands",
        total.served, total.bands
    );
    println!("calls before one that was earlier: {}", total.moved);
    println!("learned tables at the end: {}", total.tables);
    assert!(total.bands > 1000 && total.moved > 1000 && total.tables > 1000);
}
