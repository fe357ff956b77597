//! A band written.

use crate::estimate::{estimate, FIRST, ONE};
use crate::made::Made;
use crate::window::{fill, reach, uniform, white_end, window, LEAST_RUN};
use siftpebble_model::band::{row_bytes, Band, State, MAX_CODE};
use siftpebble_model::{Refusal, Table};
use std::hint::select_unpredictable as select;

/// Writes whole rows into the front of `out` and moves the state on, as the
/// model does. When refused, the state is as before and `out` is spoiled.
pub fn write(
    state: &mut State,
    width: usize,
    pels: &[u8],
    out: &mut [u8],
) -> Result<Band, Refusal> {
    let room = out.len().min(MAX_CODE);
    let mut code = Made::new(&mut out[..room]);
    let mut interval = Interval {
        width: ONE,
        lower: 0,
        due: FIRST,
        revisits: 0,
    };
    let State { mut table, last } = state.clone();
    let mut above = &last[..row_bytes(width)];
    for row in pels.chunks_exact(row_bytes(width)) {
        write_row(&mut interval, &mut code, &mut table, above, row, width)?;
        above = row;
    }
    let shifts = code.finish(interval.lower, interval.due)?;
    state.table = table;
    state.last[..above.len()].copy_from_slice(above);
    Ok(Band {
        length: code.length(),
        shifts: u64::from(shifts),
        revisits: u64::from(interval.revisits),
    })
}

/// The interval, in a few registers.
#[derive(Clone, Copy)]
struct Interval {
    width: u32,
    /// The lower end less the value of the bytes made.
    lower: u64,
    /// Shifts until the next byte.
    due: u32,
    revisits: u32,
}

impl Interval {
    /// Doubles the interval up to 1.0.
    #[inline(always)]
    fn shift(&mut self, code: &mut Made) {
        let doublings = (self.width | 1).leading_zeros();
        self.width <<= doublings;
        if doublings < self.due {
            self.lower <<= doublings;
            self.due -= doublings;
        } else {
            (self.lower, self.due) = code.bytes(self.lower, self.due, doublings);
        }
    }

    /// One pel, with no guess whether it is expected or whether it shifts.
    #[inline(always)]
    fn pel(&mut self, code: &mut Made, entry: &mut u8, pel: u8) {
        let before = *entry;
        let found = estimate(before);
        let size = found.size;
        let expected = (before ^ pel) & 1 == 0;
        let after = found.after[usize::from(expected)];
        self.lower += u64::from(select(expected, size, 0));
        self.width = select(expected, self.width - size, size);
        let revisited = self.width < ONE;
        *entry = select(revisited, after, before);
        self.revisits += u32::from(revisited);
        self.shift(code);
    }

    /// So many expected pels of one context.
    #[inline(always)]
    fn run(&mut self, code: &mut Made, entry: &mut u8, pels: u32) {
        let mut left = pels;
        while left > 0 {
            let found = estimate(*entry);
            let still = self.width - ONE;
            let all = u64::from(left) * u64::from(found.size);
            if all <= u64::from(still) {
                self.width -= all as u32;
                self.lower += all;
                break;
            }
            let few = still / found.size + 1; // the last of them shifts
            self.width -= few * found.size;
            self.lower += u64::from(few * found.size);
            left -= few;
            *entry = found.after[1];
            self.revisits += 1;
            self.shift(code);
        }
    }
}

fn write_row(
    given: &mut Interval,
    code: &mut Made,
    table: &mut Table,
    above: &[u8],
    row: &[u8],
    width: usize,
) -> Result<(), Refusal> {
    let mut interval = *given; // so that it stays in registers
    let mut x = 0;
    while x < width {
        let (mut over, mut here) = (window(above, x), window(row, x));
        let mut end = width.min(x + reach(x));
        let mut left = end - x;
        while left > 0 {
            // 4 + n zeros on top are n pels like those before them
            let (fill_over, fill_here) = (fill(over), fill(here));
            let unlike = (over ^ fill_over) | (here ^ fill_here) >> 2;
            if unlike >> (60 - LEAST_RUN) == 0 {
                let context = uniform(fill_over, fill_here);
                if (table[context] ^ fill_here as u8) & 1 == 0 {
                    let mut run = (unlike.leading_zeros() as usize - 4).min(left);
                    if run == left && end < width && context == 0 {
                        let from = end - left;
                        end = white_end(above, row, end).min(width);
                        (run, left) = (end - from, end - from);
                    }
                    interval.run(code, &mut table[context], run as u32);
                    left -= run;
                    over = over.unbounded_shl(run as u32);
                    here = here.unbounded_shl(run as u32);
                    continue;
                }
            }
            let context = ((over >> 59) << 2 | here >> 62) as usize;
            let pel = (here >> 61) as u8 & 1;
            interval.pel(code, &mut table[context], pel);
            over <<= 1;
            here <<= 1;
            left -= 1;
        }
        x = end;
    }
    *given = interval;
    code.require_room()
}
