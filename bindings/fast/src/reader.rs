//! A band read.

use crate::estimate::{estimate, FIRST, ONE};
use crate::given::Given;
use crate::window::{fill, reach, store, uniform, white_end, window, LEAST_RUN};
use siftpebble_model::band::{row_bytes, Band, State};
use siftpebble_model::{Refusal, Table};
use std::hint::select_unpredictable as select;

/// More pels than this revisited in a window, and the next one is read without
/// guesses.
const MANY: u32 = 20;

/// Reads a code into the whole of `out` and moves the state on, as the model
/// does. When refused, the state is as before and `out` is spoiled.
pub fn read(state: &mut State, width: usize, code: &[u8], out: &mut [u8]) -> Result<Band, Refusal> {
    let bytes = row_bytes(width);
    let (mut code, rest) = Given::new(code);
    let mut interval = Interval {
        width: ONE,
        rest,
        due: FIRST,
        revisits: 0,
    };
    let State { mut table, last } = state.clone();
    let mut above = &last[..bytes];
    for row in out.chunks_exact_mut(bytes) {
        read_row(&mut interval, &mut code, &mut table, above, row, width)?;
        above = row;
    }
    let shifts = code.finish(interval.rest, interval.due)?;
    state.table = table;
    state.last[..bytes].copy_from_slice(above);
    Ok(Band {
        length: out.len(),
        shifts: u64::from(shifts),
        revisits: u64::from(interval.revisits),
    })
}

/// The interval, in a few registers.
#[derive(Clone, Copy)]
struct Interval {
    width: u32,
    /// The code's number less the lower end.
    rest: u32,
    /// Shifts until the next byte.
    due: u32,
    revisits: u32,
}

impl Interval {
    /// Doubles the interval up to 1.0.
    #[inline(always)]
    fn shift(&mut self, code: &mut Given) {
        self.shift_by(code, (self.width | 1).leading_zeros());
    }

    #[inline(always)]
    fn shift_by(&mut self, code: &mut Given, doublings: u32) {
        self.width <<= doublings;
        if doublings < self.due {
            self.rest <<= doublings;
            self.due -= doublings;
        } else {
            (self.rest, self.due) = code.bytes(self.rest, self.due, doublings, self.width);
        }
    }

    /// One pel, with no guess whether it is expected or whether it shifts.
    #[inline(always)]
    fn dense_pel(&mut self, entry: &mut u8) -> u8 {
        let before = *entry;
        let found = estimate(before);
        let size = found.size;
        let expected = self.rest >= size;
        let after = found.after[usize::from(expected)];
        self.rest -= select(expected, size, 0);
        self.width = select(expected, self.width - size, size);
        let revisited = self.width < ONE;
        *entry = select(revisited, after, before);
        self.revisits += u32::from(revisited);
        (before ^ u8::from(!expected)) & 1
    }

    /// One pel, which is probably expected. Answers it and its shifts.
    #[inline(always)]
    fn pel(&mut self, entry: &mut u8) -> (u8, u32) {
        let before = *entry;
        let found = estimate(before);
        if self.rest < found.size {
            self.width = found.size;
            *entry = found.after[0];
            self.revisits += 1;
            return (!before & 1, found.size.leading_zeros());
        }
        self.rest -= found.size;
        self.width -= found.size;
        let revisited = self.width < ONE;
        *entry = select(revisited, found.after[1], before);
        self.revisits += u32::from(revisited);
        let shifts = if self.width < ONE / 2 {
            2
        } else {
            u32::from(revisited)
        };
        (before & 1, shifts)
    }

    /// At most so many expected pels of one context. Answers how many pels
    /// there are, and whether the last one of them is unexpected.
    #[inline(always)]
    fn run(&mut self, code: &mut Given, entry: &mut u8, pels: usize) -> (usize, bool) {
        let mut left = pels;
        loop {
            let found = estimate(*entry);
            let size = found.size;
            let still = self.rest.min(self.width - ONE);
            let all = left as u64 * u64::from(size);
            if all <= u64::from(still) {
                self.width -= all as u32;
                self.rest -= all as u32;
                return (pels, false);
            }
            let few = still / size;
            self.width -= few * size;
            self.rest -= few * size;
            left -= few as usize + 1; // the next one is unexpected, or shifts
            self.revisits += 1;
            if self.rest < size {
                self.width = size;
                *entry = found.after[0];
                self.shift(code);
                return (pels - left, true);
            }
            self.width -= size;
            self.rest -= size;
            *entry = found.after[1];
            self.shift(code);
        }
    }
}

fn read_row(
    given: &mut Interval,
    code: &mut Given,
    table: &mut Table,
    above: &[u8],
    row: &mut [u8],
    width: usize,
) -> Result<(), Refusal> {
    let mut interval = *given; // so that it stays in registers
    let mut revisits = interval.revisits;
    let mut here = 0; // the pels read, the last one lowest
    let mut x = 0;
    row.fill(0);
    while x < width {
        let mut over = window(above, x);
        let (mut start, mut end) = (x, width.min(x + reach(x)));
        let mut left = end - x;
        let dense = interval.revisits - revisits > MANY;
        revisits = interval.revisits;
        if dense {
            (interval, here) = read_dense(interval, code, table, over, here, left);
            left = 0;
        }
        while left > 0 {
            let (fill_over, fill_here) = (fill(over), fill(here << 63));
            let unlike = over ^ fill_over;
            if unlike >> (60 - LEAST_RUN) | (here ^ fill_here) & 3 == 0 {
                let context = uniform(fill_over, fill_here);
                if (table[context] ^ fill_here as u8) & 1 == 0 {
                    let mut run = (unlike.leading_zeros() as usize - 4).min(left);
                    let from = end - left;
                    let far = run == left && end < width && context == 0;
                    if far {
                        store(row, start, from, here);
                        run = white_end(above, above, end).min(width) - from;
                    }
                    let (pels, other) = interval.run(code, &mut table[context], run);
                    here = (here ^ fill_here).unbounded_shl(pels as u32) ^ fill_here;
                    here ^= u64::from(other);
                    if far {
                        end = from + pels;
                        start = end - 1;
                        break;
                    }
                    left -= pels;
                    over <<= pels;
                    continue;
                }
            }
            let context = ((over >> 59) << 2 | here & 3) as usize;
            let (pel, shifts) = interval.pel(&mut table[context]);
            here = here << 1 | u64::from(pel);
            over <<= 1;
            left -= 1;
            interval.shift_by(code, shifts);
        }
        store(row, start, end, here);
        x = end;
    }
    *given = interval;
    code.require_whole()
}

/// So many pels with no guesses, and with no look for runs.
#[inline(never)]
fn read_dense(
    given: Interval,
    code: &mut Given,
    table: &mut Table,
    mut over: u64,
    mut here: u64,
    pels: usize,
) -> (Interval, u64) {
    let mut interval = given;
    for _ in 0..pels {
        let context = ((over >> 59) << 2 | here & 3) as usize;
        let pel = interval.dense_pel(&mut table[context]);
        here = here << 1 | u64::from(pel);
        over <<= 1;
        interval.shift(code);
    }
    (interval, here)
}
