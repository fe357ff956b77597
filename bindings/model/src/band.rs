//! Bands: rows of pels, their seven neighbours, and a band's code.

use crate::coder::{Fill, Reader, Watch, Writer};
use crate::refusal::Refusal;
use crate::table::Table;

pub const MAX_WIDTH: usize = 2048;
pub const MAX_ROWS: usize = 64;
pub const MAX_CODE: usize = 32_768;

/// A packed row of the greatest width; shorter rows use its front.
pub type Row = [u8; MAX_WIDTH / 8];

/// What an accepted band answers.
#[derive(Clone, Copy, Debug, Default, PartialEq, Eq)]
pub struct Band {
    pub length: usize,
    pub shifts: u64,
    /// The pels with at least one shift (request E11), even where the table
    /// byte stayed as it was.
    pub revisits: u64,
}

/// What a band starts from, and leaves for the next one.
#[derive(Clone, Debug, PartialEq, Eq)]
pub struct State {
    pub table: Table,
    pub last: Row,
}

/// The bytes of a packed row.
pub fn row_bytes(width: usize) -> usize {
    width.div_ceil(8)
}

/// The bits of a row's last byte that hold no pel.
pub fn padding(width: usize) -> u8 {
    match width % 8 {
        0 => 0,
        used => 0xFF >> used,
    }
}

/// Whether a packed row has no padding bit set.
pub fn clean(row: &[u8], width: usize) -> bool {
    row.last().is_none_or(|byte| byte & padding(width) == 0)
}

/// Whether a byte of 90 or more stands just after an FF. No writer makes such
/// a pair, so a code with one is not merely damaged (request E4).
pub fn has_marker(code: &[u8]) -> bool {
    let mut pairs = code.windows(2);
    pairs.any(|pair| pair[0] == 0xFF && pair[1] >= 0x90)
}

/// The context of a row's first pel: only the row above has black neighbours.
fn first_context(above: &[u8]) -> usize {
    usize::from(above[0] >> 3 & 0b11100)
}

/// The context of the next pel, from this one's, this pel, and the pel that
/// comes into view above (three to the right of this one).
fn next_context(context: usize, pel: u8, above: u8) -> usize {
    context << 1 & 0b1111010 | usize::from(above) << 2 | usize::from(pel)
}

/// The eight pels above that come into view while byte `i` is coded.
/// Padding bits are zero, as is all beyond the right edge.
fn into_view(above: &[u8], i: usize) -> u8 {
    above[i] << 3 | above.get(i + 1).unwrap_or(&0) >> 5
}

/// The bit numbers of the pels in byte `i`, leftmost pel first.
fn bits(width: usize, i: usize) -> impl Iterator<Item = usize> {
    let pels = (width - 8 * i).min(8);
    (8 - pels..8).rev()
}

/// Writes whole rows into the front of `out` and moves the state on.
/// When refused, the state is as before and `out` is spoiled.
pub fn write(
    state: &mut State,
    width: usize,
    pels: &[u8],
    out: &mut [u8],
    watch: impl Watch,
) -> Result<Band, Refusal> {
    let room = out.len().min(MAX_CODE);
    let fill = Fill {
        out: &mut out[..room],
        made: 0,
    };
    let mut writer = Writer::new(fill, watch);
    let mut revisits = 0;
    let State { mut table, last } = state.clone();
    let mut above = &last[..row_bytes(width)];
    for row in pels.chunks_exact(row_bytes(width)) {
        let mut context = first_context(above);
        for (i, byte) in row.iter().enumerate() {
            let view = into_view(above, i);
            for bit in bits(width, i) {
                let pel = byte >> bit & 1;
                let revisited = writer.code(&mut table[context], pel)?;
                revisits += u64::from(revisited);
                context = next_context(context, pel, view >> bit & 1);
            }
        }
        above = row;
    }
    let (shifts, fill, _) = writer.finish()?;
    state.table = table;
    state.last[..above.len()].copy_from_slice(above);
    Ok(Band {
        length: fill.made,
        shifts: u64::from(shifts),
        revisits,
    })
}

/// Reads a code into the whole of `out` and moves the state on.
/// When refused, the state is as before and `out` is spoiled. A marker is not
/// looked for: a code with one is damaged like any other.
pub fn read(state: &mut State, width: usize, code: &[u8], out: &mut [u8]) -> Result<Band, Refusal> {
    let mut reader = Reader::new(code);
    let mut revisits = 0;
    let State {
        mut table,
        mut last,
    } = state.clone();
    let above = &mut last[..row_bytes(width)];
    for row in out.chunks_exact_mut(row_bytes(width)) {
        let mut context = first_context(above);
        for (i, byte) in row.iter_mut().enumerate() {
            let view = into_view(above, i);
            *byte = 0;
            for bit in bits(width, i) {
                let (pel, revisited) = reader.pel(&mut table[context])?;
                revisits += u64::from(revisited);
                *byte |= pel << bit;
                context = next_context(context, pel, view >> bit & 1);
            }
        }
        above.copy_from_slice(row);
    }
    let shifts = u64::from(reader.finish()?);
    *state = State { table, last };
    Ok(Band {
        length: out.len(),
        shifts,
        revisits,
    })
}
