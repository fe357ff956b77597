//! `sift look`: the table that the class has learned after a file's pages.

use crate::args::Look;
use crate::failure::Failure;
use crate::output;
use crate::reading::Packed;
use siftpebble::{Desk, TABLE_BYTES};

/// The weights of the neighbours in the row above, from x-2 to x+2.
const ABOVE: [usize; 5] = [64, 32, 16, 8, 4];

/// The weights of the neighbours before the pel, x-2 and x-1.
const BEFORE: [usize; 2] = [2, 1];

pub fn run(job: &Look) -> Result<(), Failure> {
    let packed = Packed::open(&job.input)?;
    let mut desk = Desk::new();
    packed.read(&mut desk, job.quiet, |_| Ok(()))?;
    let header = packed.contents.header;
    let mut table = [0; TABLE_BYTES];
    let looked = desk.look(header.key, &mut table);
    looked.map_err(|refusal| Failure::data(packed.input, refusal))?;
    let (school, class) = (header.key.school, header.key.class);
    let mut text = format!(
        "{}: school {school}, class {class}, learned from pages: {}\n\
         context  above  before  index  sense\n",
        packed.input, header.pages
    );
    text.extend(table.iter().enumerate().map(line));
    output::to_stdout(text.as_bytes())
}

/// A context's neighbours as a drawing, and its entry.
fn line((context, entry): (usize, &u8)) -> String {
    let (above, before) = (drawn(context, &ABOVE), drawn(context, &BEFORE));
    let (index, sense) = (entry / 2, entry % 2);
    format!("{context:>7}  {above}  {before:<6}  {index:>5}  {sense:>5}\n")
}

fn drawn(context: usize, weights: &[usize]) -> String {
    let mark = |&weight| if context & weight == 0 { '.' } else { '#' };
    weights.iter().map(mark).collect()
}
