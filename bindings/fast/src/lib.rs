//! The Q-coder's bands once more, written to be fast: the codes, counts,
//! refusals and states of the model's, by other means.
//!
//! - Rows are seen 64 pels at a time. Where both are of one colour, the run is
//!   counted by leading zeros, and what it does to the interval up to the next
//!   shift is one multiplication or one division.
//! - Other pels are coded by selects in place of branches, since they cannot
//!   be guessed. Only the byte that is due is a branch.
//! - The reader has no writer in step: it tests the code when a byte is due,
//!   and knows the lower end from what is left of the code's number.

#![forbid(unsafe_code)]

mod desk;
mod estimate;
mod given;
mod made;
mod reader;
mod window;
mod writer;

pub use desk::Desk;
pub use reader::read;
pub use writer::write;
