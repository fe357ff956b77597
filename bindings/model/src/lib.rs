//! A plain model of document 01, with requests E2, E4 and E11: the Q-coder,
//! the template, bands and the desk, in ordinary Rust.
//!
//! It shares nothing with the proved library: it was written from the
//! documents, so that the two can be compared call by call. It is also what
//! the benchmarks measure the library against, and so it is kept fast.
//!
//! The later modules are the means of such tests: [`call`] has calls as data,
//! [`sample`] and [`run`] make random ones, [`turns`] executes the "strike out
//! and serve" of demand 3 on anything that serves calls, and [`cores`] spreads
//! such work over the machine.

pub mod band;
pub mod call;
pub mod coder;
pub mod cores;
pub mod desk;
pub mod random;
pub mod refusal;
pub mod run;
pub mod sample;
pub mod table;
pub mod turns;

pub use desk::{Desk, Direction, Key, Page, Place};
pub use refusal::Refusal;
pub use table::Table;
