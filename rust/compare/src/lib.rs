//! The proved index and the ordinary one, side by side.
//!
//! The tests in `tests/` make calls through [`twin::Twin`], which makes each on both and compares answers, stores,
//! journals and outputs to the byte. Everything else here is aid: a generator of numbers, the check bit by bit, stores
//! and journals built, read or spoilt from outside, the book of demand 3, and what the benchmark measures.

#![deny(unsafe_code)]

pub mod book;
pub mod brink;
pub mod build;
pub mod chains;
pub mod cuts;
#[allow(unsafe_code)]
pub mod foreign;
pub mod gauge;
pub mod journals;
pub mod lists;
pub mod numbered;
pub mod random;
pub mod rows;
pub mod seal;
pub mod sha256;
pub mod side;
pub mod spoil;
pub mod stores;
pub mod twin;
pub mod vectors;
pub mod word;
