//! The hash index of document 01 in ordinary Rust, with the squeeze of request 2026-01, the store number of request
//! 2026-03, the in-use test of request 2026-04, the journal of request 2026-05, the gauge of request 2026-07 and the
//! sizes of request 2026-09.
//!
//! A store is a byte slice of 4 to 1,024 blocks of 512 bytes, and a journal one of 16. Every call takes any bytes and
//! any numbers, and either is done or gives a [`Refusal`] and leaves everything as it was. All judge the whole store
//! first but a format that overwrites, recovery, look, the wiping and the block stores of a plan.
//! This crate is written from the documents alone, so that the proved index can be compared with it.
//!
//! ```
//! let (mut store, mut journal) = (vec![0; 16 * 512], vec![0; 16 * 512]);
//! ordinary::format(&mut store, 10, 7, 0)?;
//! ordinary::wipe(&mut journal)?;
//! ordinary::insert(&mut store, &mut journal, 5, 7, 1)?;
//! ordinary::insert(&mut store, &mut journal, 5, 3, 2)?;
//! let mut output = [0; 12];
//! assert_eq!(ordinary::lookup(&store, 5, &mut output)?, 2);
//! assert_eq!(output, [3, 0, 0, 0, 2, 0, 7, 0, 0, 0, 1, 0]);
//! # Ok::<(), ordinary::Refusal>(())
//! ```

#![forbid(unsafe_code)]

mod answer;
pub mod bare;
mod block;
mod calls;
mod changes;
mod check;
mod crc;
mod edit;
pub mod journal;
mod meta;
mod page;
pub mod script;
mod view;
mod work;

pub use answer::{Gauge, Phase, Refusal, Standing, Stop, Worked};
pub use calls::{format, gauge, in_use, insert, lookup, remove, squeeze, standing, verify, work};
pub use crc::crc32c;
pub use journal::plan::{do_store, plan_insert, plan_remove, plan_squeeze, plan_work};
pub use journal::{look, recover, wipe, wiped};
