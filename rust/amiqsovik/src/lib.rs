//! Amiqsovik's hash index: a safe interface to the proved one.
//!
//! A store is a byte slice of 4 to 1,024 blocks of 512 bytes that you own and lend. The index keeps pairs in it: a
//! 32-bit hash code and the place of a [`Reading`]. The code behind the calls is machine-checked: whatever bytes and
//! numbers it is given, each call ends, and either is done or gives a [`Refusal`] and writes nothing. It allocates
//! nothing, and needs no `std`. A call takes at most 64 KiB of stack, which is not proved, but measured by
//! `compare/tests/stack.rs`.
//!
//! A store has a journal beside it, a second slice of 16 blocks, so that a power cut in the midst of a change loses
//! nothing: [`recover`] mends it, as long as the journal was wiped before the store's format, belongs to this store
//! alone, and nobody else writes to either. [`Plan`] is for a host that keeps both on a medium.
//!
//! The calls are functions over slices; [`Store`] has them as methods.
//!
//! ```
//! use amiqsovik::{Reading, Store};
//! let (mut bytes, mut journal) = (vec![0; 16 * 512], [0; 8192]);
//! amiqsovik::wipe(&mut journal)?;
//! let mut store = Store::formatted(&mut bytes, &mut journal, 10, 7)?;
//! store.insert(0xC0FFEE, Reading::new(7, 1))?;
//! let mut output = [0; 60];
//! let found: Vec<Reading> = store.lookup(0xC0FFEE, &mut output)?.collect();
//! assert_eq!(found, [Reading::new(7, 1)]);
//! # Ok::<(), amiqsovik::Refusal>(())
//! ```
//!
//! Splits of buckets go step by step, when you say so: call [`work`] when [`standing`]'s slack is below zero. Lookups
//! find the same readings before, between and after the steps. [`squeeze`] does the same for a chain that removals have
//! left long and thin: step by step it gathers the entries of a bucket on the first pages, and frees the others.
//! [`gauge`] tells how full the buckets and the pages are.

#![no_std]
#![warn(missing_docs, clippy::missing_errors_doc, clippy::missing_panics_doc)]
#![deny(unsafe_code)]

mod answer;
mod calls;
mod changes;
#[allow(unsafe_code)]
mod foreign;
mod journal;
mod matches;
mod plan;
mod store;
mod word;

pub use answer::{Gauge, Part, Phase, Place, Planned, Refusal, Standing, Stop, Worked};
pub use calls::{format, format_over, gauge, in_use, lookup, standing, verify};
pub use changes::{insert, remove, squeeze, work};
pub use journal::{is_wiped, look, recover, wipe, JOURNAL_SIZE};
pub use matches::{Matches, Reading, MATCH_SIZE};
pub use plan::{do_store, plan_insert, plan_remove, plan_squeeze, plan_work, Plan, PLAN_SIZE};
pub use store::Store;

/// The bytes of a block.
pub const BLOCK_SIZE: usize = 512;
/// The fewest blocks that a store has.
pub const MIN_BLOCKS: usize = 4;
/// The most blocks that a store has.
pub const MAX_BLOCKS: usize = 1024;
