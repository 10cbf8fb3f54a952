//! Changes without a journal: what stands when one is cut is anything. They show what the journal costs.

use crate::answer::{Refusal, Worked};
use crate::changes;

pub fn insert(store: &mut [u8], hash: u32, block: u32, offset: u32) -> Result<(), Refusal> {
    changes::insert(store, None, hash, block, offset)
}

pub fn remove(store: &mut [u8], hash: u32, block: u32, offset: u32) -> Result<(), Refusal> {
    changes::remove(store, None, hash, block, offset)
}

pub fn work(store: &mut [u8], budget: u32) -> Result<Worked, Refusal> {
    changes::work(store, None, budget, false)
}

/// The same work, but the blocks are sealed once, at the end of the call: the store is not sound between its steps.
/// It shows what it costs that document 01 has the store sound after every step.
pub fn work_sealed_once(store: &mut [u8], budget: u32) -> Result<Worked, Refusal> {
    changes::work(store, None, budget, true)
}

pub fn squeeze(store: &mut [u8], bucket: u32, budget: u32) -> Result<Worked, Refusal> {
    changes::squeeze(store, None, bucket, budget)
}
