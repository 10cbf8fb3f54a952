//! The two implementations behind one interface, their answers in the documents' numbers.

use crate::lists::Pair;

pub mod ordinary;
mod proved;

/// An answer: the number of the refusal or 0, what it gives besides, and the steps and the stop of work or a squeeze. A
/// done lookup gives its number of matches, a plan its number of block stores. A look, and a block store that was done,
/// give a block, and their `stop` is 0 if it is the store's and 1 if it is the journal's.
#[derive(Debug, Clone, Copy, PartialEq, Eq, Default)]
pub struct Reply {
    pub number: u8,
    pub gives: u32,
    pub steps: u32,
    pub stop: u8,
}

impl Reply {
    pub fn done(self) -> bool {
        self.number == 0
    }

    pub fn refused(number: u8, gives: u32) -> Self {
        Reply { number, gives, ..Reply::default() }
    }

    /// Work, or a squeeze, that made so many steps and stopped so.
    pub fn worked(steps: u32, stop: u8) -> Self {
        Reply { steps, stop, ..Reply::default() }
    }

    /// What a word of the archive says.
    fn of(word: u64) -> Self {
        let (number, stop, steps) = (word as u8, (word >> 8) as u8, (word >> 16) as u16);
        Reply { number, gives: (word >> 32) as u32, steps: steps.into(), stop }
    }

    /// The word that says so.
    pub fn word(self) -> u64 {
        let bits = u64::from(self.number) | u64::from(self.stop) << 8 | u64::from(self.steps) << 16;
        bits | u64::from(self.gives) << 32
    }

    /// Done, or refused with 12.
    fn used(used: bool) -> Self {
        Reply::refused(if used { 12 } else { 0 }, 0)
    }
}

/// How an index stands; all zero on a refusal. The phase is 0 none, 1 copying, 2 clearing.
#[derive(Debug, Clone, Copy, PartialEq, Eq, Default)]
pub struct State {
    pub count: u32,
    pub buckets: u32,
    pub phase: u32,
    pub old: u32,
    pub new: u32,
    pub slack: i64,
}

/// The bits of a gauge's two numbers; all zero on a refusal.
pub type Gauge = [u64; 2];

/// A change: one list of block stores. Of work and a squeeze, of this bucket, it is one step.
#[derive(Debug, Clone, Copy)]
pub enum Change {
    Insert(Pair),
    Remove(Pair),
    Work,
    Squeeze(u32),
}

/// The bytes of a journal, and of a plan.
pub const JOURNAL: usize = 8_192;
pub const PLAN: usize = 5_632;

/// An implementation of the index.
pub trait Side {
    fn verify(store: &[u8]) -> Reply;
    fn format(store: &mut [u8], fill: u32, number: u32, overwrite: u32) -> Reply;
    fn in_use(store: &[u8]) -> Reply;
    fn insert(store: &mut [u8], journal: &mut [u8], hash: u32, block: u32, offset: u32) -> Reply;
    fn remove(store: &mut [u8], journal: &mut [u8], hash: u32, block: u32, offset: u32) -> Reply;
    /// The same insert and removal, without the journal by a side that can do so.
    fn bare_insert(store: &mut [u8], journal: &mut [u8], hash: u32, block: u32, offset: u32) -> Reply {
        Self::insert(store, journal, hash, block, offset)
    }
    fn bare_remove(store: &mut [u8], journal: &mut [u8], hash: u32, block: u32, offset: u32) -> Reply {
        Self::remove(store, journal, hash, block, offset)
    }
    fn lookup(store: &[u8], hash: u32, output: &mut [u8]) -> Reply;
    fn work(store: &mut [u8], journal: &mut [u8], budget: u32) -> Reply;
    /// The same work, sealed once at the end of the call, and without the journal, by a side that can do so.
    fn work_sealed_once(store: &mut [u8], journal: &mut [u8], budget: u32) -> Reply {
        Self::work(store, journal, budget)
    }
    fn squeeze(store: &mut [u8], journal: &mut [u8], bucket: u32, budget: u32) -> Reply;
    fn standing(store: &[u8]) -> (Reply, State);
    fn gauge(store: &[u8]) -> (Reply, Gauge);
    fn recover(store: &mut [u8], journal: &mut [u8]) -> Reply;
    fn wipe(journal: &mut [u8]) -> Reply;
    fn wiped(journal: &[u8]) -> Reply;
    fn look(store: &[u8], journal: &[u8], block: u32) -> Reply;
    fn plan(store: &[u8], journal: &[u8], change: Change, plan: &mut [u8]) -> Reply;
    fn do_store(store: &mut [u8], journal: &mut [u8], plan: &[u8], n: u32) -> Reply;
}

/// The proved index.
pub struct Proved;

/// The ordinary one.
pub struct Ordinary;
