//! What the calls answer.

use crate::BLOCK_SIZE;
use core::error::Error;
use core::fmt;
use core::ops::Range;

/// Why a call was refused. A refused call wrote nothing: store, journal, output and plan are as they were.
#[derive(Debug, Clone, Copy, PartialEq, Eq, Hash)]
#[non_exhaustive]
pub enum Refusal {
    /// 1: the store is not 4 to 1,024 blocks of 512 bytes.
    Length,
    /// 2: an offset of 0 or above 65535, a reading block of 4294967295, a fill outside 1..=40, a budget above 65535, a
    /// bucket to squeeze or a block to look at that there is not, or a block store that a plan does not have.
    Number,
    /// 3: a block's check is wrong: for its bytes, for its place, or for the store's number.
    Damaged {
        /// The lowest such block.
        block: u32,
    },
    /// 4: all checks are right, but the store breaks a rule of sound stores.
    NotAnIndex {
        /// The lowest such rule, 1 to 8.
        rule: u32,
    },
    /// 5: the pair to insert is held already.
    HeldAlready,
    /// 6: the pair to remove is not held.
    NotHeld,
    /// 7: no page is left for the entry.
    NoRoom,
    /// 8: the output is too short for the matches.
    OutputShort {
        /// The number of matches; each takes 6 bytes.
        matches: u32,
    },
    /// 11: the bucket to squeeze is the old or the new one of a pending job.
    Busy,
    /// 12: the store to format is sound and holds pairs, and the format does not overwrite.
    InUse,
    /// 13: the journal is not 16 blocks of 512 bytes.
    JournalLength,
    /// 14: the journal's head is not wiped. [`recover`](crate::recover) mends that.
    Pending,
    /// Any other number. An archive of this package's version never answers it; `include/amiqsovik.h` beside the
    /// archive says what it means.
    Unknown {
        /// The number.
        number: u8,
        /// What it gives besides.
        gives: u32,
    },
}

impl Refusal {
    /// The number of the refusal.
    ///
    /// ```
    /// assert_eq!(amiqsovik::Refusal::NoRoom.number(), 7);
    /// ```
    #[must_use]
    pub const fn number(self) -> u8 {
        match self {
            Refusal::Length => 1,
            Refusal::Number => 2,
            Refusal::Damaged { .. } => 3,
            Refusal::NotAnIndex { .. } => 4,
            Refusal::HeldAlready => 5,
            Refusal::NotHeld => 6,
            Refusal::NoRoom => 7,
            Refusal::OutputShort { .. } => 8,
            Refusal::Busy => 11,
            Refusal::InUse => 12,
            Refusal::JournalLength => 13,
            Refusal::Pending => 14,
            Refusal::Unknown { number, .. } => number,
        }
    }

    /// What the refusal gives besides its number: a block, a rule or a number of matches, else 0.
    ///
    /// ```
    /// assert_eq!(amiqsovik::Refusal::Damaged { block: 3 }.gives(), 3);
    /// ```
    #[must_use]
    pub const fn gives(self) -> u32 {
        match self {
            Refusal::Damaged { block: gives }
            | Refusal::NotAnIndex { rule: gives }
            | Refusal::OutputShort { matches: gives }
            | Refusal::Unknown { gives, .. } => gives,
            Refusal::Length
            | Refusal::Number
            | Refusal::HeldAlready
            | Refusal::NotHeld
            | Refusal::NoRoom
            | Refusal::Busy
            | Refusal::InUse
            | Refusal::JournalLength
            | Refusal::Pending => 0,
        }
    }

    /// The name of the refusal, as in document 01's table or the requests; `Display` has a sentence.
    ///
    /// ```
    /// assert_eq!(amiqsovik::Refusal::HeldAlready.name(), "held already");
    /// ```
    #[must_use]
    pub const fn name(self) -> &'static str {
        match self {
            Refusal::Length => "length",
            Refusal::Number => "number",
            Refusal::Damaged { .. } => "damaged",
            Refusal::NotAnIndex { .. } => "not an index",
            Refusal::HeldAlready => "held already",
            Refusal::NotHeld => "not held",
            Refusal::NoRoom => "no room",
            Refusal::OutputShort { .. } => "output short",
            Refusal::Busy => "busy",
            Refusal::InUse => "in use",
            Refusal::JournalLength => "journal length",
            Refusal::Pending => "pending",
            Refusal::Unknown { .. } => "unknown",
        }
    }
}

impl fmt::Display for Refusal {
    fn fmt(&self, f: &mut fmt::Formatter<'_>) -> fmt::Result {
        match self {
            Refusal::Length => f.write_str("the store is not 4 to 1,024 blocks of 512 bytes"),
            Refusal::Number => f.write_str("a number is outside its field"),
            Refusal::Damaged { block } => write!(f, "block {block} of the store is damaged"),
            Refusal::NotAnIndex { rule } => write!(f, "the store is not an index: it breaks rule {rule}"),
            Refusal::HeldAlready => f.write_str("the pair is held already"),
            Refusal::NotHeld => f.write_str("the pair is not held"),
            Refusal::NoRoom => f.write_str("the store has no room"),
            Refusal::OutputShort { matches } => write!(f, "the output is too short for {matches} matches"),
            Refusal::Busy => f.write_str("the bucket is busy: it is one of a pending job"),
            Refusal::InUse => f.write_str("the store is in use: it is sound and holds pairs"),
            Refusal::JournalLength => f.write_str("the journal is not 16 blocks long"),
            Refusal::Pending => f.write_str("the journal's head is not wiped: recover first"),
            Refusal::Unknown { number, gives } => write!(f, "refused with {number}, an unknown number, and {gives}"),
        }
    }
}

impl Error for Refusal {}

/// The job of a store. A job is the split of a bucket: entries are copied to the new bucket first, and then cleared
/// from the old one.
#[derive(Debug, Clone, Copy, PartialEq, Eq, Hash, Default)]
pub enum Phase {
    /// No job.
    #[default]
    None,
    /// Entries of `old` are being copied to `new`.
    Copying {
        /// The bucket that is being split.
        old: u32,
        /// The bucket that is being populated.
        new: u32,
    },
    /// All are copied; those of `new` are being taken from `old`.
    Clearing {
        /// The bucket that was split.
        old: u32,
        /// The bucket that was populated.
        new: u32,
    },
    /// Any other phase. An archive of this package's version never answers it.
    Unknown {
        /// The phase's number.
        number: u32,
        /// The first bucket that came with it.
        old: u32,
        /// The second.
        new: u32,
    },
}

/// How an index stands.
#[derive(Debug, Clone, Copy, PartialEq, Eq, Hash)]
pub struct Standing {
    /// The number of held pairs.
    pub count: u32,
    /// The number of buckets.
    pub buckets: u32,
    /// The job.
    pub phase: Phase,
    /// Fill times buckets, less the count. Below zero, a split is wanted.
    pub slack: i64,
}

/// How full an index is: each number is the quotient of two whole numbers, rounded once.
///
/// Neither is ever negative, infinite or not a number.
#[derive(Debug, Clone, Copy, PartialEq)]
pub struct Gauge {
    /// Held pairs divided by buckets; at most 20,440.
    pub per_bucket: f64,
    /// Held pairs divided by 40 times the pages that stand in chains, the room of these pages; at most 1.
    pub per_page: f64,
}

/// Why [`work`](crate::work) or [`squeeze`](crate::squeeze) stopped.
#[derive(Debug, Clone, Copy, PartialEq, Eq, Hash)]
#[non_exhaustive]
pub enum Stop {
    /// 0: the budget is spent.
    Spent,
    /// 7: the next step has no room. Never of a squeeze, nor of a split's clearing.
    ///
    /// A begin may need new blocks, for its bucket and others to come. A copying step needs, while there is a pair to
    /// copy, room on a page of the new bucket's chain, a free page or a new one, and is made once there is: removals
    /// may make room, and a squeeze of another bucket may free a page.
    NoRoom,
    /// 9: there is no step left: of work no job, and no split is wanted; of a squeeze no earlier page has room.
    Idle,
    /// Any other number. An archive of this package's version never answers it.
    Unknown {
        /// The number.
        number: u8,
    },
}

impl Stop {
    /// The number of the stop.
    #[must_use]
    pub const fn number(self) -> u8 {
        match self {
            Stop::Spent => 0,
            Stop::NoRoom => 7,
            Stop::Idle => 9,
            Stop::Unknown { number } => number,
        }
    }
}

/// What a [`work`](crate::work) or [`squeeze`](crate::squeeze) call did.
#[derive(Debug, Clone, Copy, PartialEq, Eq, Hash)]
pub struct Worked {
    /// The number of steps made.
    pub steps: u32,
    /// Why no further step was made.
    pub stop: Stop,
}

/// Which of the two lent slices.
#[derive(Debug, Clone, Copy, PartialEq, Eq, Hash)]
pub enum Part {
    /// 0: the store.
    Store,
    /// 1: the journal.
    Journal,
    /// Any other number. An archive of this package's version never answers it.
    Unknown {
        /// The number.
        number: u8,
    },
}

/// A block of the store or of the journal.
#[derive(Debug, Clone, Copy, PartialEq, Eq, Hash)]
pub struct Place {
    /// Which of the two.
    pub part: Part,
    /// The number of the block there.
    pub block: u32,
}

impl Place {
    /// Where the block's bytes stand in its part.
    ///
    /// ```
    /// use amiqsovik::{Part, Place};
    /// assert_eq!(Place { part: Part::Journal, block: 15 }.bytes(), 7680..8192);
    /// ```
    #[must_use]
    pub const fn bytes(self) -> Range<usize> {
        let start = (self.block as usize).saturating_mul(BLOCK_SIZE);
        start..start.saturating_add(BLOCK_SIZE)
    }
}

/// What planning a step of work or of a squeeze came to.
#[derive(Debug, Clone, Copy, PartialEq, Eq, Hash)]
pub enum Planned {
    /// The plan has a step of so many block stores.
    Stores(u32),
    /// There is no step to make, and the plan is as it was.
    Stopped(Stop),
}
