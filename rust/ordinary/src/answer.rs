//! What the calls answer.

use crate::journal::plan::PLAN;
use std::fmt;

/// Why a call was refused. A refused call changed nothing.
#[derive(Debug, Clone, Copy, PartialEq, Eq)]
pub enum Refusal {
    /// The store is not 4 to 1,024 blocks of 512 bytes.
    Length,
    /// A number is outside its field.
    Number,
    /// A block's check is wrong for its bytes, its place and the store's number; the lowest such block.
    Damaged(u32),
    /// All checks are right, but a sound-store rule is broken; the lowest such rule.
    NotAnIndex(u32),
    /// The pair to insert is held.
    HeldAlready,
    /// The pair to remove is not held.
    NotHeld,
    /// No page is left for the entry.
    NoRoom,
    /// The output is too short for the matches; their number.
    OutputShort(u32),
    /// The bucket to squeeze is one of a pending job.
    Busy,
    /// The store to format is sound and holds pairs.
    InUse,
    /// The journal is not 16 blocks long.
    JournalLength,
    /// The journal's head is not wiped: a change may have been cut, and recovery comes first.
    Pending,
    /// The plan is too short for the largest change.
    PlanShort,
}

impl Refusal {
    /// The number of the refusal: 1 to 8 are document 01's, 11 is request 2026-01's, 12 request 2026-04's, and 13 and
    /// 14 are request 2026-05's. 255 is no document's.
    pub fn number(self) -> u8 {
        match self {
            Refusal::Length => 1,
            Refusal::Number => 2,
            Refusal::Damaged(_) => 3,
            Refusal::NotAnIndex(_) => 4,
            Refusal::HeldAlready => 5,
            Refusal::NotHeld => 6,
            Refusal::NoRoom => 7,
            Refusal::OutputShort(_) => 8,
            Refusal::Busy => 11,
            Refusal::InUse => 12,
            Refusal::JournalLength => 13,
            Refusal::Pending => 14,
            Refusal::PlanShort => 255,
        }
    }

    /// What the refusal gives besides: block, rule, number of matches or of a plan's bytes, else 0.
    pub fn gives(self) -> u32 {
        match self {
            Refusal::Damaged(n) | Refusal::NotAnIndex(n) | Refusal::OutputShort(n) => n,
            Refusal::PlanShort => PLAN as u32,
            _ => 0,
        }
    }
}

impl fmt::Display for Refusal {
    fn fmt(&self, f: &mut fmt::Formatter<'_>) -> fmt::Result {
        match self {
            Refusal::Length => write!(f, "the store is not 4 to 1,024 blocks of 512 bytes"),
            Refusal::Number => write!(f, "a number is outside its field"),
            Refusal::Damaged(block) => write!(f, "block {block} is damaged"),
            Refusal::NotAnIndex(rule) => write!(f, "the store is not an index: rule {rule} is broken"),
            Refusal::HeldAlready => write!(f, "the pair is held already"),
            Refusal::NotHeld => write!(f, "the pair is not held"),
            Refusal::NoRoom => write!(f, "the store has no room"),
            Refusal::OutputShort(matches) => write!(f, "the output is too short for {matches} matches"),
            Refusal::Busy => write!(f, "the bucket is busy: it is one of a pending job"),
            Refusal::InUse => write!(f, "the store is in use: it holds pairs"),
            Refusal::JournalLength => write!(f, "the journal is not 16 blocks long"),
            Refusal::Pending => write!(f, "the journal's head is not wiped: recover first"),
            Refusal::PlanShort => write!(f, "the plan is shorter than {PLAN} bytes"),
        }
    }
}

impl std::error::Error for Refusal {}

/// The job of the store: a split, in one of its two phases.
#[derive(Debug, Clone, Copy, PartialEq, Eq)]
pub enum Phase {
    None,
    Copying { old: u32, new: u32 },
    Clearing { old: u32, new: u32 },
}

/// How the index stands.
#[derive(Debug, Clone, Copy, PartialEq, Eq)]
pub struct Standing {
    pub count: u32,
    pub buckets: u32,
    pub phase: Phase,
    /// Fill times buckets, less the count. Below zero a split is wanted.
    pub slack: i64,
}

/// How full the index is.
#[derive(Debug, Clone, Copy, PartialEq)]
pub struct Gauge {
    /// Held pairs divided by buckets.
    pub per_bucket: f64,
    /// Held pairs divided by 40 times the pages of all chains.
    pub per_page: f64,
}

/// Why work or a squeeze stopped.
#[derive(Debug, Clone, Copy, PartialEq, Eq)]
pub enum Stop {
    /// The budget is spent.
    Spent,
    /// Work's next step has no room.
    NoRoom,
    /// There is no step: work has no job, and no split is wanted; of a squeeze no earlier page has room.
    Idle,
}

impl Stop {
    /// Document 01's number of the stop: 0, 7 or 9.
    pub fn number(self) -> u8 {
        match self {
            Stop::Spent => 0,
            Stop::NoRoom => 7,
            Stop::Idle => 9,
        }
    }
}

/// What a work or squeeze call did.
#[derive(Debug, Clone, Copy, PartialEq, Eq)]
pub struct Worked {
    pub steps: u32,
    pub stop: Stop,
}
