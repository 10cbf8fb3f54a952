//! The steps of splits, and those of a squeeze.

use crate::answer::{Phase, Stop, Worked};
use crate::block::{self, Trailer, BUCKET, CLEANUP, NONE, POPULATED, SPLIT};
use crate::check::sound;
use crate::edit::Edit;
use crate::meta::{buckets_at, splits_from};
use crate::page::{self, Entry, Pair, ROOM};
use std::collections::VecDeque;
use std::convert::Infallible;

/// A work or squeeze call under way.
pub struct Work<'a> {
    edit: Edit<'a>,
    budget: u32,
    steps: u32,
    /// Whether the blocks are sealed at the end of the call only.
    once: bool,
}

impl<'a> Work<'a> {
    pub fn new(edit: Edit<'a>, budget: u32, once: bool) -> Self {
        Work { edit, budget, steps: 0, once }
    }

    /// Makes steps until the budget is spent or there is no further step.
    pub fn run(mut self) -> Worked {
        let Err(stop) = self.go_on();
        self.edit.seal();
        Worked { steps: self.steps, stop }
    }

    /// Moves entries from the end of a bucket's chain to the front, until the budget is spent or no earlier page has
    /// room.
    pub fn squeeze(mut self, bucket: u32) -> Worked {
        let Err(stop) = self.move_up(bucket);
        self.edit.seal();
        Worked { steps: self.steps, stop }
    }

    fn go_on(&mut self) -> Result<Infallible, Stop> {
        self.left()?;
        loop {
            match self.edit.view().phase() {
                Phase::None if self.edit.view().slack() >= 0 => return Err(Stop::Idle),
                Phase::None => self.begin()?,
                Phase::Copying { old, new } => self.copy(old, new)?,
                Phase::Clearing { old, new } => self.clear(old, new)?,
            }
        }
    }

    /// What is left of the budget, if anything is.
    fn left(&self) -> Result<u32, Stop> {
        match self.budget - self.steps {
            0 => Err(Stop::Spent),
            left => Ok(left),
        }
    }

    /// Ends a step: the store is sound after each, so the blocks that the step changed are sealed here, unless that
    /// is to be done once, at the end of the call.
    fn step(&mut self) -> Result<(), Stop> {
        if !self.once {
            self.edit.seal();
            debug_assert!(sound(self.edit.view().blocks).is_ok());
        }
        self.steps += 1;
        self.left().map(drop)
    }

    /// Makes the next bucket, empty, and flags it and the one that it splits off from.
    fn begin(&mut self) -> Result<(), Stop> {
        let edit = &mut self.edit;
        let new = edit.meta().max_bucket + 1;
        let point = edit.meta().point;
        if new == buckets_at(point) {
            let bits = edit.meta().bits();
            if buckets_at(point + 1) + bits + 1 > edit.meta().blocks {
                return Err(Stop::NoRoom);
            }
            edit.meta_mut().spares[point as usize + 1] = bits;
            edit.meta_mut().point += 1;
        }
        edit.meta_mut().set_max_bucket(new);
        let page = edit.block(edit.meta().bucket_block(new));
        Trailer::new(new, NONE, new, BUCKET | POPULATED).put(page);
        let old = splits_from(new);
        block::set_previous(edit.block(edit.meta().bucket_block(old)), new);
        self.set_flags(old, BUCKET | SPLIT);
        self.step()
    }

    /// Copies the old chain's entries of the new bucket that have no copy there, then ends the copying.
    fn copy(&mut self, old: u32, new: u32) -> Result<(), Stop> {
        let view = self.edit.view();
        let copied = view.sorted_pairs(new);
        let guests = view.entries(old).map(|spot| spot.entry.pair).filter(|pair| view.meta.bucket_of(pair.hash) == new);
        let wanting = guests.filter(|pair| copied.binary_search(pair).is_err());
        // The old chain stays as it is meanwhile, and pages of the new one that are full stay full.
        let wanting: Vec<Pair> = wanting.take(self.left()? as usize).collect();
        let mut page = view.meta.bucket_block(new);
        for pair in wanting {
            let copy = Entry { pair, moved: true };
            page = self.edit.place_from(page, new, copy).map_err(|_| Stop::NoRoom)?;
            self.step()?;
        }
        self.set_flags(new, BUCKET);
        self.set_flags(old, BUCKET | CLEANUP);
        self.step()
    }

    /// Takes away the old chain's entries of the new bucket, then ends the job.
    fn clear(&mut self, old: u32, new: u32) -> Result<(), Stop> {
        let pages: Vec<usize> = self.edit.view().chain(old).collect();
        for number in pages {
            let mut slot = 0;
            // A page that is left empty and freed has no more entries either.
            while slot < page::len(&self.edit.view().blocks[number]) {
                let entry = page::entry(&self.edit.view().blocks[number], slot);
                if self.edit.meta().bucket_of(entry.pair.hash) == new {
                    self.edit.take_away(number, slot);
                    self.step()?;
                } else {
                    slot += 1;
                }
            }
        }
        self.set_flags(old, BUCKET);
        self.step()
    }

    /// Moves the last entry of the chain's last page to the first page before it with room, until there is none.
    fn move_up(&mut self, bucket: u32) -> Result<Infallible, Stop> {
        self.left()?;
        let mut pages: VecDeque<usize> = self.edit.view().chain(bucket).collect();
        while let [Some(&first), Some(&last)] = [pages.front(), pages.back()] {
            let blocks = self.edit.view().blocks;
            if first == last {
                break;
            }
            if page::len(&blocks[first]) == ROOM {
                // It stays full.
                pages.pop_front();
                continue;
            }
            let slot = page::len(&blocks[last]) - 1;
            let entry = page::entry(&blocks[last], slot);
            self.edit.take_away(last, slot);
            self.edit.put(first, entry);
            if slot == 0 {
                pages.pop_back();
            }
            self.step()?;
        }
        Err(Stop::Idle)
    }

    fn set_flags(&mut self, bucket: u32, flags: u16) {
        let number = self.edit.meta().bucket_block(bucket);
        block::set_flags(self.edit.block(number), flags);
    }
}
