//! The changes of a store, with or without a journal, and what each is refused for, in order.

use crate::answer::{Phase, Refusal, Worked};
use crate::block::Block;
use crate::calls::blocks_mut;
use crate::edit::Edit;
use crate::journal::{self, Journal};
use crate::page::{Entry, Pair};
use crate::work::Work;

/// A store and its journal, both of legal length, and nothing else tested.
struct Lent<'a> {
    blocks: &'a mut [Block],
    journal: Option<&'a mut Journal>,
}

impl<'a> Lent<'a> {
    fn of(store: &'a mut [u8], journal: Option<&'a mut [u8]>) -> Result<Self, Refusal> {
        let blocks = blocks_mut(store)?;
        Ok(Lent { blocks, journal: journal.map(journal::lent_mut).transpose()? })
    }

    /// Nothing is pending, and the store is sound.
    fn judged(self) -> Result<Edit<'a>, Refusal> {
        self.journal.as_deref().map_or(Ok(()), journal::nothing_pending)?;
        Edit::of(self.blocks, self.journal)
    }
}

pub fn insert(store: &mut [u8], journal: Option<&mut [u8]>, hash: u32, block: u32, offset: u32) -> Result<(), Refusal> {
    let lent = Lent::of(store, journal)?;
    let pair = Pair::new(hash, block, offset)?;
    let mut edit = lent.judged()?;
    if edit.view().held(pair).is_some() {
        return Err(Refusal::HeldAlready);
    }
    edit.place(edit.meta().bucket_of(hash), Entry { pair, moved: false })?;
    edit.meta_mut().count += 1;
    edit.seal();
    Ok(())
}

pub fn remove(store: &mut [u8], journal: Option<&mut [u8]>, hash: u32, block: u32, offset: u32) -> Result<(), Refusal> {
    let lent = Lent::of(store, journal)?;
    let pair = Pair::new(hash, block, offset)?;
    let mut edit = lent.judged()?;
    let Some(spot) = edit.view().held(pair) else {
        return Err(Refusal::NotHeld);
    };
    edit.take_away(spot.page, spot.slot);
    let bucket = edit.meta().bucket_of(hash);
    if edit.view().populated_from(bucket).is_some() {
        if let Some(copy) = edit.view().find(bucket, pair) {
            edit.take_away(copy.page, copy.slot);
        }
    }
    edit.meta_mut().count -= 1;
    edit.seal();
    Ok(())
}

/// Work, sealed once at the end of the call or after each step; a journal needs the latter.
pub fn work(store: &mut [u8], journal: Option<&mut [u8]>, budget: u32, once: bool) -> Result<Worked, Refusal> {
    let lent = Lent::of(store, journal)?;
    in_range(budget)?;
    Ok(Work::new(lent.judged()?, budget, once).run())
}

fn in_range(budget: u32) -> Result<(), Refusal> {
    if budget > 65_535 {
        return Err(Refusal::Number);
    }
    Ok(())
}

pub fn squeeze(store: &mut [u8], journal: Option<&mut [u8]>, bucket: u32, budget: u32) -> Result<Worked, Refusal> {
    let lent = Lent::of(store, journal)?;
    in_range(budget)?;
    let edit = lent.judged()?;
    if bucket > edit.meta().max_bucket {
        return Err(Refusal::Number);
    }
    match edit.view().phase() {
        Phase::Copying { old, new } | Phase::Clearing { old, new } if [old, new].contains(&bucket) => {
            Err(Refusal::Busy)
        }
        _ => Ok(Work::new(edit, budget, false).squeeze(bucket)),
    }
}
