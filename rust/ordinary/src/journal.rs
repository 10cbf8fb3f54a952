//! The journal of request 2026-05: 16 blocks beside a store, for power cuts inside a change.
//!
//! Block 0 is the head: the store's number, the number of images and the blocks that they are of. The images follow it,
//! each a block of the store as it will stand, and block 15 is the end: a copy of the head, with a check of its own. A
//! head that is wiped says that nothing is pending.

use crate::answer::Refusal;
use crate::block::{self, get32, Block, CHECK};
use crate::calls::{blocks, blocks_mut};

pub mod plan;

/// The bytes of a journal, as blocks.
pub type Journal = [Block; 16];

const END: usize = 15;
/// The most images of a head.
const MOST: usize = 14;

/// A wiped head: zeros, with their check as block 0 of the store with the number 0.
pub const WIPED: Block = {
    let mut head = [0; 512];
    [head[508], head[509], head[510], head[511]] = 0xB84E_1C9B_u32.to_le_bytes();
    head
};

/// A block of one of the two slices.
#[derive(Debug, Clone, Copy, PartialEq, Eq)]
pub enum Place {
    Store(usize),
    Journal(usize),
}

/// A whole block stored at a place: what a power cut leaves done or not done.
#[derive(Debug, Clone, Copy, PartialEq, Eq)]
pub struct BlockStore {
    pub place: Place,
    pub block: Block,
}

impl BlockStore {
    fn new(place: Place, block: &Block) -> Self {
        BlockStore { place, block: *block }
    }

    /// Does it; the place is one of the two slices.
    fn run(&self, store: &mut [Block], journal: &mut Journal) {
        match self.place {
            Place::Store(at) => store[at] = self.block,
            Place::Journal(at) => journal[at] = self.block,
        }
    }
}

pub(crate) fn lent(bytes: &[u8]) -> Result<&Journal, Refusal> {
    match bytes.as_chunks() {
        (blocks, []) => blocks.try_into().map_err(|_| Refusal::JournalLength),
        _ => Err(Refusal::JournalLength),
    }
}

pub(crate) fn lent_mut(bytes: &mut [u8]) -> Result<&mut Journal, Refusal> {
    match bytes.as_chunks_mut() {
        (blocks, []) => blocks.try_into().map_err(|_| Refusal::JournalLength),
        _ => Err(Refusal::JournalLength),
    }
}

/// Refused if the head is not wiped: all its 512 bytes count.
pub(crate) fn nothing_pending(journal: &Journal) -> Result<(), Refusal> {
    match journal[0] {
        WIPED => Ok(()),
        _ => Err(Refusal::Pending),
    }
}

/// Wipes the head, whatever stands there. A change that was pending is then lost.
pub fn wipe(journal: &mut [u8]) -> Result<(), Refusal> {
    lent_mut(journal)?[0] = WIPED;
    Ok(())
}

/// Done if the head is wiped.
pub fn wiped(journal: &[u8]) -> Result<(), Refusal> {
    nothing_pending(lent(journal)?)
}

/// The number of images that a head or a plan names.
fn images(head: &Block) -> usize {
    get32(head, 4) as usize
}

/// The block of the store that image `i` is of.
fn name(head: &Block, i: usize) -> usize {
    get32(head, 8 + 4 * i) as usize
}

/// The blocks that the images are of, in the head's order, if the journal holds a whole change of a store with so many
/// blocks. Neither their order, nor the bytes after them, nor the store's own number matters.
fn held(journal: &Journal, blocks: usize) -> Option<Vec<usize>> {
    let (head, end) = (&journal[0], &journal[END]);
    let number = get32(head, 0);
    if !(1..=MOST).contains(&images(head)) {
        return None;
    }
    let names: Vec<usize> = (0..images(head)).map(|i| name(head, i)).collect();
    let right = |at: usize, block| block::intact(number, at, block);
    let ends = right(0, head) && right(END, end) && head[..CHECK] == end[..CHECK];
    let below = names.iter().all(|&name| name < blocks);
    let differ = names.iter().enumerate().all(|(i, name)| !names[..i].contains(name));
    let whole = names.iter().zip(&journal[1..]).all(|(&name, image)| right(name, image));
    (ends && below && differ && whole).then_some(names)
}

/// The block stores of a recovery, in order: each image to its block, if the journal holds a change, and the wiping.
pub fn recovery(store: &[u8], journal: &[u8]) -> Result<Vec<BlockStore>, Refusal> {
    let (blocks, journal) = (blocks(store)?, lent(journal)?);
    let names = held(journal, blocks.len()).unwrap_or_default();
    let copies = names.into_iter().zip(&journal[1..]).map(|(name, image)| BlockStore::new(Place::Store(name), image));
    Ok(copies.chain([BlockStore::new(Place::Journal(0), &WIPED)]).collect())
}

/// Brings the store to what it was before the change that was cut, or to what it is after it.
pub fn recover(store: &mut [u8], journal: &mut [u8]) -> Result<(), Refusal> {
    let list = recovery(store, journal)?;
    let (blocks, journal) = (blocks_mut(store)?, lent_mut(journal)?);
    list.iter().for_each(|each| each.run(blocks, journal));
    Ok(())
}

/// Where a block of the store is found as it will stand after recovery.
pub fn look(store: &[u8], journal: &[u8], block: u32) -> Result<Place, Refusal> {
    let (blocks, journal) = (blocks(store)?, lent(journal)?);
    let block = block as usize;
    if block >= blocks.len() {
        return Err(Refusal::Number);
    }
    let names = held(journal, blocks.len()).unwrap_or_default();
    let image = names.iter().position(|&name| name == block);
    Ok(image.map_or(Place::Store(block), |i| Place::Journal(1 + i)))
}

#[cfg(test)]
mod tests {
    use super::{block, WIPED};

    #[test]
    fn the_wiped_head() {
        assert!(block::intact(0, 0, &WIPED) && block::unused(&WIPED));
    }
}
