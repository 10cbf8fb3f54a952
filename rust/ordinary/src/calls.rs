//! The ten calls on a store. Those that change it, but for a format, go through a journal.

use crate::answer::{Gauge, Refusal, Standing, Worked};
use crate::block::{self, Block, Trailer, BITMAP, BUCKET, NONE};
use crate::changes;
use crate::check::sound;
use crate::meta::{Meta, MOST};
use crate::view::View;

/// The bytes of a match in the output.
const MATCH: usize = 6;

fn legal(blocks: usize, rest: &[u8]) -> Result<(), Refusal> {
    if rest.is_empty() && (4..=MOST).contains(&blocks) {
        Ok(())
    } else {
        Err(Refusal::Length)
    }
}

pub(crate) fn blocks(store: &[u8]) -> Result<&[Block], Refusal> {
    let (blocks, rest) = store.as_chunks();
    legal(blocks.len(), rest).map(|()| blocks)
}

pub(crate) fn blocks_mut(store: &mut [u8]) -> Result<&mut [Block], Refusal> {
    let (blocks, rest) = store.as_chunks_mut();
    legal(blocks.len(), rest).map(|()| blocks)
}

/// Judges the store: done if it is sound.
pub fn verify(store: &[u8]) -> Result<(), Refusal> {
    sound(blocks(store)?).map(drop)
}

/// Makes any bytes of legal length an empty index, but a store in use only if `overwrite` is 1; it may be 0 or 1.
/// Every check in the new index covers `number`, which may be any.
pub fn format(store: &mut [u8], fill: u32, number: u32, overwrite: u32) -> Result<(), Refusal> {
    let blocks = blocks_mut(store)?;
    if !(1..=40).contains(&fill) || overwrite > 1 {
        return Err(Refusal::Number);
    }
    if overwrite == 0 && used(blocks) {
        return Err(Refusal::InUse);
    }
    blocks.as_flattened_mut().fill(0);
    Meta::fresh(blocks.len() as u32, fill as u16, number).write(&mut blocks[0]);
    Trailer::new(1, NONE, 0, BUCKET).put(&mut blocks[1]);
    Trailer::new(1, NONE, 1, BUCKET).put(&mut blocks[2]);
    blocks[3][..256].fill(0xFF);
    Trailer::unlinked(BITMAP).put(&mut blocks[3]);
    for (at, block) in blocks.iter_mut().enumerate() {
        block::seal(number, at, block);
    }
    Ok(())
}

/// Whether the store is in use. One that is not sound is not, whatever is in it.
pub fn in_use(store: &[u8]) -> Result<bool, Refusal> {
    blocks(store).map(used)
}

/// Whether blocks are a sound store, under its own number, that holds pairs.
fn used(blocks: &[Block]) -> bool {
    sound(blocks).is_ok_and(|meta| meta.count != 0)
}

/// Puts a pair in.
pub fn insert(store: &mut [u8], journal: &mut [u8], hash: u32, block: u32, offset: u32) -> Result<(), Refusal> {
    changes::insert(store, Some(journal), hash, block, offset)
}

/// Takes a pair out and, while its bucket is being populated, its moved copy too.
pub fn remove(store: &mut [u8], journal: &mut [u8], hash: u32, block: u32, offset: u32) -> Result<(), Refusal> {
    changes::remove(store, Some(journal), hash, block, offset)
}

/// Writes the places held under a hash code, ascending, 6 bytes each, and gives their number.
pub fn lookup(store: &[u8], hash: u32, output: &mut [u8]) -> Result<u32, Refusal> {
    let blocks = blocks(store)?;
    let meta = sound(blocks)?;
    let places = View { blocks, meta: &meta }.matches(hash);
    let number = places.len() as u32;
    if output.len() / MATCH < places.len() {
        return Err(Refusal::OutputShort(number));
    }
    for (slot, (block, offset)) in output.chunks_exact_mut(MATCH).zip(places) {
        slot[..4].copy_from_slice(&block.to_le_bytes());
        slot[4..].copy_from_slice(&offset.to_le_bytes());
    }
    Ok(number)
}

/// Makes up to `budget` steps of splits. The store is sound after each.
pub fn work(store: &mut [u8], journal: &mut [u8], budget: u32) -> Result<Worked, Refusal> {
    changes::work(store, Some(journal), budget, false)
}

/// Makes up to `budget` steps of a squeeze: each moves an entry from the end of a bucket's chain to the first page with
/// room. The store is sound after each.
pub fn squeeze(store: &mut [u8], journal: &mut [u8], bucket: u32, budget: u32) -> Result<Worked, Refusal> {
    changes::squeeze(store, Some(journal), bucket, budget)
}

/// How the index stands.
pub fn standing(store: &[u8]) -> Result<Standing, Refusal> {
    let blocks = blocks(store)?;
    let meta = sound(blocks)?;
    Ok(View { blocks, meta: &meta }.standing())
}

/// How full the index is.
pub fn gauge(store: &[u8]) -> Result<Gauge, Refusal> {
    let blocks = blocks(store)?;
    let meta = sound(blocks)?;
    Ok(View { blocks, meta: &meta }.gauge())
}
