//! The chains of a sound store, read from outside, and the blocks in which two stores differ.

use crate::build::{found, Layout, NONE};
use crate::lists::Pair;
use crate::word::word;
use std::collections::BTreeSet;

/// The blocks of a bucket's chain, bucket page first.
pub fn chain(store: &[u8], bucket: u32) -> Vec<u32> {
    let next = |&block: &u32| Some(word(store, 512 * block as usize + 496)).filter(|&next| next != NONE);
    std::iter::successors(Some(Layout::of(store).bucket_block(bucket)), next).collect()
}

/// The number of entries on each page of a bucket's chain.
pub fn lengths(store: &[u8], bucket: u32) -> Vec<u32> {
    chain(store, bucket).into_iter().map(|block| store[512 * block as usize].into()).collect()
}

/// The last entry of a chain's last page, and its mark.
pub fn last(store: &[u8], bucket: u32) -> (Pair, bool) {
    let block = chain(store, bucket).pop().unwrap_or(0) as usize;
    let entry = found(&store[512 * block..][..512]).last().expect("an entry");
    (entry.pair, entry.moved)
}

/// The overflow pages of a bucket's chain.
pub fn overflow(store: &[u8], bucket: u32) -> u32 {
    chain(store, bucket).len() as u32 - 1
}

/// The pages that entries need, with so many on each page now.
fn needed(lengths: &[u32]) -> usize {
    lengths.iter().sum::<u32>().div_ceil(40).max(1) as usize
}

/// Whether a bucket's chain has as few pages as its entries need: what a squeeze comes to.
pub fn dense(store: &[u8], bucket: u32) -> bool {
    let lengths = lengths(store, bucket);
    lengths.len() == needed(&lengths)
}

/// The steps of a squeeze to its end. It empties the pages that are not needed and fills the needed ones but the last,
/// which takes what is left over or gives what is wanting: no entry moves twice.
pub fn squeeze_steps(store: &[u8], bucket: u32) -> u32 {
    let lengths = lengths(store, bucket);
    let needed = needed(&lengths);
    let emptied: u32 = lengths[needed..].iter().sum();
    let filled: u32 = lengths[..needed - 1].iter().map(|entries| 40 - entries).sum();
    emptied.max(filled)
}

/// The blocks that a step of a squeeze alters when it moves an entry to the chain's page `to`: the two pages; where
/// the last is freed, the bitmap and the page before it, which may be `to`, and meta where first free falls.
pub fn squeeze_blocks(store: &[u8], bucket: u32, to: usize) -> Vec<u32> {
    let pages = chain(store, bucket);
    let [.., before, last] = pages[..] else { panic!("a chain of one page") };
    let mut blocks = BTreeSet::from([pages[to], last]);
    if store[512 * last as usize] == 1 {
        blocks.extend([3, before]);
        let falls = last < Layout::of(store).bit_block(word(store, 32));
        blocks.extend(falls.then_some(0));
    }
    blocks.into_iter().collect()
}

/// The overflow pages that a store has free.
pub fn free_pages(store: &[u8]) -> u32 {
    let bits = &store[3 * 512..3 * 512 + 256];
    bits.iter().map(|byte| byte.count_zeros()).sum()
}

/// The blocks in which two stores differ.
pub fn changed(store: &[u8], before: &[u8]) -> Vec<u32> {
    let blocks = store.chunks_exact(512).zip(before.chunks_exact(512)).zip(0..);
    blocks.filter(|((now, then), _)| now != then).map(|(_, at)| at).collect()
}
