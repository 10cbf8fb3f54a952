//! The stores that the benchmark measures on: sound, and the same in every run.

use crate::build::{deal, encode, point_of, Chains, Entries, Layout, IN_ALL, NONE};
use crate::random::Random;

/// 70 % of the 40 entries of a page.
pub const EACH: u32 = 28;
/// The hash code of the stores with one hash code alone.
pub const CODE: u32 = 2;
/// The number of the stores.
const NUMBER: u32 = 0x5EC0_11E7;

/// The last split of `even`.
#[derive(Debug, Clone, Copy, PartialEq, Eq)]
pub enum Split {
    /// It is over.
    Over,
    /// It is in the midst of its copying.
    Copying,
    /// It is the one that is wanted.
    Wanted,
}

/// So many buckets, the last split's new one too, `each` random pairs a bucket, four to a hash code, and fill `each`.
/// All blocks that no bucket of the last point needs are overflow pages. Where they are few, no bucket needs one.
pub fn even(blocks: u32, buckets: u32, each: u32, split: Split) -> Vec<u8> {
    let mut random = Random::new(u64::from(blocks) + 1);
    let (old, new) = ((buckets - 1) ^ (1 << (buckets - 1).ilog2()), buckets - 1);
    let max = if split == Split::Wanted { new - 1 } else { new };
    let bits = blocks - IN_ALL[point_of(new)] - 1;
    let layout = spread(blocks, max, bits);
    let most = if bits < buckets / 2 { 36 } else { usize::MAX };
    let mut homes = vec![Entries::new(); max as usize + 1];
    for _ in 0..each * buckets / 4 {
        let (hash, home) = loop {
            let hash = random.number();
            let home = match layout.bucket_of(hash) {
                bucket if split == Split::Copying && bucket == new => old,
                bucket => bucket,
            };
            if homes[home as usize].len() < most {
                break (hash, home);
            }
        };
        homes[home as usize].extend((0..4).map(|_| (under(&mut random, hash), false)));
    }
    if split == Split::Copying {
        let guests = homes[old as usize].keys().filter(|pair| layout.bucket_of(pair.0) == new);
        homes[new as usize] = guests.step_by(2).map(|&pair| (pair, true)).collect();
    }
    let mut free: Vec<u32> = (1..layout.bits()).rev().map(|bit| layout.bit_block(bit)).collect();
    let chain = |(entries, bucket)| deal(&mut random, layout.bucket_block(bucket), entries, &mut free);
    let chains: Chains = homes.into_iter().zip(0..).map(chain).collect();
    encode(&layout, each, u32::from(split == Split::Copying), (old, new), &chains)
}

/// A layout with all overflow pages but bit 0 at the last point.
fn spread(blocks: u32, max: u32, bits: u32) -> Layout {
    let point = point_of(max);
    let mut spares = [0; 16];
    spares[1..point].fill(1);
    spares[point] = bits;
    Layout { blocks, max, point: point as u32, spares, number: NUMBER }
}

/// One chain of so many pages, of random pairs, its entries dealt to its pages at random.
pub fn chain(blocks: u32, pages: u32) -> Vec<u8> {
    let mut random = Random::new(u64::from(pages));
    let entries = (0..pages * EACH).map(|_| (of(&mut random, 4, 0), false)).collect();
    let pages = interleaved(&mut random, entries, pages);
    lone(blocks, pages)
}

/// One chain of random pairs, with so many on each page.
pub fn shaped(blocks: u32, lengths: &[u32]) -> Vec<u8> {
    let mut random = Random::new(lengths.len() as u64 + 3);
    let mut page = |&entries: &u32| (0..entries).map(|_| (of(&mut random, 4, 0), false)).collect();
    let pages = lengths.iter().map(&mut page).collect();
    lone(blocks, pages)
}

/// One chain of so many pages of 20 random pairs, dealt at random.
pub fn half_empty(blocks: u32, pages: u32) -> Vec<u8> {
    shaped(blocks, &vec![20; pages as usize])
}

/// The same with 1 to 3 pairs a page, as a storm of removals leaves a chain.
pub fn thin(blocks: u32, pages: u32) -> Vec<u8> {
    let mut random = Random::new(u64::from(pages) + 4);
    let lengths: Vec<u32> = (0..pages).map(|_| random.within(1, 3)).collect();
    shaped(blocks, &lengths)
}

/// The longest chain that there is, of full pages of random pairs, all but so many at its end.
pub fn longest(blocks: u32, but: u32) -> Vec<u8> {
    let mut random = Random::new(u64::from(blocks) + 2);
    let entries = (0..(blocks - 3) * 40 - but).map(|_| (of(&mut random, 4, 0), false)).collect();
    let pages = interleaved(&mut random, entries, blocks - 3);
    lone(blocks, pages)
}

/// How the places of a hash code stand on the pages of its chain.
#[derive(Clone, Copy)]
pub enum Order {
    Ascending,
    Interleaved,
}

/// One chain of full pages, of so many random places under `CODE`.
pub fn crowd(blocks: u32, matches: u32, order: Order) -> Vec<u8> {
    let mut random = Random::new(u64::from(matches));
    let entries: Entries = (0..matches).map(|_| (under(&mut random, CODE), false)).collect();
    let pages = match order {
        Order::Ascending => dealt(entries.into_iter().collect(), 40),
        Order::Interleaved => interleaved(&mut random, entries, matches.div_ceil(40)),
    };
    lone(blocks, pages)
}

/// The pages of the old and of the new chain of the long copying jobs of so many blocks.
pub fn job_pages(blocks: u32) -> (u32, u32) {
    match blocks {
        16 => (7, 4),
        108..=128 => (64, 40),
        1024 => (512, 320),
        _ => panic!("no job for {blocks} blocks"),
    }
}

/// In the midst of a long copying job: half of the old chain's entries are the new bucket's and half of those, the
/// first ones, copied; the new chain has entries inserted since for the rest.
pub fn copying(blocks: u32) -> Vec<u8> {
    let mut random = Random::new(7);
    let all = job_pages(blocks).0 * EACH;
    let halves = (0..all).map(|i| of(&mut random, 4, if i % 2 == 0 { 0 } else { 2 })).collect();
    copied(&mut random, blocks, 2, halves, |random| of(random, 4, 2))
}

/// The hash code of `copying_one_code`.
pub const LAST_CODE: u32 = u32::MAX;

/// Its number of places: those of the old chain, and those inserted since.
pub fn last_code_places(blocks: u32) -> u32 {
    let (old, new) = job_pages(blocks);
    old * EACH + (new * EACH - old * EACH / 2)
}

/// The same with `LAST_CODE` alone, so that all entries of the old chain are the new bucket's. The places end with the
/// last that there is. Of 108 to 128 blocks, 108 leave no free page.
pub fn copying_one_code(blocks: u32) -> Vec<u8> {
    let mut random = Random::new(8);
    let place = |i| (LAST_CODE, NONE - 1 - i % 2, 65_535 - (i / 2 * 3) as u16);
    let mut pairs: Vec<Pair> = (0..last_code_places(blocks)).map(place).collect();
    random.shuffle(&mut pairs);
    let mut fresh = pairs.split_off((job_pages(blocks).0 * EACH) as usize);
    copied(&mut random, blocks, 3, pairs, |_| fresh.pop().unwrap_or_default())
}

/// Copying to bucket `new`, 2 or 3: these pairs in the old chain, the first half of those of the new bucket copied, and
/// with fresh ones in the new chain.
fn copied(
    random: &mut Random,
    blocks: u32,
    new: u32,
    old_pairs: Vec<Pair>,
    mut fresh: impl FnMut(&mut Random) -> Pair,
) -> Vec<u8> {
    let old = new - 2;
    let (old_number, new_number) = job_pages(blocks);
    let mut spares = [0; 16];
    spares[1..3].copy_from_slice(&[old_number, old_number + new_number - 1]);
    let layout = Layout { blocks, max: new, point: 2, spares, number: NUMBER };
    let old_pages = interleaved(random, old_pairs.into_iter().map(|pair| (pair, false)).collect(), old_number);
    let guests = old_pages.iter().flatten().filter(|(pair, _)| layout.bucket_of(pair.0) == new);
    let mut copies: Vec<_> = guests.map(|(&pair, _)| (pair, true)).collect();
    copies.truncate(copies.len() / 2);
    copies.resize_with((new_number * EACH) as usize, || (fresh(random), false));
    let new_pages = interleaved(random, copies.into_iter().collect(), new_number);
    let mut free = (1..layout.bits()).map(|bit| layout.bit_block(bit));
    let mut chain = |bucket, pages| linked(&layout, bucket, pages, &mut free);
    let mut chains: Chains = (0..=new).map(|bucket| chain(bucket, vec![Entries::new()])).collect();
    chains[old as usize] = chain(old, old_pages);
    chains[new as usize] = chain(new, new_pages);
    encode(&layout, EACH, 1, (old, new), &chains)
}

/// A store that wants exactly one split, of a chain of N / 2 pages with 10 N random pairs, half of which move. N is a
/// power of two from 16 on.
pub fn wanting(blocks: u32) -> Vec<u8> {
    let mut random = Random::new(u64::from(blocks));
    let size = blocks / 4;
    let (old, new) = (size / 2 - 1, size - 1);
    let layout = spread(blocks, new - 1, blocks / 2);
    let halves = (0..10 * blocks).map(|i| (of(&mut random, size, if i % 2 == 0 { old } else { new }), false)).collect();
    let mut pages = Some(interleaved(&mut random, halves, blocks / 2));
    let mut free = (1..layout.bits()).map(|bit| layout.bit_block(bit));
    let mut chain = |bucket| {
        let pages = if bucket == old { pages.take() } else { None };
        linked(&layout, bucket, pages.unwrap_or(vec![Entries::new()]), &mut free)
    };
    let chains = (0..new).map(&mut chain).collect();
    encode(&layout, 40, 0, (0, 0), &chains)
}

/// The number of the pairs of `leaving`, and how many of them move with the split that it wants.
pub fn leavers(blocks: u32) -> (u32, u32) {
    match blocks {
        128 => (99 * 40, 1_000),
        1024 => (800 * 40, 8_000),
        _ => panic!("nobody leaves {blocks} blocks"),
    }
}

/// A store that wants a split of a chain of full pages of random pairs, of which a quarter or so move, and fill the
/// last blocks. It wants more splits after that one. A store that wants one alone has at most 40 pairs for each bucket
/// and for the new one, so no more full pages than that, and there is no room for as many of each.
pub fn leaving(blocks: u32) -> Vec<u8> {
    let mut random = Random::new(9);
    let (all, leave) = leavers(blocks);
    let pairs = (0..all).map(|i| (of(&mut random, 4, if i < leave { 2 } else { 0 }), false)).collect();
    let pages = interleaved(&mut random, pairs, all / 40);
    lone(blocks, pages)
}

type Pair = (u32, u32, u16);

/// A random pair under a hash code.
fn under(random: &mut Random, hash: u32) -> Pair {
    (hash, random.below(NONE), 1 + random.below(65_535) as u16)
}

/// A random pair under a random hash code with this remainder.
fn of(random: &mut Random, size: u32, bucket: u32) -> Pair {
    let hash = random.number() / size * size + bucket;
    under(random, hash)
}

/// Pages of `each` entries, in order.
fn dealt(entries: Vec<(Pair, bool)>, each: usize) -> Vec<Entries> {
    entries.chunks(each).map(|page| page.iter().copied().collect()).collect()
}

/// So many pages of random entries, as many on each.
fn interleaved(random: &mut Random, entries: Entries, pages: u32) -> Vec<Entries> {
    let mut entries: Vec<_> = entries.into_iter().collect();
    random.shuffle(&mut entries);
    let each = entries.len().div_ceil(pages as usize);
    dealt(entries, each)
}

/// The pages of a bucket's chain with their blocks.
fn linked(
    layout: &Layout,
    bucket: u32,
    pages: Vec<Entries>,
    free: &mut impl Iterator<Item = u32>,
) -> Vec<(u32, Entries)> {
    let blocks = std::iter::once(layout.bucket_block(bucket)).chain(free);
    pages.into_iter().zip(blocks).map(|(entries, block)| (block, entries)).collect()
}

/// A store with nothing but the chain of bucket 0.
fn lone(blocks: u32, pages: Vec<Entries>) -> Vec<u8> {
    let mut spares = [0; 16];
    spares[1] = pages.len() as u32;
    let layout = Layout { blocks, max: 1, point: 1, spares, number: NUMBER };
    let mut free = (1..layout.bits()).map(|bit| layout.bit_block(bit));
    let chains = vec![linked(&layout, 0, pages, &mut free), linked(&layout, 1, vec![Entries::new()], &mut free)];
    encode(&layout, 40, 0, (0, 0), &chains)
}
