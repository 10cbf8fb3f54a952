//! Stores at an end: of a point, so that the next begin needs a new one, or of what pages can hold, much or little.

use crate::build::{deal, encode, Chains, Entries, Layout, IN_ALL};
use crate::random::Random;

/// All buckets of a point and so many overflow bits, with one pair more than fill times buckets: a split is wanted. As
/// long as some bucket has room on its page, a pair goes to such a one; with fill 40 the last one needs a second page,
/// and bucket 0 gets it.
pub fn brink(random: &mut Random, blocks: u32, point: u32, bits: u32, fill: u32) -> Vec<u8> {
    let buckets = IN_ALL[point as usize];
    let mut spares = [0; 16];
    (1..=point).for_each(|i| spares[i as usize] = (bits * i / point).max(1));
    let layout = Layout { blocks, max: buckets - 1, point, spares, number: random.store_number() };
    let mut entries = vec![Entries::new(); buckets as usize];
    for i in 0..=fill * buckets {
        let mut hash = random.number();
        while i < 40 * buckets && entries[layout.bucket_of(hash) as usize].len() == 40 {
            hash = random.number();
        }
        if i == 40 * buckets {
            hash -= hash % layout.size();
        }
        // No two are the same, since no two blocks are.
        entries[layout.bucket_of(hash) as usize].insert((hash, i, random.within(1, 65_535) as u16), false);
    }
    let mut free: Vec<u32> = (1..bits).map(|bit| layout.bit_block(bit)).collect();
    random.shuffle(&mut free);
    let chain = |(entries, bucket)| deal(random, layout.bucket_block(bucket), entries, &mut free);
    let chains: Chains = entries.into_iter().zip(0..).map(chain).collect();
    encode(&layout, fill, 0, (0, 0), &chains)
}

/// The code of `stuffed`.
pub const ODD_CODE: u32 = 0xFFFF_FFF1;

/// The most matches of a sound store: while copying from bucket 0 to bucket 1, which no split does, all pages but meta
/// and bitmap are full of one code, and nothing is copied yet.
pub fn stuffed(blocks: u32) -> Vec<u8> {
    let mut spares = [0; 16];
    spares[1] = blocks - 3;
    let layout = Layout { blocks, max: 1, point: 1, spares, number: 9 };
    // Places that are near each other stand far from each other.
    let place = |page: u32, slot: u32| ((ODD_CODE, slot * blocks + page, 1 + page as u16), false);
    let full = |page: u32| (0..40).map(|slot| place(page, slot)).collect::<Entries>();
    let overflow = (1..layout.bits()).map(|bit| layout.bit_block(bit));
    let (old, new): (Vec<u32>, Vec<u32>) = overflow.partition(|block| block % 3 > 0);
    let chain =
        |first, rest: Vec<u32>| [vec![first], rest].concat().into_iter().map(|page| (page, full(page))).collect();
    encode(&layout, 40, 1, (0, 1), &vec![chain(1, old), chain(2, new)])
}

/// Copying from bucket 0 to bucket 2, with one or two entries on each overflow page of both chains, and some pages
/// free: a removal may free a page in the midst of each chain.
pub fn sparse(random: &mut Random, blocks: u32) -> Vec<u8> {
    let mut spares = [0; 16];
    (spares[1], spares[2]) = (1, blocks - 5);
    let layout = Layout { blocks, max: 2, point: 2, spares, number: random.store_number() };
    let mut free: Vec<u32> = (1..layout.bits()).map(|bit| layout.bit_block(bit)).collect();
    random.shuffle(&mut free);
    let mut pair =
        |i: usize| (4 * random.below(3) + random.pick(&[0, 2, 2]), i as u32, random.within(1, 65_535) as u16);
    let pairs: Vec<_> = (0..free.len() / 2).map(&mut pair).collect();
    let mut guests: Vec<_> = pairs.iter().filter(|pair| pair.0 % 4 == 2).map(|&pair| (pair, true)).collect();
    random.shuffle(&mut guests);
    let old = thinly(random, layout.bucket_block(0), pairs.into_iter().map(|pair| (pair, false)).collect(), &mut free);
    let new = thinly(random, layout.bucket_block(2), guests, &mut free);
    let other = vec![(layout.bucket_block(1), Entries::new())];
    encode(&layout, random.within(1, 40), 1, (0, 2), &vec![old, other, new])
}

/// A chain with an empty bucket page and one or two entries on each other page.
fn thinly(
    random: &mut Random,
    first: u32,
    entries: Vec<((u32, u32, u16), bool)>,
    free: &mut Vec<u32>,
) -> Vec<(u32, Entries)> {
    let mut chain = vec![(first, Entries::new())];
    let mut entries = entries.into_iter().peekable();
    while entries.peek().is_some() {
        let page = entries.by_ref().take(random.within(1, 2) as usize).collect();
        chain.push((free.pop().expect("a free page"), page));
    }
    chain
}
