//! The meta block, and the addresses that follow from it.

use crate::block::{get16, get32, put16, put32, zero, Block, Trailer, CONTENT, META};

/// The most blocks of a store.
pub const MOST: usize = 1024;
/// From this group of buckets on a group has four points, and before it one.
const FIRST_PHASED: u32 = 10;
const MAGIC: u32 = 0x0644_0640;
const EDITION: u32 = 512;
const SPARES: usize = 40;
const NUMBER: usize = SPARES + 4 * 16;
const NUMBER_END: usize = NUMBER + 4;

/// What a block is for.
#[derive(Debug, Clone, Copy, PartialEq, Eq)]
pub enum Role {
    Meta,
    Bitmap,
    Bucket(u32),
    /// A made overflow block, in use or free.
    Overflow,
    /// Not yet made, or kept for a coming bucket.
    Unused,
}

/// The fields of the meta block that say something.
#[derive(Debug, Clone)]
pub struct Meta {
    pub count: u32,
    pub fill: u16,
    pub max_bucket: u32,
    pub high_mask: u32,
    pub low_mask: u32,
    pub point: u32,
    pub first_free: u32,
    pub blocks: u32,
    pub spares: [u32; 16],
    pub number: u32,
}

/// The store's number: what stands in block 0, whatever else is in it.
pub fn store_number(block: &Block) -> u32 {
    get32(block, NUMBER)
}

impl Meta {
    /// The meta block of an empty index.
    pub fn fresh(blocks: u32, fill: u16, number: u32) -> Self {
        let mut spares = [0; 16];
        spares[1] = 1;
        let (high_mask, low_mask) = masks(1);
        Meta { count: 0, fill, max_bucket: 1, high_mask, low_mask, point: 1, first_free: 1, blocks, spares, number }
    }

    pub fn read(block: &Block) -> Self {
        Meta {
            count: get32(block, 8),
            fill: get16(block, 12),
            max_bucket: get32(block, 16),
            high_mask: get32(block, 20),
            low_mask: get32(block, 24),
            point: get32(block, 28),
            first_free: get32(block, 32),
            blocks: get32(block, 36),
            spares: std::array::from_fn(|i| get32(block, SPARES + 4 * i)),
            number: store_number(block),
        }
    }

    pub fn write(&self, block: &mut Block) {
        block.fill(0);
        let fields = [(0, MAGIC), (4, EDITION), (8, self.count), (16, self.max_bucket), (20, self.high_mask)];
        let more =
            [(24, self.low_mask), (28, self.point), (32, self.first_free), (36, self.blocks), (NUMBER, self.number)];
        for (at, value) in fields.into_iter().chain(more) {
            put32(block, at, value);
        }
        put16(block, 12, self.fill);
        for (i, &spare) in self.spares.iter().enumerate() {
            put32(block, SPARES + 4 * i, spare);
        }
        Trailer::unlinked(META).put(block);
    }

    /// Rule 1, of the block that these fields were read from.
    pub fn rule1(&self, block: &Block, blocks: usize) -> bool {
        get32(block, 0) == MAGIC
            && get32(block, 4) == EDITION
            && self.blocks as usize == blocks
            && zero(&block[14..16])
            && zero(&block[NUMBER_END..CONTENT])
    }

    /// Rule 2.
    pub fn rule2(&self) -> bool {
        if !(1..=40).contains(&self.fill) || self.max_bucket == 0 || self.max_bucket >= self.blocks {
            return false;
        }
        let point = point_of(self.max_bucket);
        if self.point != point || (self.high_mask, self.low_mask) != masks(self.max_bucket) {
            return false;
        }
        let (made, above) = self.spares.split_at(point as usize + 1);
        made[0] == 0
            && made[1] >= 1
            && made[1..].is_sorted()
            && above.iter().all(|&spare| spare == 0)
            && u64::from(buckets_at(point)) + u64::from(made[point as usize]) < u64::from(self.blocks)
    }

    pub fn buckets(&self) -> u32 {
        self.max_bucket + 1
    }

    /// The number of overflow bits made so far.
    pub fn bits(&self) -> u32 {
        self.spares[self.point as usize]
    }

    /// The number of made blocks.
    pub fn made(&self) -> u32 {
        buckets_at(self.point) + self.bits() + 1
    }

    /// Makes one more bucket the last one; point and spares are up to the caller.
    pub fn set_max_bucket(&mut self, max_bucket: u32) {
        self.max_bucket = max_bucket;
        (self.high_mask, self.low_mask) = masks(max_bucket);
    }

    pub fn bucket_of(&self, hash: u32) -> u32 {
        let bucket = hash & self.high_mask;
        if bucket > self.max_bucket {
            hash & self.low_mask
        } else {
            bucket
        }
    }

    pub fn bucket_block(&self, bucket: u32) -> usize {
        match point_of(bucket) {
            0 => 1,
            point => (bucket + self.spares[point as usize - 1] + 1) as usize,
        }
    }

    pub fn bit_block(&self, bit: u32) -> usize {
        let point = (1..self.point).find(|&i| bit < self.spares[i as usize]).unwrap_or(self.point);
        (buckets_at(point) + bit + 1) as usize
    }

    /// The bit of a made overflow block.
    pub fn bit_of(&self, block: usize) -> Option<u32> {
        let last = |point: u32| buckets_at(point) + self.spares[point as usize];
        let point = (1..=self.point).find(|&point| block as u32 <= last(point))?;
        let bit = (block as u32).checked_sub(buckets_at(point) + 1)?;
        (self.bit_block(bit) == block).then_some(bit)
    }

    /// The roles of all blocks of a store that keeps rule 2.
    pub fn roles(&self) -> Vec<Role> {
        let mut roles = vec![Role::Unused; self.blocks as usize];
        roles[0] = Role::Meta;
        for bucket in 0..self.buckets() {
            roles[self.bucket_block(bucket)] = Role::Bucket(bucket);
        }
        for bit in 0..self.bits() {
            roles[self.bit_block(bit)] = if bit == 0 { Role::Bitmap } else { Role::Overflow };
        }
        roles
    }

    /// The block of the bitmap.
    pub fn bitmap(&self) -> usize {
        self.bit_block(0)
    }

    /// The bucket that the last one split off from.
    pub fn job_old(&self) -> u32 {
        splits_from(self.max_bucket)
    }
}

/// The point that a bucket comes with: its group, which is its number of bits, or one of four in a phased group.
pub fn point_of(bucket: u32) -> u32 {
    let group = u32::BITS - bucket.leading_zeros();
    if group < FIRST_PHASED {
        return group;
    }
    // The two bits after the highest tell the phase.
    let phase = bucket >> (group - 3) & 3;
    FIRST_PHASED + 4 * (group - FIRST_PHASED) + phase
}

/// Buckets in all at a point.
pub fn buckets_at(point: u32) -> u32 {
    if point < FIRST_PHASED {
        return 1 << point;
    }
    let (groups, phase) = ((point - FIRST_PHASED) / 4, (point - FIRST_PHASED) % 4);
    // The groups before have four quarters, each as large as a phase.
    (4 + phase + 1) << (FIRST_PHASED + groups - 3)
}

/// Of each bucket the highest one from 2 on that it is or that split off from it, or 1: what its page's previous field
/// has to be.
pub fn latest_splits(buckets: u32) -> Vec<u32> {
    let mut latest = vec![1; buckets as usize];
    for bucket in 2..buckets {
        latest[bucket as usize] = bucket;
        latest[splits_from(bucket) as usize] = bucket;
    }
    latest
}

/// The bucket that `bucket`, at least 1, splits off from.
pub fn splits_from(bucket: u32) -> u32 {
    bucket ^ (1 << bucket.ilog2())
}

/// High and low mask for a max bucket of at least 1.
fn masks(max_bucket: u32) -> (u32, u32) {
    let high = (u32::MAX >> max_bucket.leading_zeros()).max(3);
    (high, high / 2)
}

#[cfg(test)]
mod tests;
