//! A sound store, read.

use crate::answer::{Gauge, Phase, Standing};
use crate::block::{self, Block, CLEANUP, NONE, SPLIT};
use crate::meta::Meta;
use crate::page::{self, Entry, Pair};

/// The blocks of a sound store with its meta block taken apart.
#[derive(Clone, Copy)]
pub struct View<'a> {
    pub blocks: &'a [Block],
    pub meta: &'a Meta,
}

/// Where an entry stands.
#[derive(Debug, Clone, Copy)]
pub struct Spot {
    pub page: usize,
    pub slot: usize,
    pub entry: Entry,
}

impl<'a> View<'a> {
    /// The blocks of a bucket's chain.
    pub fn chain(self, bucket: u32) -> impl Iterator<Item = usize> + use<'a> {
        self.chain_from(self.meta.bucket_block(bucket))
    }

    /// The blocks of a chain from one of them on.
    pub fn chain_from(self, first: usize) -> impl Iterator<Item = usize> + use<'a> {
        std::iter::successors(Some(first), move |&page| {
            let next = block::next(&self.blocks[page]);
            (next != NONE).then_some(next as usize)
        })
    }

    /// The entries of a bucket's chain, in order of pages.
    pub fn entries(self, bucket: u32) -> impl Iterator<Item = Spot> + use<'a> {
        self.chain(bucket).flat_map(move |number| {
            let spots = page::entries(&self.blocks[number]).enumerate();
            spots.map(move |(slot, entry)| Spot { page: number, slot, entry })
        })
    }

    /// The pairs of a bucket's chain, ascending.
    pub fn sorted_pairs(self, bucket: u32) -> Vec<Pair> {
        let mut pairs = Vec::new();
        self.sort_pairs(bucket, &mut pairs);
        pairs
    }

    /// The same in place of what is in a buffer.
    pub fn sort_pairs(self, bucket: u32, pairs: &mut Vec<Pair>) {
        pairs.clear();
        for number in self.chain(bucket) {
            pairs.extend(page::pairs(&self.blocks[number]));
        }
        pairs.sort_unstable();
    }

    /// The pair in a bucket's chain, moved or not.
    pub fn find(self, bucket: u32, pair: Pair) -> Option<Spot> {
        self.chain(bucket).find_map(|number| {
            let page = &self.blocks[number];
            let slot = page::search(page, pair).ok()?;
            Some(Spot { page: number, slot, entry: page::entry(page, slot) })
        })
    }

    pub fn phase(self) -> Phase {
        let (old, new) = (self.meta.job_old(), self.meta.max_bucket);
        let flags = block::flags(&self.blocks[self.meta.bucket_block(old)]);
        if flags & SPLIT != 0 {
            Phase::Copying { old, new }
        } else if flags & CLEANUP != 0 {
            Phase::Clearing { old, new }
        } else {
            Phase::None
        }
    }

    /// The old bucket, if this bucket is being populated from it.
    pub fn populated_from(self, bucket: u32) -> Option<u32> {
        match self.phase() {
            Phase::Copying { old, new } if new == bucket => Some(old),
            _ => None,
        }
    }

    /// The entry by which a pair is held.
    pub fn held(self, pair: Pair) -> Option<Spot> {
        let bucket = self.meta.bucket_of(pair.hash);
        let own = self.find(bucket, pair);
        match self.populated_from(bucket) {
            None => own,
            Some(old) => own.filter(|spot| !spot.entry.moved).or_else(|| self.find(old, pair)),
        }
    }

    /// The places held under a hash code, ascending.
    pub fn matches(self, hash: u32) -> Vec<(u32, u16)> {
        let bucket = self.meta.bucket_of(hash);
        let old = self.populated_from(bucket);
        let mut places = Vec::new();
        let place = |entry: Entry| (entry.pair.block, entry.pair.offset);
        for number in self.chain(bucket) {
            let held = page::run(&self.blocks[number], hash).filter(|entry| old.is_none() || !entry.moved);
            places.extend(held.map(place));
        }
        for number in old.into_iter().flat_map(|old| self.chain(old)) {
            places.extend(page::run(&self.blocks[number], hash).map(place));
        }
        places.sort_unstable();
        places
    }

    pub fn slack(self) -> i64 {
        i64::from(self.meta.fill) * i64::from(self.meta.buckets()) - i64::from(self.meta.count)
    }

    pub fn standing(self) -> Standing {
        let meta = self.meta;
        Standing { count: meta.count, buckets: meta.buckets(), phase: self.phase(), slack: self.slack() }
    }

    /// By a walk along every chain.
    pub fn gauge(self) -> Gauge {
        let (held, buckets) = (f64::from(self.meta.count), self.meta.buckets());
        let pages: usize = (0..buckets).map(|bucket| self.chain(bucket).count()).sum();
        Gauge { per_bucket: held / f64::from(buckets), per_page: held / (40 * pages) as f64 }
    }
}
