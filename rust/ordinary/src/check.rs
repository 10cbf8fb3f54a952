//! What a store is: whole, damaged, or not an index.

use crate::answer::{Phase, Refusal};
use crate::block::{self, Block, Trailer, BITMAP, BUCKET, CLEANUP, CONTENT, META, NONE, OVERFLOW, POPULATED, SPLIT};
use crate::meta::{latest_splits, store_number, Meta, Role};
use crate::page::{self, Pair};
use crate::view::View;
use std::cell::OnceCell;

/// The meta block of a sound store, or what is wrong with the store.
pub fn sound(blocks: &[Block]) -> Result<Meta, Refusal> {
    let number = store_number(&blocks[0]);
    if let Some(damaged) = (0..blocks.len()).find(|&at| !block::intact(number, at, &blocks[at])) {
        return Err(Refusal::Damaged(damaged as u32));
    }
    let meta = Meta::read(&blocks[0]);
    match broken_rule(blocks, &meta) {
        Some(rule) => Err(Refusal::NotAnIndex(rule)),
        None => Ok(meta),
    }
}

/// The lowest broken rule. Each is tested only when those before it hold.
fn broken_rule(blocks: &[Block], meta: &Meta) -> Option<u32> {
    if !meta.rule1(&blocks[0], blocks.len()) {
        return Some(1);
    }
    if !meta.rule2() {
        return Some(2);
    }
    let store = Store { view: View { blocks, meta }, roles: meta.roles(), originals: OnceCell::new() };
    let rules = [Store::rule3, Store::rule4, Store::rule5, Store::rule6, Store::rule7, Store::rule8];
    rules.iter().zip(3..).find_map(|(rule, number)| (!rule(&store)).then_some(number))
}

/// A store under test, its meta block found right.
struct Store<'a> {
    view: View<'a>,
    roles: Vec<Role>,
    /// The pairs of the bucket that the last one split off from, ascending: rules 5 and 7 need them.
    originals: OnceCell<Vec<Pair>>,
}

impl Store<'_> {
    fn blocks(&self) -> impl Iterator<Item = (Role, &Block)> {
        self.roles.iter().copied().zip(self.view.blocks)
    }

    fn bucket_page(&self, bucket: u32) -> &Block {
        &self.view.blocks[self.view.meta.bucket_block(bucket)]
    }

    fn buckets(&self) -> std::ops::Range<u32> {
        0..self.view.meta.buckets()
    }

    /// Roles, one block at a time, and the job flags.
    fn rule3(&self) -> bool {
        self.blocks().all(|(role, block)| self.fits(role, block)) && self.job_flags_fit()
    }

    fn fits(&self, role: Role, block: &Block) -> bool {
        let trailer = Trailer::of(block);
        match role {
            Role::Meta => trailer == Trailer::unlinked(META),
            Role::Bitmap => trailer == Trailer::unlinked(BITMAP),
            Role::Bucket(bucket) => trailer.has_id() && trailer.bucket == bucket,
            Role::Overflow if trailer.flags == OVERFLOW => {
                trailer.has_id() && trailer.bucket <= self.view.meta.max_bucket
            }
            Role::Overflow | Role::Unused => block::unused(block),
        }
    }

    fn job_flags_fit(&self) -> bool {
        let (old, new) = (self.view.meta.job_old(), self.view.meta.max_bucket);
        let flags = |bucket| block::flags(self.bucket_page(bucket));
        let jobs = [(BUCKET, BUCKET), (BUCKET | SPLIT, BUCKET | POPULATED), (BUCKET | CLEANUP, BUCKET)];
        jobs.contains(&(flags(old), flags(new)))
            && self.buckets().filter(|&bucket| bucket != old && bucket != new).all(|bucket| flags(bucket) == BUCKET)
    }

    /// Links. No page is reached twice, since its previous field names one page only.
    fn rule4(&self) -> bool {
        let mut reached = 0;
        for bucket in self.buckets() {
            match self.linked_pages(bucket) {
                Some(pages) => reached += pages,
                None => return false,
            }
        }
        reached == self.overflow_pages().count()
    }

    fn overflow_pages(&self) -> impl Iterator<Item = &Block> {
        self.blocks()
            .filter(|(role, block)| *role == Role::Overflow && block::flags(block) == OVERFLOW)
            .map(|(_, block)| block)
    }

    /// The number of overflow pages in a bucket's chain, if all its links are right.
    fn linked_pages(&self, bucket: u32) -> Option<usize> {
        let mut from = self.view.meta.bucket_block(bucket) as u32;
        let mut pages = 0;
        loop {
            let next = block::next(&self.view.blocks[from as usize]);
            if next == NONE {
                return Some(pages);
            }
            let page = self.view.blocks.get(next as usize)?;
            let trailer = Trailer::of(page);
            let linked = self.roles[next as usize] == Role::Overflow
                && trailer.flags == OVERFLOW
                && (trailer.previous, trailer.bucket) == (from, bucket)
                && page::len(page) != 0;
            if !linked {
                return None;
            }
            pages += 1;
            from = next;
        }
    }

    /// Pages, each by itself, and no pair twice in a chain.
    fn rule5(&self) -> bool {
        let is_page = |role: &Role| matches!(role, Role::Bucket(_));
        self.blocks().filter(|(role, _)| is_page(role)).all(|(_, block)| page::well_formed(block))
            && self.overflow_pages().all(page::well_formed)
            && self.has_no_twins()
    }

    fn has_no_twins(&self) -> bool {
        let distinct = |pairs: &[Pair]| pairs.windows(2).all(|pairs| pairs[0] != pairs[1]);
        // One page is strictly ascending.
        let long = |&bucket: &u32| block::next(self.bucket_page(bucket)) != NONE;
        let mut pairs = Vec::new();
        self.buckets().filter(long).all(|bucket| {
            if bucket == self.view.meta.job_old() {
                return distinct(self.originals());
            }
            self.view.sort_pairs(bucket, &mut pairs);
            distinct(&pairs)
        })
    }

    fn originals(&self) -> &[Pair] {
        self.originals.get_or_init(|| self.view.sorted_pairs(self.view.meta.job_old()))
    }

    /// The bitmap, and first free. By rule 3 an overflow block is unused if its flags say so.
    fn rule6(&self) -> bool {
        let meta = self.view.meta;
        let free = |&bit: &u32| block::flags(&self.view.blocks[meta.bit_block(bit)]) != OVERFLOW;
        let mut bits = [0xFF; CONTENT];
        bits[256..].fill(0);
        for bit in (1..meta.bits()).filter(free) {
            bits[bit as usize / 8] &= !(1 << (bit % 8));
        }
        let first_free = (1..meta.bits()).find(free).unwrap_or(meta.bits());
        self.view.blocks[meta.bitmap()][..CONTENT] == bits && meta.first_free == first_free
    }

    /// Entries stand in their buckets; while copying, old and new bucket fit together.
    fn rule7(&self) -> bool {
        let phase = self.view.phase();
        let guest = |bucket| match phase {
            Phase::Copying { old, new } | Phase::Clearing { old, new } if old == bucket => new,
            _ => bucket,
        };
        let placed = self.buckets().all(|bucket| self.stand_right(bucket, guest(bucket)));
        match phase {
            Phase::Copying { new, .. } => placed && self.copies_fit(new),
            _ => placed,
        }
    }

    /// Whether each entry of a chain is its bucket's or the guest's.
    fn stand_right(&self, bucket: u32, guest: u32) -> bool {
        self.view.entries(bucket).all(|spot| {
            let own = self.view.meta.bucket_of(spot.entry.pair.hash);
            own == bucket || own == guest
        })
    }

    fn copies_fit(&self, new: u32) -> bool {
        let originals = self.originals();
        self.view.entries(new).all(|spot| spot.entry.moved == originals.binary_search(&spot.entry.pair).is_ok())
    }

    /// Previous fields of bucket pages, and the count.
    fn rule8(&self) -> bool {
        let latest = latest_splits(self.view.meta.buckets());
        self.buckets().zip(latest).all(|(bucket, latest)| block::previous(self.bucket_page(bucket)) == latest)
            && self.held() == self.view.meta.count as usize
    }

    /// The number of held pairs.
    fn held(&self) -> usize {
        let entries = |bucket| self.view.entries(bucket).map(|spot| spot.entry);
        let pages = self.buckets().flat_map(|bucket| self.view.chain(bucket));
        let all: usize = pages.map(|number| page::len(&self.view.blocks[number])).sum();
        match self.view.phase() {
            Phase::None => all,
            Phase::Copying { new, .. } => all - entries(new).filter(|entry| entry.moved).count(),
            Phase::Clearing { old, new } => {
                let of_new = |hash| self.view.meta.bucket_of(hash) == new;
                all - entries(old).filter(|entry| of_new(entry.pair.hash)).count()
            }
        }
    }
}
