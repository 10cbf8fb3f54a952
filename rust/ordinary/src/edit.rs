//! Changes of a sound store. A change is whole when it is sealed, and goes through the journal then, if there is one.

use crate::answer::Refusal;
use crate::block::{self, Block, Trailer, NONE, OVERFLOW};
use crate::check::sound;
use crate::journal::{plan, Journal};
use crate::meta::{Meta, MOST};
use crate::page::{self, Entry, ROOM};
use crate::view::View;

/// A set of blocks, one bit each.
#[derive(Default)]
struct Marks {
    words: [u64; MOST / 64],
    /// Which words have a bit.
    some: u64,
}

impl Marks {
    fn put(&mut self, number: usize) {
        self.words[number / 64] |= 1 << (number % 64);
        self.some |= 1 << (number / 64);
    }

    fn has(&self, number: usize) -> bool {
        self.words[number / 64] >> (number % 64) & 1 == 1
    }

    /// Takes the lowest block out.
    fn take(&mut self) -> Option<usize> {
        if self.some == 0 {
            return None;
        }
        let place = self.some.trailing_zeros() as usize;
        let word = &mut self.words[place];
        let number = 64 * place + word.trailing_zeros() as usize;
        *word &= *word - 1;
        if *word == 0 {
            self.some &= self.some - 1;
        }
        Some(number)
    }
}

/// A sound store that is being changed.
pub struct Edit<'a> {
    blocks: &'a mut [Block],
    meta: Meta,
    /// The blocks changed since the last seal.
    touched: Marks,
    /// The journal, and those blocks as they were, each with its number.
    journal: Option<&'a mut Journal>,
    before: Vec<(usize, Block)>,
}

impl<'a> Edit<'a> {
    /// Judges the store: it is to be sound.
    pub fn of(blocks: &'a mut [Block], journal: Option<&'a mut Journal>) -> Result<Self, Refusal> {
        let meta = sound(blocks)?;
        Ok(Edit { blocks, meta, touched: Marks::default(), journal, before: Vec::new() })
    }

    pub fn view(&self) -> View<'_> {
        View { blocks: self.blocks, meta: &self.meta }
    }

    pub fn meta(&self) -> &Meta {
        &self.meta
    }

    /// The meta block's fields, to be changed.
    pub fn meta_mut(&mut self) -> &mut Meta {
        self.touched.put(0);
        &mut self.meta
    }

    /// A block other than meta, to be changed.
    pub fn block(&mut self, number: usize) -> &mut Block {
        if !self.touched.has(number) {
            self.keep(number);
            self.touched.put(number);
        }
        &mut self.blocks[number]
    }

    /// Keeps a block as it is for the journal.
    fn keep(&mut self, number: usize) {
        if self.journal.is_some() {
            self.before.push((number, self.blocks[number]));
        }
    }

    /// Writes the meta block if it was changed, and the checks of exactly the blocks that were.
    pub fn seal(&mut self) {
        if self.touched.has(0) {
            self.keep(0);
            self.meta.write(&mut self.blocks[0]);
        }
        while let Some(at) = self.touched.take() {
            block::seal(self.meta.number, at, &mut self.blocks[at]);
        }
        self.pass_through_journal();
    }

    /// Makes the change anew, by its block stores: the blocks that it touched go back to what they were first.
    fn pass_through_journal(&mut self) {
        let Some(journal) = &mut self.journal else { return };
        self.before.sort_unstable_by_key(|kept| kept.0);
        let blocks = self.before.iter().map(|(at, before)| (*at, before, &self.blocks[*at]));
        let plan = plan::plan(self.meta.number, blocks);
        self.before.drain(..).for_each(|(at, before)| self.blocks[at] = before);
        if let Some((plan, _)) = plan {
            plan::run(&plan, self.blocks, journal);
        }
    }

    /// Puts an entry into the first page of the chain with room, or into a new page at its end.
    pub fn place(&mut self, bucket: u32, entry: Entry) -> Result<(), Refusal> {
        self.place_from(self.meta.bucket_block(bucket), bucket, entry).map(drop)
    }

    /// The same where all pages before `first` are full. Gives the page that the entry went to.
    pub fn place_from(&mut self, first: usize, bucket: u32, entry: Entry) -> Result<usize, Refusal> {
        let roomy = self.view().chain_from(first).find(|&number| page::len(&self.blocks[number]) < ROOM);
        let number = match roomy {
            Some(number) => number,
            None => self.extend(first, bucket)?,
        };
        self.put(number, entry);
        Ok(number)
    }

    /// Puts an entry at its sorted place of a page with room.
    pub fn put(&mut self, number: usize, entry: Entry) {
        let page = self.block(number);
        let slot = page::search(page, entry.pair).unwrap_or_else(|slot| slot);
        page::insert(page, slot, entry);
    }

    /// Links a new, empty page to the end of a chain that has `first` in it.
    fn extend(&mut self, first: usize, bucket: u32) -> Result<usize, Refusal> {
        let number = self.take_page()?;
        let last = self.view().chain_from(first).last().unwrap_or(first);
        Trailer::new(last as u32, NONE, bucket, OVERFLOW).put(self.block(number));
        block::set_next(self.block(last), number as u32);
        Ok(number)
    }

    /// Takes the lowest free overflow page, or else the next block past the made ones.
    fn take_page(&mut self) -> Result<usize, Refusal> {
        let free = self.meta.first_free;
        if free < self.meta.bits() {
            self.set_bit(free, true);
        } else if self.meta.made() < self.meta.blocks {
            let point = self.meta.point as usize;
            self.meta_mut().spares[point] += 1;
        } else {
            return Err(Refusal::NoRoom);
        }
        self.meta_mut().first_free = self.lowest_free(free + 1);
        Ok(self.meta.bit_block(free))
    }

    /// Takes an entry away, and with it an overflow page that it leaves empty.
    pub fn take_away(&mut self, number: usize, slot: usize) {
        let page = self.block(number);
        page::remove(page, slot);
        if page::len(page) == 0 && block::flags(page) == OVERFLOW {
            self.free(number);
        }
    }

    /// Unlinks an overflow page and makes it unused.
    fn free(&mut self, number: usize) {
        let Trailer { previous, next, .. } = Trailer::of(&self.blocks[number]);
        block::set_next(self.block(previous as usize), next);
        if next != NONE {
            block::set_previous(self.block(next as usize), previous);
        }
        self.block(number).fill(0);
        if let Some(bit) = self.meta.bit_of(number) {
            self.set_bit(bit, false);
            if bit < self.meta.first_free {
                self.meta_mut().first_free = bit;
            }
        }
    }

    fn set_bit(&mut self, bit: u32, used: bool) {
        let bitmap = self.meta.bitmap();
        let byte = &mut self.block(bitmap)[bit as usize / 8];
        let mask = 1 << (bit % 8);
        *byte = if used { *byte | mask } else { *byte & !mask };
    }

    /// The lowest 0 bit from one on or, without one, the next bit to make.
    fn lowest_free(&self, from: u32) -> u32 {
        let bitmap = &self.blocks[self.meta.bitmap()];
        let bits = self.meta.bits();
        (from..bits).find(|&bit| bitmap[bit as usize / 8] >> (bit % 8) & 1 == 0).unwrap_or(bits)
    }
}
