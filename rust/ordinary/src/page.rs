//! The entries of a bucket or overflow page.

use crate::answer::Refusal;
use crate::block::{get16, get32, put16, put32, zero, Block, CONTENT};

/// The most entries of a page.
pub const ROOM: usize = 40;
const FIRST: usize = 4;
const SIZE: usize = 12;
const MOVED: u16 = 0x2000;

/// A hash code and the place of a reading.
#[derive(Debug, Clone, Copy, PartialEq, Eq, PartialOrd, Ord)]
pub struct Pair {
    pub hash: u32,
    pub block: u32,
    pub offset: u16,
}

impl Pair {
    /// The pair of three numbers, if each fits its field.
    pub fn new(hash: u32, block: u32, offset: u32) -> Result<Self, Refusal> {
        match u16::try_from(offset) {
            Ok(offset) if offset != 0 && block != u32::MAX => Ok(Pair { hash, block, offset }),
            _ => Err(Refusal::Number),
        }
    }

    fn of(slot: &Slot) -> Self {
        Pair { hash: get32(slot, 0), block: get32(slot, 4), offset: get16(slot, 8) }
    }
}

/// A pair as it stands in a page.
#[derive(Debug, Clone, Copy, PartialEq, Eq)]
pub struct Entry {
    pub pair: Pair,
    pub moved: bool,
}

/// The bytes of an entry.
type Slot = [u8; SIZE];

impl Entry {
    fn of(slot: &Slot) -> Self {
        Entry { pair: Pair::of(slot), moved: flags(slot) == MOVED }
    }
}

fn flags(slot: &Slot) -> u16 {
    get16(slot, 10)
}

/// The number of entries, as the page says.
pub fn len(page: &Block) -> usize {
    usize::from(get16(page, 0))
}

/// The entries of a page that has at most `ROOM`, as bytes.
fn slots(page: &Block) -> &[Slot] {
    page[FIRST..FIRST + len(page) * SIZE].as_chunks().0
}

pub fn entry(page: &Block, slot: usize) -> Entry {
    Entry::of(&slots(page)[slot])
}

/// The entries of a page that keeps the page rule, in order.
pub fn entries(page: &Block) -> impl Iterator<Item = Entry> + '_ {
    slots(page).iter().map(Entry::of)
}

/// The pairs of such a page, in order.
pub fn pairs(page: &Block) -> impl Iterator<Item = Pair> + '_ {
    slots(page).iter().map(Pair::of)
}

/// Rule 5 within one page.
pub fn well_formed(page: &Block) -> bool {
    let len = len(page);
    len <= ROOM
        && get16(page, 2) == 0
        && zero(&page[FIRST + len * SIZE..CONTENT])
        && slots(page).iter().all(fits)
        && slots(page).is_sorted_by(|slot, next| Pair::of(slot) < Pair::of(next))
}

/// Whether the slot's numbers are an entry's.
fn fits(slot: &Slot) -> bool {
    let Pair { block, offset, .. } = Pair::of(slot);
    offset != 0 && block != u32::MAX && (flags(slot) == 0 || flags(slot) == MOVED)
}

/// The slot of the pair, or else the slot where it would go.
pub fn search(page: &Block, wanted: Pair) -> Result<usize, usize> {
    slots(page).binary_search_by_key(&wanted, Pair::of)
}

/// The page's entries with this hash code.
pub fn run(page: &Block, hash: u32) -> impl Iterator<Item = Entry> + '_ {
    let start = slots(page).partition_point(|slot| Pair::of(slot).hash < hash);
    let rest = &slots(page)[start..];
    let len = rest.partition_point(|slot| Pair::of(slot).hash == hash);
    rest[..len].iter().map(Entry::of)
}

/// Puts an entry in at a slot; the page has room.
pub fn insert(page: &mut Block, slot: usize, entry: Entry) {
    let len = len(page);
    let at = FIRST + slot * SIZE;
    page.copy_within(at..FIRST + len * SIZE, at + SIZE);
    put32(page, at, entry.pair.hash);
    put32(page, at + 4, entry.pair.block);
    put16(page, at + 8, entry.pair.offset);
    put16(page, at + 10, if entry.moved { MOVED } else { 0 });
    put16(page, 0, len as u16 + 1);
}

/// Takes the entry at a slot out.
pub fn remove(page: &mut Block, slot: usize) {
    let len = len(page);
    let at = FIRST + slot * SIZE;
    page.copy_within(at + SIZE..FIRST + len * SIZE, at);
    page[FIRST + (len - 1) * SIZE..FIRST + len * SIZE].fill(0);
    put16(page, 0, len as u16 - 1);
}
