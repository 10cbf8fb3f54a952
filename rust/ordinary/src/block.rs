//! One block: numbers in it, its trailer and its check.

use crate::crc;

pub type Block = [u8; 512];

/// "None" in links and bucket fields.
pub const NONE: u32 = u32::MAX;

pub const OVERFLOW: u16 = 1;
pub const BUCKET: u16 = 2;
pub const BITMAP: u16 = 4;
pub const META: u16 = 8;
pub const POPULATED: u16 = 16;
pub const SPLIT: u16 = 32;
pub const CLEANUP: u16 = 64;

/// Where the trailer starts: what comes before it is the block's own content.
pub const CONTENT: usize = 492;
/// Where the check stands.
pub const CHECK: usize = 508;
const PAGE_ID: u16 = 0xFF80;

pub fn get16(bytes: &[u8], at: usize) -> u16 {
    u16::from_le_bytes([bytes[at], bytes[at + 1]])
}

pub fn get32(bytes: &[u8], at: usize) -> u32 {
    u32::from_le_bytes([bytes[at], bytes[at + 1], bytes[at + 2], bytes[at + 3]])
}

pub fn put16(bytes: &mut [u8], at: usize, value: u16) {
    bytes[at..at + 2].copy_from_slice(&value.to_le_bytes());
}

pub fn put32(bytes: &mut [u8], at: usize, value: u32) {
    bytes[at..at + 4].copy_from_slice(&value.to_le_bytes());
}

/// Bytes 492..507 of every block but an unused one.
#[derive(Debug, Clone, Copy, PartialEq, Eq)]
pub struct Trailer {
    pub previous: u32,
    pub next: u32,
    pub bucket: u32,
    pub flags: u16,
    pub id: u16,
}

impl Trailer {
    pub fn new(previous: u32, next: u32, bucket: u32, flags: u16) -> Self {
        Trailer { previous, next, bucket, flags, id: PAGE_ID }
    }

    /// The trailer of meta and bitmap.
    pub fn unlinked(flags: u16) -> Self {
        Trailer::new(NONE, NONE, NONE, flags)
    }

    pub fn of(block: &Block) -> Self {
        Trailer {
            previous: previous(block),
            next: next(block),
            bucket: get32(block, CONTENT + 8),
            flags: flags(block),
            id: get16(block, CONTENT + 14),
        }
    }

    pub fn put(self, block: &mut Block) {
        set_previous(block, self.previous);
        set_next(block, self.next);
        put32(block, CONTENT + 8, self.bucket);
        set_flags(block, self.flags);
        put16(block, CONTENT + 14, self.id);
    }

    pub fn has_id(self) -> bool {
        self.id == PAGE_ID
    }
}

pub fn previous(block: &Block) -> u32 {
    get32(block, CONTENT)
}

pub fn next(block: &Block) -> u32 {
    get32(block, CONTENT + 4)
}

pub fn flags(block: &Block) -> u16 {
    get16(block, CONTENT + 12)
}

pub fn set_previous(block: &mut Block, value: u32) {
    put32(block, CONTENT, value);
}

pub fn set_next(block: &mut Block, value: u32) {
    put32(block, CONTENT + 4, value);
}

pub fn set_flags(block: &mut Block, value: u16) {
    put16(block, CONTENT + 12, value);
}

/// The check that a block has to have at its place in the store with this number.
fn check(number: u32, at: usize, block: &Block) -> u32 {
    crc::check(number, at as u32, &block[..CHECK])
}

/// Whether the check of block `at` is right in the store with this number.
pub fn intact(number: u32, at: usize, block: &Block) -> bool {
    get32(block, CHECK) == check(number, at, block)
}

/// Writes the check of block `at` in the store with this number.
pub fn seal(number: u32, at: usize, block: &mut Block) {
    let check = check(number, at, block);
    put32(block, CHECK, check);
}

/// Whether the block is unused: all zero before its check.
pub fn unused(block: &Block) -> bool {
    zero(&block[..CHECK])
}

/// Whether all of some bytes are zero: tested whole, which the compiler vectorises.
pub fn zero(bytes: &[u8]) -> bool {
    bytes.iter().fold(0, |any, byte| any | byte) == 0
}
