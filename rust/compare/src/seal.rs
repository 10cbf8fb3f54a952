//! The check of a block from outside, bit by bit: both sides go by a table of their own.

use crate::word::word;

/// Where the meta block has the store's number.
pub const NUMBER: usize = 104;

/// The change of a number that block 0's own check does not show: the number is covered twice there, first of all and
/// where it stands.
pub const UNSEEN: u32 = 0xFCA4_2DAF;

/// CRC-32C of some bytes.
pub fn crc32c(bytes: &[u8]) -> u32 {
    let bit = |crc: u32| if crc % 2 == 1 { (crc >> 1) ^ 0x82F6_3B78 } else { crc >> 1 };
    !bytes.iter().fold(!0, |crc, &byte| (0..8).fold(crc ^ u32::from(byte), |crc, _| bit(crc)))
}

/// The check of a block at `at` in the store with this number: over both numbers and the block's bytes 0..507.
pub fn check(number: u32, at: usize, block: &[u8]) -> u32 {
    let at = at as u32;
    crc32c(&[&number.to_le_bytes()[..], &at.to_le_bytes(), &block[..508]].concat())
}

/// The number of a store that has a whole block.
pub fn number(store: &[u8]) -> u32 {
    word(store, NUMBER)
}

/// Writes the number of a store, and no check.
pub fn set_number(store: &mut [u8], number: u32) {
    store[NUMBER..NUMBER + 4].copy_from_slice(&number.to_le_bytes());
}

/// The block at `at` of a store.
pub fn block(store: &[u8], at: usize) -> &[u8] {
    &store[512 * at..512 * (at + 1)]
}

/// Writes the check of the block at `at`, under the store's own number.
pub fn seal(store: &mut [u8], at: usize) {
    let check = check(number(store), at, block(store, at));
    store[512 * at + 508..512 * (at + 1)].copy_from_slice(&check.to_le_bytes());
}

/// Writes the checks of all blocks, under the store's own number.
pub fn seal_all(store: &mut [u8]) {
    (0..store.len() / 512).for_each(|at| seal(store, at));
}

/// The lowest block of a store whose check is wrong under the store's own number.
pub fn lowest_wrong(store: &[u8]) -> Option<u32> {
    let number = number(store);
    let right = |at| block(store, at)[508..] == check(number, at, block(store, at)).to_le_bytes();
    (0..store.len() / 512).find(|&at| !right(at)).map(|at| at as u32)
}
