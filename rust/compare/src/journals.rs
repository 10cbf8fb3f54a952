//! Journals made from outside: pending ones, and spoilt ones.

use crate::random::Random;
use crate::seal::{block, check};
use crate::side::JOURNAL;
use crate::twin::wiped;
use crate::word::word;

/// The block of a journal that its end stands in, and the most images that a head may name.
pub const END: usize = 15;
pub const MOST: usize = 14;

/// Writes the check of a journal's block as that of block `at` of the store with this number.
pub fn seal(journal: &mut [u8], block: usize, number: u32, at: usize) {
    let bytes = &mut journal[512 * block..512 * (block + 1)];
    let check = check(number, at, bytes);
    bytes[508..].copy_from_slice(&check.to_le_bytes());
}

pub fn put_word(journal: &mut [u8], block: usize, at: usize, word: u32) {
    journal[512 * block + at..512 * block + at + 4].copy_from_slice(&word.to_le_bytes());
}

/// Makes the end a copy of the head, and writes the checks of both under the head's number.
pub fn close(journal: &mut [u8]) {
    let number = word(journal, 0);
    journal.copy_within(..512, 512 * END);
    seal(journal, 0, number, 0);
    seal(journal, END, number, END);
}

/// A journal that holds these images, 508 bytes or more each, for these blocks of the store with this number. What a
/// head has no room for is left out.
pub fn holding(number: u32, images: &[(u32, &[u8])]) -> Vec<u8> {
    let mut journal = wiped();
    journal[..512].fill(0);
    put_word(&mut journal, 0, 0, number);
    put_word(&mut journal, 0, 4, images.len() as u32);
    for (i, (name, image)) in images.iter().enumerate().take(MOST) {
        put_word(&mut journal, 0, 8 + 4 * i, *name);
        journal[512 * (i + 1)..][..508].copy_from_slice(&image[..508]);
        seal(&mut journal, i + 1, number, *name as usize);
    }
    close(&mut journal);
    journal
}

/// A journal that holds other bytes for the first blocks of a store, as many as a head may name.
pub fn full(store: &[u8], number: u32) -> Vec<u8> {
    let blocks = store.len() / 512;
    let image = |at: usize| (at as u32, block(store, (at + 1) % blocks));
    holding(number, &(0..MOST.min(blocks)).map(image).collect::<Vec<_>>())
}

/// A journal that no change takes: of another length, or with a head that is not wiped.
pub fn barred(random: &mut Random, store: &[u8]) -> Vec<u8> {
    let mut journal = wiped();
    match random.below(8) {
        0 => journal.truncate(random.below(JOURNAL as u32) as usize),
        1 => journal.resize(JOURNAL + 1 + random.below(1_000) as usize, 0),
        2 => journal.truncate(15 * 512),
        3 => journal.resize(17 * 512, 0),
        4 => return full(store, random.store_number()),
        5 => journal[..512].fill(0),
        _ => journal[random.below(512) as usize] ^= 1 << random.below(8),
    }
    journal
}
