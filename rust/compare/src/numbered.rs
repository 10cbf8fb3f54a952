//! Stores of document 01, which has no store number, as stores with one, and back.
//!
//! There a block's check is over its bytes 0..507 alone, and bytes 104..107 of block 0 are zero. Both ways these four
//! change by the number, and the check of each whole block by what its right check changes by: so right ones stay
//! right, and wrong ones wrong.

use crate::seal::{check, crc32c, NUMBER};

/// A store of document 01 as a store with a number.
pub fn numbered(bare: &[u8], number: u32) -> Vec<u8> {
    let mut store = bare.to_vec();
    change_number(&mut store, number);
    change_checks(&mut store, |at, block| crc32c(&bare[512 * at..][..508]) ^ check(number, at, block));
    store
}

/// A store with a number as the store of document 01 that it would be.
pub fn unnumbered(store: &[u8], number: u32) -> Vec<u8> {
    let mut bare = store.to_vec();
    change_number(&mut bare, number);
    change_checks(&mut bare, |at, block| crc32c(&block[..508]) ^ check(number, at, &store[512 * at..]));
    bare
}

/// Changes the number's bytes, if there is a whole block, by these bits.
fn change_number(store: &mut [u8], bits: u32) {
    if let Some(block) = store.chunks_exact_mut(512).next() {
        change(&mut block[NUMBER..NUMBER + 4], bits);
    }
}

/// Changes the check of each whole block by the bits that the block gives.
fn change_checks(store: &mut [u8], bits: impl Fn(usize, &[u8]) -> u32) {
    for (at, block) in store.chunks_exact_mut(512).enumerate() {
        let bits = bits(at, block);
        change(&mut block[508..], bits);
    }
}

fn change(bytes: &mut [u8], bits: u32) {
    bytes.iter_mut().zip(bits.to_le_bytes()).for_each(|(byte, bits)| *byte ^= bits);
}
