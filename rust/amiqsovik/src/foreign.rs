//! The archive's functions, and the only unsafe code: each call lends slices for as long as it runs.

use crate::plan::PLAN_SIZE;
use crate::word::RESULT_SIZE;

mod c {
    #![allow(clippy::missing_safety_doc, clippy::too_many_arguments)]

    extern "C" {
        pub fn amiqsovik_verify(store: *const u8, len: usize) -> u64;
        pub fn amiqsovik_format(store: *mut u8, len: usize, fill: u32, number: u32, overwrite: u32) -> u64;
        pub fn amiqsovik_in_use(store: *const u8, len: usize) -> u64;
        pub fn amiqsovik_lookup(store: *const u8, len: usize, hash: u32, out: *mut u8, out_len: usize) -> u64;
        pub fn amiqsovik_standing(store: *const u8, len: usize, result: *mut u8, result_len: usize) -> u64;
        pub fn amiqsovik_gauge(store: *const u8, len: usize, numbers: *mut [f64; 2]) -> u64;
        pub fn amiqsovik_insert(
            store: *mut u8,
            len: usize,
            journal: *mut u8,
            journal_len: usize,
            hash: u32,
            block: u32,
            offset: u32,
        ) -> u64;
        pub fn amiqsovik_remove(
            store: *mut u8,
            len: usize,
            journal: *mut u8,
            journal_len: usize,
            hash: u32,
            block: u32,
            offset: u32,
        ) -> u64;
        pub fn amiqsovik_work(store: *mut u8, len: usize, journal: *mut u8, journal_len: usize, budget: u32) -> u64;
        pub fn amiqsovik_squeeze(
            store: *mut u8,
            len: usize,
            journal: *mut u8,
            journal_len: usize,
            bucket: u32,
            budget: u32,
        ) -> u64;
        pub fn amiqsovik_recover(store: *mut u8, len: usize, journal: *mut u8, journal_len: usize) -> u64;
        pub fn amiqsovik_wipe(journal: *mut u8, journal_len: usize) -> u64;
        pub fn amiqsovik_wiped(journal: *const u8, journal_len: usize) -> u64;
        pub fn amiqsovik_look(store: *const u8, len: usize, journal: *const u8, journal_len: usize, block: u32) -> u64;
        pub fn amiqsovik_plan_insert(
            store: *const u8,
            len: usize,
            journal: *const u8,
            journal_len: usize,
            hash: u32,
            block: u32,
            offset: u32,
            plan: *mut u8,
            plan_len: usize,
        ) -> u64;
        pub fn amiqsovik_plan_remove(
            store: *const u8,
            len: usize,
            journal: *const u8,
            journal_len: usize,
            hash: u32,
            block: u32,
            offset: u32,
            plan: *mut u8,
            plan_len: usize,
        ) -> u64;
        pub fn amiqsovik_plan_work(
            store: *const u8,
            len: usize,
            journal: *const u8,
            journal_len: usize,
            plan: *mut u8,
            plan_len: usize,
        ) -> u64;
        pub fn amiqsovik_plan_squeeze(
            store: *const u8,
            len: usize,
            journal: *const u8,
            journal_len: usize,
            bucket: u32,
            plan: *mut u8,
            plan_len: usize,
        ) -> u64;
        pub fn amiqsovik_do_store(
            store: *mut u8,
            len: usize,
            journal: *mut u8,
            journal_len: usize,
            plan: *const u8,
            plan_len: usize,
            n: u32,
        ) -> u64;
    }
}

// SAFETY, of every call below: a function of the archive reads and writes nothing but the `len` bytes from the pointer
// that it is given (reads only, through a `*const`), whatever they hold; it keeps no pointer and no state when it
// returns, never unwinds, and takes any numbers. A Rust slice is a valid, aligned pointer with its length, and the
// borrow checker sees to it that a slice that is written overlaps no other and is used by nobody else meanwhile.

pub fn verify(store: &[u8]) -> u64 {
    // SAFETY: the store is lent to be read.
    unsafe { c::amiqsovik_verify(store.as_ptr(), store.len()) }
}

pub fn format(store: &mut [u8], fill: u32, number: u32, overwrite: u32) -> u64 {
    // SAFETY: the store is lent to be changed, and nothing else.
    unsafe { c::amiqsovik_format(store.as_mut_ptr(), store.len(), fill, number, overwrite) }
}

pub fn in_use(store: &[u8]) -> u64 {
    // SAFETY: the store is lent to be read.
    unsafe { c::amiqsovik_in_use(store.as_ptr(), store.len()) }
}

pub fn lookup(store: &[u8], hash: u32, output: &mut [u8]) -> u64 {
    // SAFETY: the store is lent to be read, the output to be changed, and they do not overlap.
    unsafe { c::amiqsovik_lookup(store.as_ptr(), store.len(), hash, output.as_mut_ptr(), output.len()) }
}

pub fn standing(store: &[u8], result: &mut [u8; RESULT_SIZE]) -> u64 {
    // SAFETY: the store is lent to be read, the result to be changed, and they do not overlap.
    unsafe { c::amiqsovik_standing(store.as_ptr(), store.len(), result.as_mut_ptr(), result.len()) }
}

pub fn gauge(store: &[u8], numbers: &mut [f64; 2]) -> u64 {
    // SAFETY: the store is lent to be read, the two numbers to be changed, and they do not overlap.
    unsafe { c::amiqsovik_gauge(store.as_ptr(), store.len(), numbers) }
}

pub fn insert(store: &mut [u8], journal: &mut [u8], hash: u32, block: u32, offset: u32) -> u64 {
    // SAFETY: store and journal are lent to be changed, and do not overlap.
    unsafe {
        c::amiqsovik_insert(store.as_mut_ptr(), store.len(), journal.as_mut_ptr(), journal.len(), hash, block, offset)
    }
}

pub fn remove(store: &mut [u8], journal: &mut [u8], hash: u32, block: u32, offset: u32) -> u64 {
    // SAFETY: store and journal are lent to be changed, and do not overlap.
    unsafe {
        c::amiqsovik_remove(store.as_mut_ptr(), store.len(), journal.as_mut_ptr(), journal.len(), hash, block, offset)
    }
}

pub fn work(store: &mut [u8], journal: &mut [u8], budget: u32) -> u64 {
    // SAFETY: store and journal are lent to be changed, and do not overlap.
    unsafe { c::amiqsovik_work(store.as_mut_ptr(), store.len(), journal.as_mut_ptr(), journal.len(), budget) }
}

pub fn squeeze(store: &mut [u8], journal: &mut [u8], bucket: u32, budget: u32) -> u64 {
    // SAFETY: store and journal are lent to be changed, and do not overlap.
    unsafe {
        c::amiqsovik_squeeze(store.as_mut_ptr(), store.len(), journal.as_mut_ptr(), journal.len(), bucket, budget)
    }
}

pub fn recover(store: &mut [u8], journal: &mut [u8]) -> u64 {
    // SAFETY: store and journal are lent to be changed, and do not overlap.
    unsafe { c::amiqsovik_recover(store.as_mut_ptr(), store.len(), journal.as_mut_ptr(), journal.len()) }
}

pub fn wipe(journal: &mut [u8]) -> u64 {
    // SAFETY: the journal is lent to be changed, and nothing else.
    unsafe { c::amiqsovik_wipe(journal.as_mut_ptr(), journal.len()) }
}

pub fn wiped(journal: &[u8]) -> u64 {
    // SAFETY: the journal is lent to be read.
    unsafe { c::amiqsovik_wiped(journal.as_ptr(), journal.len()) }
}

pub fn look(store: &[u8], journal: &[u8], block: u32) -> u64 {
    // SAFETY: store and journal are lent to be read.
    unsafe { c::amiqsovik_look(store.as_ptr(), store.len(), journal.as_ptr(), journal.len(), block) }
}

pub fn plan_insert(
    store: &[u8],
    journal: &[u8],
    hash: u32,
    block: u32,
    offset: u32,
    plan: &mut [u8; PLAN_SIZE],
) -> u64 {
    // SAFETY: store and journal are lent to be read, the plan to be changed, and it overlaps neither.
    unsafe {
        c::amiqsovik_plan_insert(
            store.as_ptr(),
            store.len(),
            journal.as_ptr(),
            journal.len(),
            hash,
            block,
            offset,
            plan.as_mut_ptr(),
            plan.len(),
        )
    }
}

pub fn plan_remove(
    store: &[u8],
    journal: &[u8],
    hash: u32,
    block: u32,
    offset: u32,
    plan: &mut [u8; PLAN_SIZE],
) -> u64 {
    // SAFETY: store and journal are lent to be read, the plan to be changed, and it overlaps neither.
    unsafe {
        c::amiqsovik_plan_remove(
            store.as_ptr(),
            store.len(),
            journal.as_ptr(),
            journal.len(),
            hash,
            block,
            offset,
            plan.as_mut_ptr(),
            plan.len(),
        )
    }
}

pub fn plan_work(store: &[u8], journal: &[u8], plan: &mut [u8; PLAN_SIZE]) -> u64 {
    // SAFETY: store and journal are lent to be read, the plan to be changed, and it overlaps neither.
    unsafe {
        c::amiqsovik_plan_work(
            store.as_ptr(),
            store.len(),
            journal.as_ptr(),
            journal.len(),
            plan.as_mut_ptr(),
            plan.len(),
        )
    }
}

pub fn plan_squeeze(store: &[u8], journal: &[u8], bucket: u32, plan: &mut [u8; PLAN_SIZE]) -> u64 {
    // SAFETY: store and journal are lent to be read, the plan to be changed, and it overlaps neither.
    unsafe {
        c::amiqsovik_plan_squeeze(
            store.as_ptr(),
            store.len(),
            journal.as_ptr(),
            journal.len(),
            bucket,
            plan.as_mut_ptr(),
            plan.len(),
        )
    }
}

pub fn do_store(store: &mut [u8], journal: &mut [u8], plan: &[u8; PLAN_SIZE], n: u32) -> u64 {
    // SAFETY: store and journal are lent to be changed, the plan to be read, and none overlaps another.
    unsafe {
        c::amiqsovik_do_store(
            store.as_mut_ptr(),
            store.len(),
            journal.as_mut_ptr(),
            journal.len(),
            plan.as_ptr(),
            plan.len(),
            n,
        )
    }
}
