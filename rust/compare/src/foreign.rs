//! The functions of the archive as C has them, and this library's only unsafe code: the wrapper cannot say every number
//! of a format or every plan, and it takes words apart. And the clock of a thread.

use std::time::Duration;

/// The functions themselves: pointers and lengths, for tests that call them as they are.
pub mod c {
    #![allow(clippy::too_many_arguments)]

    use std::ffi::c_int;

    type In = *const u8;
    type Out = *mut u8;

    extern "C" {
        pub fn amiqsovik_verify(s: In, len: usize) -> u64;
        pub fn amiqsovik_format(s: Out, len: usize, fill: u32, number: u32, overwrite: u32) -> u64;
        pub fn amiqsovik_in_use(s: In, len: usize) -> u64;
        pub fn amiqsovik_lookup(s: In, len: usize, hash: u32, out: Out, out_len: usize) -> u64;
        pub fn amiqsovik_standing(s: In, len: usize, result: Out, result_len: usize) -> u64;
        pub fn amiqsovik_gauge(s: In, len: usize, numbers: *mut [f64; 2]) -> u64;

        pub fn amiqsovik_insert(s: Out, len: usize, j: Out, j_len: usize, hash: u32, block: u32, offset: u32) -> u64;
        pub fn amiqsovik_remove(s: Out, len: usize, j: Out, j_len: usize, hash: u32, block: u32, offset: u32) -> u64;
        pub fn amiqsovik_work(s: Out, len: usize, j: Out, j_len: usize, budget: u32) -> u64;
        pub fn amiqsovik_squeeze(s: Out, len: usize, j: Out, j_len: usize, bucket: u32, budget: u32) -> u64;

        pub fn amiqsovik_recover(s: Out, len: usize, j: Out, j_len: usize) -> u64;
        pub fn amiqsovik_wipe(j: Out, j_len: usize) -> u64;
        pub fn amiqsovik_wiped(j: In, j_len: usize) -> u64;
        pub fn amiqsovik_look(s: In, len: usize, j: In, j_len: usize, block: u32) -> u64;

        pub fn amiqsovik_plan_insert(
            s: In,
            len: usize,
            j: In,
            j_len: usize,
            hash: u32,
            block: u32,
            offset: u32,
            plan: Out,
            plan_len: usize,
        ) -> u64;
        pub fn amiqsovik_plan_remove(
            s: In,
            len: usize,
            j: In,
            j_len: usize,
            hash: u32,
            block: u32,
            offset: u32,
            plan: Out,
            plan_len: usize,
        ) -> u64;
        pub fn amiqsovik_plan_work(s: In, len: usize, j: In, j_len: usize, plan: Out, plan_len: usize) -> u64;
        pub fn amiqsovik_plan_squeeze(
            s: In,
            len: usize,
            j: In,
            j_len: usize,
            bucket: u32,
            plan: Out,
            plan_len: usize,
        ) -> u64;
        pub fn amiqsovik_do_store(s: Out, len: usize, j: Out, j_len: usize, plan: In, plan_len: usize, n: u32) -> u64;

        pub(super) fn clock_gettime(clock: c_int, time: *mut [i64; 2]) -> c_int;
    }
}

/// The processor time that this thread has taken, on 64-bit Linux.
pub fn thread_time() -> Duration {
    const CLOCK_THREAD_CPUTIME_ID: i32 = 3;
    let mut time = [0; 2];
    // SAFETY: there a timespec is two numbers of 64 bits: seconds and nanoseconds.
    assert_eq!(unsafe { c::clock_gettime(CLOCK_THREAD_CPUTIME_ID, &mut time) }, 0, "no clock");
    Duration::new(time[0] as u64, time[1] as u32)
}

// SAFETY, of every call below: each pointer is that of a slice, with its length, which is lent to be read or to be
// changed as the function takes it, and no two of a call overlap.

/// The word that a format answers.
pub fn format(store: &mut [u8], fill: u32, number: u32, overwrite: u32) -> u64 {
    // SAFETY: as above.
    unsafe { c::amiqsovik_format(store.as_mut_ptr(), store.len(), fill, number, overwrite) }
}

/// The word that in_use answers.
pub fn in_use(store: &[u8]) -> u64 {
    // SAFETY: as above.
    unsafe { c::amiqsovik_in_use(store.as_ptr(), store.len()) }
}

/// The word that a gauge answers, which writes two numbers.
pub fn gauge(store: &[u8], numbers: &mut [f64; 2]) -> u64 {
    // SAFETY: as above.
    unsafe { c::amiqsovik_gauge(store.as_ptr(), store.len(), numbers) }
}

/// The word that an insert answers.
pub fn insert(store: &mut [u8], journal: &mut [u8], hash: u32, block: u32, offset: u32) -> u64 {
    let (s, j) = (store.as_mut_ptr(), journal.as_mut_ptr());
    // SAFETY: as above.
    unsafe { c::amiqsovik_insert(s, store.len(), j, journal.len(), hash, block, offset) }
}

/// The word that a removal answers.
pub fn remove(store: &mut [u8], journal: &mut [u8], hash: u32, block: u32, offset: u32) -> u64 {
    let (s, j) = (store.as_mut_ptr(), journal.as_mut_ptr());
    // SAFETY: as above.
    unsafe { c::amiqsovik_remove(s, store.len(), j, journal.len(), hash, block, offset) }
}

/// The word that work answers.
pub fn work(store: &mut [u8], journal: &mut [u8], budget: u32) -> u64 {
    let (s, j) = (store.as_mut_ptr(), journal.as_mut_ptr());
    // SAFETY: as above.
    unsafe { c::amiqsovik_work(s, store.len(), j, journal.len(), budget) }
}

/// The word that a squeeze answers.
pub fn squeeze(store: &mut [u8], journal: &mut [u8], bucket: u32, budget: u32) -> u64 {
    let (s, j) = (store.as_mut_ptr(), journal.as_mut_ptr());
    // SAFETY: as above.
    unsafe { c::amiqsovik_squeeze(s, store.len(), j, journal.len(), bucket, budget) }
}

/// The word that a recovery answers.
pub fn recover(store: &mut [u8], journal: &mut [u8]) -> u64 {
    // SAFETY: as above.
    unsafe { c::amiqsovik_recover(store.as_mut_ptr(), store.len(), journal.as_mut_ptr(), journal.len()) }
}

/// The word that wiping a journal answers.
pub fn wipe(journal: &mut [u8]) -> u64 {
    // SAFETY: as above.
    unsafe { c::amiqsovik_wipe(journal.as_mut_ptr(), journal.len()) }
}

/// The word that says whether a journal's head is wiped.
pub fn wiped(journal: &[u8]) -> u64 {
    // SAFETY: as above.
    unsafe { c::amiqsovik_wiped(journal.as_ptr(), journal.len()) }
}

/// The word that a look answers.
pub fn look(store: &[u8], journal: &[u8], block: u32) -> u64 {
    // SAFETY: as above.
    unsafe { c::amiqsovik_look(store.as_ptr(), store.len(), journal.as_ptr(), journal.len(), block) }
}

/// The word that the plan of an insert answers.
pub fn plan_insert(store: &[u8], journal: &[u8], hash: u32, block: u32, offset: u32, plan: &mut [u8]) -> u64 {
    let (s, j, p) = (store.as_ptr(), journal.as_ptr(), plan.as_mut_ptr());
    // SAFETY: as above.
    unsafe { c::amiqsovik_plan_insert(s, store.len(), j, journal.len(), hash, block, offset, p, plan.len()) }
}

/// The word that the plan of a removal answers.
pub fn plan_remove(store: &[u8], journal: &[u8], hash: u32, block: u32, offset: u32, plan: &mut [u8]) -> u64 {
    let (s, j, p) = (store.as_ptr(), journal.as_ptr(), plan.as_mut_ptr());
    // SAFETY: as above.
    unsafe { c::amiqsovik_plan_remove(s, store.len(), j, journal.len(), hash, block, offset, p, plan.len()) }
}

/// The word that the plan of a step of work answers.
pub fn plan_work(store: &[u8], journal: &[u8], plan: &mut [u8]) -> u64 {
    let (s, j, p) = (store.as_ptr(), journal.as_ptr(), plan.as_mut_ptr());
    // SAFETY: as above.
    unsafe { c::amiqsovik_plan_work(s, store.len(), j, journal.len(), p, plan.len()) }
}

/// The word that the plan of a step of a squeeze answers.
pub fn plan_squeeze(store: &[u8], journal: &[u8], bucket: u32, plan: &mut [u8]) -> u64 {
    let (s, j, p) = (store.as_ptr(), journal.as_ptr(), plan.as_mut_ptr());
    // SAFETY: as above.
    unsafe { c::amiqsovik_plan_squeeze(s, store.len(), j, journal.len(), bucket, p, plan.len()) }
}

/// The word that a plan's block store answers.
pub fn do_store(store: &mut [u8], journal: &mut [u8], plan: &[u8], n: u32) -> u64 {
    let (s, j) = (store.as_mut_ptr(), journal.as_mut_ptr());
    // SAFETY: as above.
    unsafe { c::amiqsovik_do_store(s, store.len(), j, journal.len(), plan.as_ptr(), plan.len(), n) }
}
