//! The stack that the functions for C take: each is called on a thread whose stack is painted, on stores of 1,024
//! blocks with the longest chains, the longest jobs and the most buckets. They touch at most 64 KiB of it.
//!
//!     cargo test --release --test stack -- --nocapture      shows how much each took

use compare::brink::{brink, stuffed};
use compare::build::{found, sound_at};
use compare::foreign::c::*;
use compare::journals::full;
use compare::random::Random;
use compare::side::PLAN;
use compare::stores::{copying, copying_one_code, even, half_empty, leaving, longest, thin, wanting, Split};
use compare::twin::wiped;
use std::collections::BTreeMap;
use std::ffi::{c_int, c_void};
use std::hint::black_box;

/// What a call may take, as include/amiqsovik.h says.
const MOST: usize = 64 * 1024;

extern "C" {
    fn pthread_attr_init(attributes: *mut Attributes) -> c_int;
    fn pthread_attr_setstack(attributes: *mut Attributes, stack: *mut c_void, size: usize) -> c_int;
    fn pthread_attr_destroy(attributes: *mut Attributes) -> c_int;
    fn pthread_create(thread: *mut usize, attributes: *const Attributes, start: Start, argument: *mut c_void) -> c_int;
    fn pthread_join(thread: usize, result: *mut *mut c_void) -> c_int;
}

type Start = extern "C" fn(*mut c_void) -> *mut c_void;

/// As large as pthread_attr_t is on x86-64 Linux.
#[repr(C, align(8))]
struct Attributes([u8; 56]);

#[derive(Clone)]
#[repr(C, align(4096))]
struct Page([u8; 4096]);

/// What the thread is to run, where its stack begins, and its paint; then the answer, and the bytes from the call down
/// to the last one that it touched.
struct Run<'a> {
    call: &'a mut dyn FnMut() -> u64,
    base: *const u64,
    paint: u64,
    answer: u64,
    touched: usize,
}

extern "C" fn start(run: *mut c_void) -> *mut c_void {
    // SAFETY: a Stack hands over a Run that outlives the thread, and leaves it alone meanwhile.
    let run = unsafe { &mut *run.cast::<Run>() };
    let here = 0u8;
    let top = std::ptr::from_ref(black_box(&here)) as usize;
    run.answer = (run.call)();
    // While the thread lives: a libc may clear or reuse a stack when its thread ends. The search goes up from the base,
    // and takes a few bytes below the top.
    let mut at = run.base;
    // SAFETY: all words from the base up to the top are in this thread's stack.
    while (at as usize) < top && unsafe { at.read_volatile() } == run.paint {
        at = at.wrapping_add(1);
    }
    run.touched = top.saturating_sub(at as usize);
    std::ptr::null_mut()
}

/// A stack to be painted: far larger than a call may take, so that one that takes too much is measured too.
struct Stack(Vec<Page>);

impl Stack {
    fn new() -> Self {
        Stack(vec![Page([0; 4096]); 64 * MOST / 4096])
    }

    /// The answer of a call, and the bytes of stack that it touches, to the word, with this paint.
    fn touched(&mut self, paint: u8, call: &mut dyn FnMut() -> u64) -> (u64, usize) {
        self.0.iter_mut().for_each(|page| page.0.fill(paint));
        let (base, size) = (self.0.as_mut_ptr(), std::mem::size_of_val(&self.0[..]));
        let mut run = Run { call, base: base.cast(), paint: u64::from_ne_bytes([paint; 8]), answer: 0, touched: 0 };
        let (mut attributes, mut thread) = (Attributes([0; 56]), 0);
        // SAFETY: the stack and the run stay until the thread is joined, and nobody else uses them meanwhile.
        unsafe {
            assert_eq!(pthread_attr_init(&mut attributes), 0);
            assert_eq!(pthread_attr_setstack(&mut attributes, base.cast(), size), 0);
            let argument = std::ptr::from_mut(&mut run).cast();
            assert_eq!(pthread_create(&mut thread, &attributes, start, argument), 0);
            assert_eq!(pthread_join(thread, std::ptr::null_mut()), 0);
            assert_eq!(pthread_attr_destroy(&mut attributes), 0);
        }
        (run.answer, run.touched)
    }

    /// The same with two paints, since a call may write one of them.
    fn measured(&mut self, mut call: impl FnMut() -> u64) -> (u64, usize) {
        let (answer, one) = self.touched(0xA5, &mut call);
        (answer, one.max(self.touched(0x5A, &mut call).1))
    }
}

/// The most that was seen of each call, and on which store.
struct Table {
    most: BTreeMap<&'static str, (usize, String)>,
    stack: Stack,
}

impl Table {
    /// Measures a call, which must be answered with one of these numbers.
    fn add(&mut self, name: &'static str, store: &str, numbers: &[u8], call: impl FnMut() -> u64) {
        let (answer, bytes) = self.stack.measured(call);
        assert!(numbers.contains(&(answer as u8)), "{name}, {store}: answered {answer:#x}");
        let most = self.most.entry(name).or_default();
        if bytes > most.0 {
            *most = (bytes, store.into());
        }
    }
}

/// Pairs of a store: the first and the last, one that is marked moved, and one that is alone on an overflow page.
fn pairs(store: &[u8]) -> Vec<(u32, u32, u32)> {
    let alone = store.chunks_exact(512).filter(|page| page[504] == 1 && page[0] == 1).flat_map(found);
    let mut all = found(store);
    let moved = all.clone().find(|entry| entry.moved);
    [all.next(), all.last(), moved, alone.last()].into_iter().flatten().map(|entry| entry.pair).collect()
}

/// Every call on copies of a store, beside a wiped journal.
fn calls(table: &mut Table, name: &str, store: &[u8]) {
    let (at, len, mut journal) = (store.as_ptr(), store.len(), wiped());
    let (j, j_len) = (journal.as_mut_ptr(), journal.len());
    let mut output = vec![0; 6 * 40_880];
    let (out, room) = (output.as_mut_ptr(), output.len());
    let mut copy = store.to_vec();
    let mut fresh = || {
        copy.copy_from_slice(store);
        copy.as_mut_ptr()
    };
    // SAFETY, of every call: the pointers are those of vectors that stay, with their lengths, and no two overlap.
    table.add("verify", name, &[0], || unsafe { amiqsovik_verify(at, len) });
    table.add("in_use", name, &[12], || unsafe { amiqsovik_in_use(at, len) });
    table.add("standing", name, &[0], || unsafe { amiqsovik_standing(at, len, out, 28) });
    for overwrite in [0, 1] {
        let to = fresh();
        let wanted = if overwrite == 0 { [12] } else { [0] };
        table.add("format", name, &wanted, || unsafe { amiqsovik_format(to, len, 5, 5, overwrite) });
    }
    for (hash, block, offset) in pairs(store) {
        table.add("lookup", name, &[0], || unsafe { amiqsovik_lookup(at, len, hash, out, room) });
        table.add("lookup", name, &[8], || unsafe { amiqsovik_lookup(at, len, hash, out, 5) });
        let (to, other) = (fresh(), block ^ 0x0055_0000);
        table.add("insert", name, &[5], || unsafe { amiqsovik_insert(to, len, j, j_len, hash, block, offset) });
        table.add("remove", name, &[6], || unsafe { amiqsovik_remove(to, len, j, j_len, hash, other, offset) });
        let insert = || unsafe { amiqsovik_insert(fresh(), len, j, j_len, hash, other, offset) };
        table.add("insert", name, &[0, 7], insert);
        table.add("remove", name, &[0], || unsafe { amiqsovik_remove(fresh(), len, j, j_len, hash, block, offset) });
    }
    for budget in [1, 50, 65_535] {
        table.add("work", name, &[0], || unsafe { amiqsovik_work(fresh(), len, j, j_len, budget) });
        for bucket in [0, 1, 300] {
            let squeeze = || unsafe { amiqsovik_squeeze(fresh(), len, j, j_len, bucket, budget) };
            table.add("squeeze", name, &[0, 2, 11], squeeze);
        }
    }
}

/// Plans, and their block stores.
fn plans(table: &mut Table, name: &str, store: &[u8]) {
    let (at, len, journal) = (store.as_ptr(), store.len(), wiped());
    let (j, j_len) = (journal.as_ptr(), journal.len());
    let (mut copy, mut pending) = (store.to_vec(), wiped());
    let (to, pending) = (copy.as_mut_ptr(), pending.as_mut_ptr());
    let mut plan = vec![0; PLAN];
    let (p, p_len) = (plan.as_mut_ptr(), plan.len());
    // SAFETY, of every call: as above.
    table.add("plan_work", name, &[0], || unsafe { amiqsovik_plan_work(at, len, j, j_len, p, p_len) });
    let squeeze = || unsafe { amiqsovik_plan_squeeze(at, len, j, j_len, 0, p, p_len) };
    table.add("plan_squeeze", name, &[0, 11], squeeze);
    for (hash, block, offset) in pairs(store) {
        let other = block ^ 0x0055_0000;
        let insert = || unsafe { amiqsovik_plan_insert(at, len, j, j_len, hash, other, offset, p, p_len) };
        table.add("plan_insert", name, &[0, 7], insert);
        let remove = || unsafe { amiqsovik_plan_remove(at, len, j, j_len, hash, block, offset, p, p_len) };
        table.add("plan_remove", name, &[0], remove);
        for n in 0..5 {
            table.add("do_store", name, &[0], || unsafe { amiqsovik_do_store(to, len, pending, j_len, p, p_len, n) });
        }
    }
}

/// The calls for a journal, beside one with as many images as there can be.
fn recoveries(table: &mut Table, name: &str, store: &[u8]) {
    let (pending, mut copy) = (full(store, 7), store.to_vec());
    let (to, len, mut journal) = (copy.as_mut_ptr(), store.len(), pending.clone());
    let j_len = journal.len();
    let mut fresh = || {
        journal.copy_from_slice(&pending);
        journal.as_mut_ptr()
    };
    // SAFETY, of every call: as above.
    table.add("recover", name, &[0], || unsafe { amiqsovik_recover(to, len, fresh(), j_len) });
    table.add("wiped", name, &[14], || unsafe { amiqsovik_wiped(fresh(), j_len) });
    table.add("wipe", name, &[0], || unsafe { amiqsovik_wipe(fresh(), j_len) });
    for block in [0, 13, len as u32 / 512 - 1] {
        table.add("look", name, &[0], || unsafe { amiqsovik_look(to, len, fresh(), j_len, block) });
    }
}

#[test]
fn at_most_64_kibibytes() {
    let mut random = Random::new(23_000);
    let mut table = Table { most: BTreeMap::new(), stack: Stack::new() };
    let mut stores = vec![
        ("longest chain", longest(1024, 0)),
        ("nearly longest chain", longest(1024, 1)),
        ("one code in all pages", stuffed(1024)),
        ("long copying", copying(1024)),
        ("long copying of one code", copying_one_code(1024)),
        ("long chain, half moves", wanting(1024)),
        ("long chain, a quarter moves", leaving(1024)),
        ("half empty chain", half_empty(1024, 1021)),
        ("thin chain", thin(1024, 1021)),
        ("512 buckets", even(1024, 512, 28, Split::Over)),
        ("512 buckets, copying", even(1024, 512, 28, Split::Copying)),
        ("768 buckets, begin", brink(&mut random, 1024, 11, 100, 20)),
    ];
    stores.extend([0, 1, 2].map(|phase| ("896 buckets", sound_at(&mut random, 1024, 12, phase, 20))));
    for (name, store) in &stores {
        calls(&mut table, name, store);
        plans(&mut table, name, store);
        recoveries(&mut table, name, store);
    }
    for (name, (bytes, store)) in &table.most {
        println!("{name:12} {bytes:>6} bytes of stack ({store})");
    }
    assert_eq!(table.most.len(), 18);
    assert!(table.most.values().all(|(bytes, _)| *bytes <= MOST), "more than {MOST} bytes of stack");
}

#[test]
fn the_gauge() {
    let mut table = Table { most: BTreeMap::new(), stack: Stack::new() };
    for (name, store) in [("longest chain", longest(1024, 0)), ("512 buckets", even(1024, 512, 28, Split::Over))] {
        let mut numbers = [0.0; 2];
        // SAFETY: the pointer is that of a vector that stays, with its length.
        table.add("gauge", name, &[0], || unsafe { amiqsovik_gauge(store.as_ptr(), store.len(), &mut numbers) });
    }
    assert!(table.most["gauge"].0 <= MOST, "more than {MOST} bytes of stack");
}

/// A frame of known size is seen as it is, and nothing else to speak of.
#[test]
fn a_frame_of_100_000_bytes() {
    #[inline(never)]
    fn large() -> u64 {
        let mut frame = [1u8; 100_000];
        black_box(&mut frame)[7] as u64
    }
    let mut stack = Stack::new();
    let (answer, bytes) = stack.measured(large);
    assert!(answer == 1 && (100_000..104_096).contains(&bytes), "{bytes} bytes");
    assert!(stack.measured(|| 7).1 < 4_096);
}
