//! Changes that are cut at every block store of theirs, whole or torn, and recovered.

use crate::chains::changed;
use crate::journals::END;
use crate::lists::Pair;
use crate::random::Random;
use crate::seal::check;
use crate::side::{ordinary::at, Change, Reply, PLAN};
use crate::twin::Twin;
use crate::word::word;
use ordinary::journal::{plan::list, recovery, BlockStore, Place};
use std::collections::{BTreeMap, BTreeSet};

/// What came up, so that a test can say that it reached what it is for.
#[derive(Debug, Default)]
pub struct Tally {
    /// Cuts of changes, and of recoveries of these.
    pub cuts: u32,
    pub cut_recoveries: u32,
    /// How often each number of blocks was altered, by insert, remove, work and squeeze.
    pub altered: [BTreeMap<usize, u32>; 4],
    /// Recovered stores that were those before and after the change.
    pub before: u32,
    pub after: u32,
    /// How many of the latter came before the end block was written: an older end fitted.
    pub early: u32,
}

impl Tally {
    pub fn add(&mut self, other: Tally) {
        let numbers = [(&mut self.cuts, other.cuts), (&mut self.cut_recoveries, other.cut_recoveries)];
        let stores = [(&mut self.before, other.before), (&mut self.after, other.after), (&mut self.early, other.early)];
        numbers.into_iter().chain(stores).for_each(|(sum, number)| *sum += number);
        for (all, more) in self.altered.iter_mut().zip(other.altered) {
            more.into_iter().for_each(|(blocks, times)| *all.entry(blocks).or_default() += times);
        }
    }
}

/// A change that is being cut: its list, and the stores before and after it.
struct Cut<'a> {
    change: Change,
    images: usize,
    before: &'a Twin,
    after: &'a Twin,
}

/// A store with its journal, and the pairs that it holds by the calls that were accepted.
pub struct Cutter {
    pub twin: Twin,
    pub book: BTreeSet<Pair>,
    pub random: Random,
    pub tally: Tally,
}

/// Makes a change as a call in one piece.
pub fn make(twin: &mut Twin, change: Change) -> Reply {
    match change {
        Change::Insert((hash, block, offset)) => twin.insert(hash, block, offset),
        Change::Remove((hash, block, offset)) => twin.remove(hash, block, offset),
        Change::Work => twin.work(1),
        Change::Squeeze(bucket) => twin.squeeze(bucket, 1),
    }
}

/// The book after a change.
fn fed(book: &BTreeSet<Pair>, change: Change) -> BTreeSet<Pair> {
    let mut book = book.clone();
    match change {
        Change::Insert(pair) => assert!(book.insert(pair), "{pair:?} was held"),
        Change::Remove(pair) => assert!(book.remove(&pair), "{pair:?} was not held"),
        Change::Work | Change::Squeeze(_) => {}
    }
    book
}

impl Cutter {
    pub fn new(twin: Twin, book: BTreeSet<Pair>, seed: u64) -> Self {
        Cutter { twin, book, random: Random::new(seed), tally: Tally::default() }
    }

    /// Plans a change, makes it in one piece and by its block stores, and cuts it at each of them. Then the list goes
    /// on after it or after one of its cuts. Gives what the call in one piece answers.
    pub fn change(&mut self, change: Change) -> Reply {
        let longer = PLAN + self.random.below(2) as usize * 77;
        let mut plan = self.random.bytes(longer);
        let planned = self.twin.plan(change, &mut plan);
        let (before, mut after) = (self.twin.clone(), self.twin.clone());
        let reply = make(&mut after, change);
        if !reply.done() || matches!(change, Change::Work | Change::Squeeze(_)) && reply.steps == 0 {
            assert_eq!(planned, reply, "{}: the plan of {change:?}", before.label);
            return reply;
        }
        let stores = list(&plan);
        let images = (stores.len() - 3) / 2;
        assert_eq!((planned.gives as usize, planned.stop), (2 * images + 3, 0), "{}: {change:?}", before.label);
        let cut = Cut { change, images, before: &before, after: &after };
        in_order(&cut, &plan, &stores);
        *self.tally.altered[kind(change)].entry(images).or_default() += 1;
        let books = [self.book.clone(), fed(&self.book, change)];
        let kept = self.cut(&cut, &plan, &stores, &books);
        self.twin = if self.random.once_in(2) { kept } else { after.clone() };
        self.book = books[usize::from(self.twin.bytes() == after.bytes())].clone();
        reply
    }

    /// Cuts a change at each block store: not begun, torn with any bytes, and torn with a part of it done. Gives one of
    /// the twins that were recovered.
    fn cut(&mut self, cut: &Cut, plan: &[u8], stores: &[BlockStore], books: &[BTreeSet<Pair>; 2]) -> Twin {
        let mut twin = cut.before.clone();
        let mut kept = twin.clone();
        let keep = self.random.below(stores.len() as u32) as usize;
        for done in 0..=stores.len() {
            let mut clean = twin.clone();
            self.recover(&mut clean, cut, done, true, books);
            if let Some(store) = stores.get(done) {
                let noise = self.random.bytes(512);
                for bytes in [noise, self.half(twin.block(store.place), &store.block)] {
                    let mut torn = twin.clone();
                    tear(&mut torn, store, &bytes);
                    // The halves may make up what stood there, or what is to stand there.
                    let (not_begun, whole) = (bytes == twin.block(store.place), bytes == store.block);
                    self.recover(&mut torn, cut, done + usize::from(whole), not_begun || whole, books);
                    clean = if self.random.once_in(2) { torn } else { clean };
                }
                twin.do_store(plan, done as u32);
            }
            kept = if done == keep { clean } else { kept };
        }
        kept
    }

    /// A block of which a part is old and the other new.
    fn half(&mut self, old: &[u8], new: &[u8]) -> Vec<u8> {
        let any = self.random.within(1, 511) as usize;
        let middle = self.random.pick(&[256, 508, any]);
        let (first, last) = if self.random.once_in(2) { (old, new) } else { (new, old) };
        [&first[..middle], &last[middle..]].concat()
    }

    /// Recovers a twin that was cut with so many block stores done, now and then with cuts in the recovery, and holds
    /// it to what it may be then. `clean` says that no block is torn.
    fn recover(&mut self, twin: &mut Twin, cut: &Cut, done: usize, clean: bool, books: &[BTreeSet<Pair>; 2]) {
        let label = format!("{}: {:?}, {done} done, clean {clean}", twin.label, cut.change);
        self.tally.cuts += 1;
        let wiped = twin.wiped().done();
        assert!(wiped || make(&mut twin.clone(), cut.change).number == 14, "{label}: pending");
        let blocks = 0..(twin.bytes().len() / 512) as u32;
        let seen: Vec<u8> = blocks.flat_map(|block| twin.look(block).1.to_vec()).collect();
        for _ in 0..self.random.below(8).saturating_sub(4) {
            self.cut_recovery(twin);
        }
        assert!(twin.recover().done() && twin.wiped().done(), "{label}");
        assert!(twin.bytes() == seen, "{label}: looked at other blocks than recovered");
        let (was, is) = (twin.bytes() == cut.before.bytes(), twin.bytes() == cut.after.bytes());
        assert!(was || is, "{label}: neither before nor after");
        assert!(is || done < cut.images + 2, "{label}: the end was written, and the change is lost");
        assert!(was || done > cut.images, "{label}: no head, and the change is made");
        assert!(was || clean || done != cut.images + 1, "{label}: the end is torn, and the change is made");
        let mut again = twin.clone();
        let same = again.recover().done() && again.bytes() == twin.bytes() && again.journal() == twin.journal();
        assert!(same, "{label}: recovered twice");
        self.tally.before += u32::from(was);
        self.tally.after += u32::from(is);
        self.tally.early += u32::from(is && done < cut.images + 2);
        self.look_up(twin, cut.change, &books[usize::from(is)], &label);
    }

    /// Does a part of a recovery: some of its block stores, and the next one torn or not begun.
    fn cut_recovery(&mut self, twin: &mut Twin) {
        let stores = recovery(twin.bytes(), twin.journal()).expect("lengths are legal");
        let done = self.random.below(stores.len() as u32 + 1) as usize;
        stores[..done].iter().for_each(|store| twin.put(store.place, &store.block));
        if let (Some(store), false) = (stores.get(done), self.random.once_in(3)) {
            let bytes = match self.random.below(2) {
                0 => self.random.bytes(512),
                _ => self.half(twin.block(store.place), &store.block),
            };
            tear(twin, store, &bytes);
        }
        self.tally.cut_recoveries += 1;
    }

    /// The lookup of the change's own code, or of one in the book, and now and then of all.
    fn look_up(&mut self, twin: &Twin, change: Change, book: &BTreeSet<Pair>, label: &str) {
        let mut codes: BTreeSet<u32> = book.iter().map(|pair| pair.0).collect();
        if !self.random.once_in(100) {
            let any: Vec<u32> = codes.iter().copied().collect();
            codes = match change {
                Change::Insert(pair) | Change::Remove(pair) => BTreeSet::from([pair.0]),
                _ if any.is_empty() => BTreeSet::from([7]),
                _ => BTreeSet::from([self.random.pick(&any)]),
            };
        }
        for hash in codes {
            let places = book.range((hash, 0, 0)..=(hash, u32::MAX, u32::MAX));
            let places: Vec<(u32, u16)> = places.map(|pair| (pair.1, pair.2 as u16)).collect();
            let (reply, found) = twin.lookup(hash, 6 * places.len());
            assert!(reply.done() && found == places, "{label}: lookup {hash}: {reply:?}");
        }
    }
}

fn kind(change: Change) -> usize {
    match change {
        Change::Insert(_) => 0,
        Change::Remove(_) => 1,
        Change::Work => 2,
        Change::Squeeze(_) => 3,
    }
}

/// All block stores in order are the call, whose list names the blocks that it alters, ascending.
fn in_order(cut: &Cut, plan: &[u8], stores: &[BlockStore]) {
    let label = format!("{}: {:?}", cut.before.label, cut.change);
    let names: Vec<u32> = (0..cut.images).map(|i| word(plan, 8 + 4 * i)).collect();
    assert_eq!(names, changed(cut.after.bytes(), cut.before.bytes()), "{label}");
    let mut twin = cut.before.clone();
    for (n, store) in (0..).zip(stores) {
        assert_eq!(twin.do_store(plan, n), at(store.place), "{label}: block store {n}");
        assert!(twin.block(store.place) == store.block, "{label}: block store {n}");
    }
    assert_eq!(twin.do_store(plan, stores.len() as u32), Reply::refused(2, 0), "{label}: one more");
    assert!(twin.bytes() == cut.after.bytes(), "{label}: the block stores leave another store");
    assert!(twin.journal() == cut.after.journal(), "{label}: the block stores leave another journal");
}

/// Tears a block store. A head or end is then anything whose check fails, or else what it was or what it will be.
fn tear(twin: &mut Twin, store: &BlockStore, bytes: &[u8]) {
    if let Place::Journal(block @ (0 | END)) = store.place {
        let right = bytes[508..] == check(word(bytes, 0), block, bytes).to_le_bytes();
        assert!(!right || bytes == twin.block(store.place) || bytes == store.block, "a right check by chance");
    }
    twin.put(store.place, bytes);
}
