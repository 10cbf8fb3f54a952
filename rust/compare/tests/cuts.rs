//! Power cuts (request 2026-05): random lists of changes, each cut at every block store, clean and torn, recovered, and
//! held to what stood before it and after it.

use compare::brink::sparse;
use compare::build::{found, sound};
use compare::cuts::{Cutter, Tally};
use compare::lists::{Call, Maker, Pair};
use compare::random::Random;
use compare::side::Change;
use compare::stores::{even, thin, Split, EACH};
use compare::twin::Twin;
use std::collections::BTreeSet;
use std::time::Instant;

/// The changes that a call is: work and squeezes go step by step.
fn changes(call: Call) -> (Change, u32) {
    match call {
        Call::Insert(pair) => (Change::Insert(pair), 1),
        Call::Remove(pair) => (Change::Remove(pair), 1),
        Call::Squeeze(bucket, budget) => (Change::Squeeze(bucket), budget.min(8)),
        Call::Work(budget) => (Change::Work, budget.min(8)),
        Call::Lookup(..) | Call::Format(..) => (Change::Work, 1),
    }
}

/// A list of so many calls.
fn run(cutter: &mut Cutter, maker: &mut Maker, calls: u32) {
    for _ in 0..calls {
        let call = maker.call();
        let (change, times) = changes(call);
        for _ in 0..times {
            let reply = cutter.change(change);
            if matches!(change, Change::Insert(pair) if cutter.book.contains(&pair)) {
                maker.note(call, reply);
            }
            if !reply.done() || reply.stop != 0 {
                break;
            }
        }
    }
    assert!(cutter.twin.verify().done(), "{}: not sound", cutter.twin.label);
}

/// A list from a format on.
fn formatted(seed: u64, calls: u32) -> Tally {
    let (blocks, fill) = (5 + seed as usize % 12, 1 + seed as u32 * 7 % 23);
    let mut twin = Twin::new(vec![0; blocks * 512], format!("seed {seed}, N {blocks}, fill {fill}"));
    assert!(twin.format(fill, Random::new(seed).store_number(), 0).done());
    let mut cutter = Cutter::new(twin, BTreeSet::new(), seed);
    run(&mut cutter, &mut Maker::new(seed, 2 + seed as u32 % 5, 90, seed.is_multiple_of(2)), calls);
    cutter.tally
}

/// The pairs that a store holds, by its lookups.
fn held(twin: &Twin) -> BTreeSet<Pair> {
    under(twin, found(twin.bytes()).map(|entry| entry.pair.0).collect())
}

/// The same under these codes.
fn under(twin: &Twin, codes: BTreeSet<u32>) -> BTreeSet<Pair> {
    let places = |hash| {
        let (reply, places) = twin.lookup(hash, 6 * 40_840);
        assert!(reply.done(), "{}: lookup {hash}: {reply:?}", twin.label);
        places.into_iter().map(move |(block, offset)| (hash, block, offset.into()))
    };
    codes.into_iter().flat_map(places).collect()
}

/// A list from a store that was built: in the midst of a job or not, or while copying with few entries on many pages.
fn built(seed: u64, calls: u32) -> Tally {
    let mut random = Random::new(seed);
    let blocks = random.within(10, 20);
    let store = match seed as u32 % 4 {
        0 => sparse(&mut random, blocks),
        phase => sound(&mut random, blocks, phase - 1, 130),
    };
    let twin = Twin::new(store, format!("built {seed}, N {blocks}"));
    assert!(twin.verify().done(), "{}: {:?}", twin.label, twin.verify());
    let mut maker = Maker::new(seed, 1, 60, true);
    let book = held(&twin);
    maker.know(book.iter().copied());
    maker.tide = if seed.is_multiple_of(4) { 400 } else { 380 };
    maker.squeezes = 10;
    let mut cutter = Cutter::new(twin, book, seed);
    run(&mut cutter, &mut maker, calls);
    cutter.tally
}

#[test]
fn every_block_store_of_random_lists() {
    let start = Instant::now();
    let lists = |from: u64| {
        let mut tally = Tally::default();
        for seed in (from..60).step_by(2) {
            tally.add(formatted(30_000 + seed, 75));
            tally.add(built(31_000 + seed, 45));
        }
        tally
    };
    let mut tally = Tally::default();
    std::thread::scope(|scope| {
        let halves = [0, 1].map(|from| scope.spawn(move || lists(from)));
        halves.into_iter().for_each(|half| tally.add(half.join().expect("a list")));
    });
    println!("{} cuts, {} s: {tally:?}", tally.cuts, start.elapsed().as_secs());
    assert!(tally.cuts >= 100_000 && tally.cut_recoveries >= 50_000, "{tally:?}");
    let most = tally.altered.each_ref().map(|altered| altered.keys().max().copied().unwrap_or(0));
    assert!(most[0] == 4 && (5..=8).contains(&most[1]) && most[2] == 5 && most[3] == 5, "{tally:?}");
    assert!(tally.before >= 20_000 && tally.after >= 20_000 && tally.early > 100, "{tally:?}");
}

/// Removals while copying, of each pair of stores with few entries on many pages: they alter up to eight blocks.
#[test]
fn every_block_store_of_the_widest_removals() {
    let mut tally = Tally::default();
    for seed in 0..12 {
        let mut random = Random::new(32_000 + seed);
        let store = sparse(&mut random, 20);
        let twin = Twin::new(store, format!("sparse {seed}"));
        let book = held(&twin);
        for &pair in &book {
            let mut cutter = Cutter::new(twin.clone(), book.clone(), seed);
            assert!(cutter.change(Change::Remove(pair)).done(), "{}: {pair:?}", twin.label);
            tally.add(cutter.tally);
        }
    }
    let altered: Vec<usize> = tally.altered[1].keys().copied().collect();
    assert_eq!(altered, [2, 3, 4, 5, 6, 7, 8], "{tally:?}");
}

/// Changes of stores of 1,024 blocks, with blocks of high numbers among those that they alter.
#[test]
fn every_block_store_of_changes_of_large_stores() {
    let stores = [
        ("even", even(1024, 512, EACH, Split::Over)),
        ("copying", even(1024, 896, EACH, Split::Copying)),
        ("wanted", even(1024, 513, EACH, Split::Wanted)),
        ("thin", thin(1024, 1021)),
    ];
    let mut tally = Tally::default();
    for (name, store) in stores {
        let twin = Twin::new(store, name);
        let pair = found(twin.bytes()).last().expect("a pair").pair;
        let book = under(&twin, BTreeSet::from([pair.0]));
        let mut cutter = Cutter::new(twin, book, 33_000);
        for change in [Change::Work, Change::Squeeze(0), Change::Insert((pair.0, 7, 7)), Change::Remove(pair)] {
            // The bucket may be one of the job.
            let reply = cutter.change(change);
            assert!(reply.done() || reply.number == 11, "{name}: {change:?}: {reply:?}");
        }
        tally.add(cutter.tally);
    }
    assert!(tally.altered.iter().all(|altered| !altered.is_empty()), "{tally:?}");
}
