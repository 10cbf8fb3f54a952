//! The gauge, bit for bit: the numbers that request 2026-07 names, quotients that are rounded once, what a refusal
//! shows, and that the wrapper says the same.

use compare::brink::stuffed;
use compare::build::{found, sound, sound_at};
use compare::gauge::{rounded, shown};
use compare::random::Random;
use compare::side::{Gauge, Reply};
use compare::spoil::{damage, spoil};
use compare::twin::Twin;
use std::collections::BTreeSet;

const DONE: Reply = Reply { number: 0, gives: 0, steps: 0, stop: 0 };

/// The bits of two numbers.
fn bits(per_bucket: f64, per_page: f64) -> Gauge {
    [per_bucket, per_page].map(f64::to_bits)
}

/// What the wrapper says of a store: its numbers, or its refusal.
fn wrapped(store: &[u8]) -> (Reply, Gauge) {
    match amiqsovik::gauge(store) {
        Ok(gauge) => (DONE, bits(gauge.per_bucket, gauge.per_page)),
        Err(refusal) => (Reply::refused(refusal.number(), refusal.gives()), [0, 0]),
    }
}

/// A store with pairs under these hash codes.
fn holding(blocks: usize, fill: u32, hashes: impl IntoIterator<Item = u32>) -> Twin {
    let mut twin = Twin::new(vec![0; 512 * blocks], format!("{blocks} blocks, fill {fill}"));
    assert!(twin.format(fill, 7, 0).done());
    for hash in hashes {
        assert!(twin.insert(hash, 7, 1).done());
    }
    twin
}

#[test]
fn forty_entries_in_two_pages() {
    // So many in bucket 0, and the others in bucket 1.
    for even in [0, 1, 13, 20, 39, 40] {
        let hashes = (0..even).map(|i| 2 * i).chain((even..40).map(|i| 2 * i + 1));
        let twin = holding(5, 40, hashes);
        assert_eq!(twin.gauge(), (DONE, bits(20.0, 0.5)), "{even} even");
    }
    // The 41st even one takes a third page.
    let mut twin = holding(5, 40, (0..41).map(|i| 2 * i));
    assert_eq!(twin.gauge(), (DONE, bits(20.5, 41.0 / 120.0)));
    assert!(twin.remove(0, 7, 1).done());
    assert_eq!(twin.gauge(), (DONE, [20.0f64.to_bits(), 0x3FD5_5555_5555_5555]));
}

#[test]
fn empty_stores() {
    for blocks in [4, 5, 16, 128, 1024] {
        assert_eq!(holding(blocks, 3, []).gauge(), (DONE, [0, 0]), "{blocks} blocks");
    }
    // Emptied, with more buckets than two, and in the midst of a job.
    for budget in [0, 1, 4, 60] {
        let mut twin = holding(16, 1, 0..8);
        assert!(twin.work(budget).done());
        (0..8).for_each(|hash| assert!(twin.remove(hash, 7, 1).done()));
        assert_eq!((twin.gauge(), twin.standing().1.count), ((DONE, [0, 0]), 0), "budget {budget}");
    }
}

/// As much as there is room for: 40 entries on every page.
#[test]
fn full_stores() {
    assert_eq!(holding(4, 40, 0..80).gauge(), (DONE, bits(40.0, 1.0)));
    for (blocks, per_bucket) in [(6, 80.0), (128, 2_520.0), (1024, 20_440.0)] {
        let twin = Twin::new(stuffed(blocks), format!("{blocks} blocks, full"));
        assert_eq!(twin.gauge(), (DONE, bits(per_bucket, 1.0)));
    }
}

/// Held pairs alone: a copy that is made changes nothing but the pages, and a page that is freed counts no more.
#[test]
fn step_by_step() {
    let mut twin = holding(24, 10, (0..90).map(|i| 2 * i));
    let mut seen = BTreeSet::new();
    loop {
        let (_, state) = twin.standing();
        let standing = found(twin.bytes()).count();
        assert_eq!(twin.gauge(), (DONE, shown(twin.bytes(), 90, state.buckets)));
        seen.insert((state.phase, standing > 90));
        if twin.work(1).steps == 0 {
            break;
        }
    }
    assert!(seen.contains(&(1, true)) && seen.contains(&(2, true)), "no copies in {seen:?}");
}

#[test]
fn quotients() {
    assert_eq!([rounded(1, 3), rounded(2, 3)], [0x3FD5_5555_5555_5555, 0x3FE5_5555_5555_5555]);
    assert_eq!([rounded(0, 7), rounded(1, 1), rounded(u32::MAX, 1)], [0.0, 1.0, 4_294_967_295.0].map(f64::to_bits));
    let mut random = Random::new(26_007);
    for _ in 0..200_000 {
        let (a, b) = (random.below(41_000), random.within(1, 41_000));
        assert_eq!(rounded(a, b), (f64::from(a) / f64::from(b)).to_bits(), "{a} / {b}");
    }
}

/// Sound stores that no list need reach, in each phase.
#[test]
fn sound_stores() {
    let mut random = Random::new(26_008);
    let mut copies = 0;
    for seed in 0..300 {
        let blocks = random.within(4, 60);
        let (phase, crowd) = (seed % 3, random.within(0, 90));
        let store = match seed {
            0..=8 => sound_at(&mut random, 1024, 10 + seed / 3, phase, 12),
            _ => sound(&mut random, blocks, phase, crowd),
        };
        let twin = Twin::new(store, format!("sound {seed}"));
        let (_, state) = twin.standing();
        let wanted = (DONE, shown(twin.bytes(), state.count as usize, state.buckets));
        assert_eq!((twin.gauge(), wrapped(twin.bytes())), (wanted, wanted), "{}", twin.label);
        copies += u32::from(phase == 1 && found(twin.bytes()).count() > state.count as usize);
    }
    assert!(copies > 20, "{copies} stores with copies");
}

/// On a refusal both are 0, over whatever was there.
#[test]
fn refused() {
    let mut seen = BTreeSet::new();
    for seed in 0..1500 {
        let mut random = Random::new(26_100 + seed);
        let blocks = random.within(4, 24);
        let mut store = sound(&mut random, blocks, seed as u32 % 3, 40);
        match random.below(3) {
            0 => damage(&mut random, &mut store),
            1 => spoil(&mut random, &mut store),
            _ => store.truncate(random.below(store.len() as u32) as usize),
        }
        let twin = Twin::new(store, format!("spoilt {seed}"));
        let verdict = twin.verify();
        seen.insert((verdict.number, verdict.gives.min(9)));
        if !verdict.done() {
            assert_eq!((twin.gauge(), wrapped(twin.bytes())), ((verdict, [0, 0]), (verdict, [0, 0])), "{}", twin.label);
        }
    }
    // Length, damaged blocks, and each rule.
    let wanted = [(1, 0), (3, 0), (3, 1)].into_iter().chain((1..=8).map(|rule| (4, rule)));
    let missing: Vec<_> = wanted.filter(|number| !seen.contains(number)).collect();
    assert!(missing.is_empty(), "{missing:?} not among {seen:?}");
}
