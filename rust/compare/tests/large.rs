//! Stores of more than 128 blocks: spoilt ones, as many matches as there can be, and long jobs.

use compare::brink::{stuffed, ODD_CODE};
use compare::build::{found, sound_at, Layout, IN_ALL};
use compare::random::Random;
use compare::seal::{seal, seal_all};
use compare::side::Reply;
use compare::spoil::{damage, spoil};
use compare::stores::{copying_one_code, crowd, last_code_places, wanting, Order, CODE, LAST_CODE};
use compare::twin::Twin;
use compare::word::word;
use std::collections::BTreeMap;

/// A sound store of this size, at one of the last four points that it has room for.
fn sound(random: &mut Random, blocks: u32, phase: u32) -> Vec<u8> {
    let most = (4..13).filter(|&point| IN_ALL[point as usize] + 2 <= blocks).max().unwrap_or(4);
    let (point, crowd) = (random.within(most - 3, most), random.pick(&[2, 12, 50]));
    sound_at(random, blocks, point, phase, crowd)
}

#[test]
fn built_and_spoilt_stores() {
    let mut seen: BTreeMap<(u8, u32), u32> = BTreeMap::new();
    for seed in 0..320 {
        let mut random = Random::new(21_000 + seed);
        let blocks = random.pick(&[129, 200, 513, 700, 900, 1023, 1024]);
        let mut store = sound(&mut random, blocks, seed as u32 % 3);
        let twin = Twin::new(store.clone(), format!("built {seed}, N {blocks}"));
        assert!(twin.verify().done(), "{}: {:?}", twin.label, twin.verify());
        spoil(&mut random, &mut store);
        let twin = Twin::new(store, format!("spoilt {seed}, N {blocks}"));
        let verdict = twin.verify();
        *seen.entry((verdict.number, verdict.gives)).or_default() += 1;
        let answers = [twin.standing().0, twin.lookup(1, 12).0, twin.clone().work(2), twin.clone().insert(1, 1, 1)];
        assert!(verdict.done() || answers == [verdict; 4], "{}: {verdict:?}, {answers:?}", twin.label);
        assert!(verdict.done() || twin.clone().squeeze(seed as u32, 2) == verdict, "{}: {verdict:?}", twin.label);
    }
    assert!((1..=8).all(|rule| seen.get(&(4, rule)).is_some_and(|&times| times >= 2)), "{seen:?}");
    assert_eq!(seen.len(), 9, "{seen:?}");
}

#[test]
fn damaged_blocks() {
    for seed in 0..40 {
        let mut random = Random::new(21_500 + seed);
        let whole = sound(&mut random, 1024, seed as u32 % 3);
        let mut store = whole.clone();
        damage(&mut random, &mut store);
        let lowest = (0..1024).find(|at| store[512 * at..][..512] != whole[512 * at..][..512]);
        let verdict = lowest.map_or(Reply::default(), |at| Reply::refused(3, at as u32));
        assert_eq!(Twin::new(store, format!("damaged {seed}")).verify(), verdict, "damaged {seed}");
    }
}

/// A store with one word changed, and the check of that block written anew, has this verdict.
fn judged(store: &[u8], what: &str, (block, at): (u32, usize), value: u32, rule: u32) {
    let mut store = store.to_vec();
    let at = 512 * block as usize + at;
    assert_ne!(store[at..at + 4], value.to_le_bytes(), "{what}: no change");
    store[at..at + 4].copy_from_slice(&value.to_le_bytes());
    seal(&mut store, block as usize);
    let twin = Twin::new(store, format!("{what}: {value}"));
    let verdict = Reply::refused(4, rule);
    assert_eq!((twin.verify(), twin.clone().work(1)), (verdict, verdict), "{}", twin.label);
}

#[test]
fn wrong_meta_blocks() {
    for point in [9, 10, 11, 12] {
        let mut random = Random::new(22_000 + u64::from(point));
        let (first, end) = (IN_ALL[point as usize - 1], IN_ALL[point as usize]);
        let mut store = sound_at(&mut random, 1024, point, 0, 20);
        // Neither the first nor the last bucket of its point is the last one.
        while !(first + 1..end - 1).contains(&Layout::of(&store).max) {
            store = sound_at(&mut random, 1024, point, 0, 20);
        }
        let layout = Layout::of(&store);
        let spare = |i: u32| (0, 40 + 4 * i as usize);
        for value in [0, 1, point - 1, point + 1, 13, 15, 16, u32::MAX].into_iter().filter(|&value| value != point) {
            judged(&store, "point", (0, 28), value, 2);
        }
        for (i, value) in [(0, 1), (point + 1, 1), (point + 1, layout.bits()), (13, 1), (15, 1), (15, u32::MAX)] {
            judged(&store, "spares of no point", spare(i), value, 2);
        }
        for value in [0, 1024 - end, 1024, u32::MAX - end, u32::MAX] {
            judged(&store, "spares of the point", spare(point), value, 2);
        }
        for value in [0, first - 1, end, 1023, 1024, u32::MAX].into_iter().filter(|&max| max != layout.max) {
            judged(&store, "max bucket", (0, 16), value, 2);
        }
        for value in [layout.max - 1, layout.max + 1] {
            judged(&store, "max bucket of the same point", (0, 16), value, 3);
        }
        for value in [0, 128, 1023, 1025, u32::MAX] {
            judged(&store, "N", (0, 36), value, 1);
        }
    }
}

#[test]
fn wrong_pages() {
    let mut random = Random::new(22_500);
    let store = sound_at(&mut random, 1024, 11, 0, 100);
    let layout = Layout::of(&store);
    let (last, kept) = (layout.bucket_block(layout.max), layout.max + 1);
    let page = layout.bucket_block(600);
    judged(&store, "bucket", (page, 500), 601, 3);
    judged(&store, "a block that is kept", (layout.bucket_block(kept), 0), 1, 3);
    judged(&store, "a block not yet made", (1023, 0), 1, 3);
    for value in [0, 3, page, layout.bucket_block(599), last, layout.bucket_block(kept), 1023, 1024, u32::MAX - 1] {
        judged(&store, "next", (page, 496), value, 4);
    }
    for value in [0, 2, 599, 601, 1112, u32::MAX] {
        judged(&store, "previous", (page, 492), value, 8);
    }
    judged(&store, "first free", (0, 32), 2047, 6);
    judged(&store, "bits not yet made", (3, 248), 0xFFFF_FFFE, 6);
    judged(&store, "count", (0, 8), word(&store, 8) + 1, 8);
    // An entry of another bucket, alone on its page.
    let empty = (0..=layout.max).map(|bucket| layout.bucket_block(bucket)).find(|&page| {
        let at = 512 * page as usize;
        store[at] == 0 && store[at + 496..at + 500] == [0xFF; 4]
    });
    let at = 512 * empty.expect("an empty bucket") as usize;
    let mut store = store.clone();
    let bucket = word(&store, at + 500);
    store[at] = 1;
    store[at + 4..at + 8].copy_from_slice(&(bucket ^ 1).to_le_bytes());
    store[at + 12] = 1;
    seal_all(&mut store);
    assert_eq!(Twin::new(store, "an entry of another bucket").verify(), Reply::refused(4, 7));
}

/// A lookup of all that a store holds under a code, with room and without.
fn looked_up(store: Vec<u8>, code: u32, matches: usize) {
    let twin = Twin::new(store, format!("{matches} matches"));
    let mut places: Vec<(u32, u16)> = found(twin.bytes()).map(|entry| (entry.pair.1, entry.pair.2 as u16)).collect();
    places.sort_unstable();
    places.dedup();
    assert_eq!((places.len(), twin.standing().1.count), (matches, matches as u32), "{}", twin.label);
    for room in [6 * matches, 6 * matches + 5, 300_000] {
        assert_eq!(twin.lookup(code, room).1, places, "{}, room {room}", twin.label);
    }
    for room in [0, 30_000, 6 * matches - 1] {
        assert_eq!(twin.lookup(code, room).0, Reply::refused(8, matches as u32), "{}, room {room}", twin.label);
    }
    assert_eq!(twin.lookup(code ^ 4, 0), (Reply::default(), vec![]), "{}", twin.label);
}

#[test]
fn as_many_matches_as_there_can_be() {
    for order in [Order::Ascending, Order::Interleaved] {
        looked_up(crowd(1024, 40_840, order), CODE, 40_840);
    }
    looked_up(stuffed(128), ODD_CODE, 126 * 40);
    looked_up(stuffed(1024), ODD_CODE, 1022 * 40);
    // 40,840 are what calls can make: then there is no room for one more, and for one only after a removal.
    let mut twin = Twin::new(crowd(1024, 40_840, Order::Interleaved), "full");
    let (_, block, offset) = found(twin.bytes()).last().expect("an entry").pair;
    assert_eq!(twin.insert(CODE, 7, 7).number, 7);
    assert!(twin.remove(CODE, block, offset).done() && twin.insert(CODE, 7, 7).done());
    assert_eq!((twin.insert(CODE, 7, 8).number, twin.work(9)), (7, Reply::worked(0, 7)));
}

#[test]
fn long_jobs() {
    let mut twin = Twin::new(copying_one_code(1024), "one code");
    let held = last_code_places(1024);
    for (budget, phase) in [(0, 1), (7_168, 1), (1, 2), (14_336, 2), (1, 0)] {
        let reply = twin.work(budget);
        assert_eq!((reply.steps, twin.standing().1.phase), (budget, phase), "work {budget}");
        let (reply, places) = twin.lookup(LAST_CODE, 6 * held as usize);
        assert_eq!((reply.gives, places.len()), (held, held as usize), "work {budget}");
    }
    let (mut parted, mut whole) = (Twin::new(wanting(1024), "parted"), Twin::new(wanting(1024), "whole"));
    let steps = [1, 4_000, 2_000, 65_535].map(|budget| parted.work(budget).steps).iter().sum();
    assert_eq!((whole.work(65_535).steps, steps), (10_243, 10_243));
    assert!(parted.bytes() == whole.bytes(), "other bytes");
}
