//! Overflow pages at points from 10 on: calls that take pages, free them and take them again, for pairs and for copies,
//! until there is no room.

use compare::brink::brink;
use compare::build::{found, sound_at, Layout, IN_ALL};
use compare::lists::{Call, Maker, Seen};
use compare::random::Random;
use compare::side::Reply;
use compare::twin::Twin;
use std::collections::BTreeSet;

/// The overflow bits of a store that are in use.
fn used(store: &[u8]) -> BTreeSet<u32> {
    let set = |bit: &u32| store[3 * 512 + *bit as usize / 8] >> (bit % 8) & 1 == 1;
    (1..Layout::of(store).bits()).filter(set).collect()
}

/// What calls did to overflow pages at points from 10 on.
#[derive(Debug, Default)]
struct Reached {
    /// Pages made, so that the point's spares grew.
    made: u32,
    /// The bits freed in a list.
    freed: BTreeSet<u32>,
    /// Pages taken after such a freeing.
    again: u32,
    /// Pages taken by work, whose first entry is a copy in the new bucket.
    copies: u32,
}

impl Reached {
    fn note(&mut self, call: Call, before: &[u8], now: &[u8]) {
        let (was, is) = (Layout::of(before), Layout::of(now));
        let (held, holds) = (used(before), used(now));
        self.made += u32::from(is.bits() > was.bits());
        self.freed.extend(held.difference(&holds));
        for &bit in holds.difference(&held) {
            self.again += u32::from(self.freed.contains(&bit));
            let page = &now[512 * is.bit_block(bit) as usize..][..512];
            let copy = found(page).next().is_some_and(|entry| entry.moved && entry.bucket == is.max);
            self.copies += u32::from(copy && matches!(call, Call::Work(_)));
        }
    }
}

/// Calls in short tides, most of them on full bucket pages without a next one, on the last bucket, and on those that it
/// and the next one are split from. They count as long as the point is 10 or more.
fn list(twin: &mut Twin, seed: u64, seen: &mut Seen, reached: &mut Reached) {
    let max = Layout::of(twin.bytes()).max;
    let near = [max, max ^ (1 << max.ilog2()), (max + 1) ^ (1 << (max + 1).ilog2())];
    let mut maker = Maker::new(seed, 4, 30, seed.is_multiple_of(2));
    let alone = |page: &&[u8]| page[0] == 40 && page[504] & 2 == 2 && page[496..500] == [0xFF; 4];
    maker.know(found(twin.bytes()).filter(|entry| near.contains(&entry.bucket)).map(|entry| entry.pair));
    let full = twin.bytes().chunks_exact(512).filter(alone).filter_map(|page| found(page).next());
    maker.know(full.map(|entry| entry.pair).take(99));
    reached.freed.clear();
    for i in 0..90 {
        if i % 15 == 0 {
            maker.tide = if i % 30 == 0 { 0 } else { 400 };
        }
        let before = twin.bytes().to_vec();
        let call = maker.call();
        let reply = call.make(twin);
        maker.note(call, reply);
        if Layout::of(twin.bytes()).point >= 10 {
            seen.note(call, reply, twin);
            reached.note(call, &before, twin.bytes());
        }
    }
    assert!(twin.verify().done(), "{}: not sound", twin.label);
}

/// Lists at each point, from built stores with room for many more pages and for few.
#[test]
fn lists_from_built_stores() {
    let mut stopped = 0;
    for point in [10, 11, 12] {
        let (mut seen, mut reached) = (Seen::default(), Reached::default());
        let few = IN_ALL[point as usize] + 9;
        let lists = [(0, 60, few), (1, 120, 1024), (1, 120, 1024), (1, 90, few), (2, 90, 1024)];
        for (seed, (phase, crowd, blocks)) in (24_000 + 10 * u64::from(point)..).zip(lists) {
            let store = sound_at(&mut Random::new(seed), blocks, point, phase, crowd);
            let mut twin = Twin::new(store, format!("built {seed}, N {blocks}"));
            list(&mut twin, seed, &mut seen, &mut reached);
        }
        seen.reached(&[0, 5, 6, 7], &[0], &[0, 1, 2]);
        assert!(seen.longest_chain >= 2 && reached.made > 0, "point {point}: {seen:?}, {reached:?}");
        assert!(reached.again > 0 && reached.copies > 0, "point {point}: {reached:?}");
        stopped += seen.stops.get(&7).unwrap_or(&0);
    }
    assert!(stopped > 0, "no work without room");
}

/// A store whose bucket pages are full, that wants the first bucket after a point, and has room for so many more pages.
fn full(seed: u64, blocks: u32, point: u32, room: u32) -> Twin {
    let bits = blocks - IN_ALL[(point as usize + 1).min(12)] - 1 - room;
    let twin = Twin::new(brink(&mut Random::new(seed), blocks, point, bits, 40), format!("full {seed}, N {blocks}"));
    assert_eq!((twin.standing().1.slack, used(twin.bytes()).len() as u32), (-1, bits - 1), "{}", twin.label);
    twin
}

#[test]
fn lists_from_full_buckets() {
    let (mut seen, mut reached) = (Seen::default(), Reached::default());
    for (seed, (blocks, point)) in (24_500..).zip([(700, 9), (900, 10), (1024, 11), (1024, 12)]) {
        list(&mut full(seed, blocks, point, 5), seed, &mut seen, &mut reached);
    }
    seen.reached(&[0, 5, 6, 7], &[0, 7, 9], &[0, 1, 2]);
    assert!(seen.longest_chain >= 2 && reached.made > 0 && reached.again > 0, "{seen:?}, {reached:?}");
}

/// Inserts up to so many pairs of a bucket, with this block and each under a code of its own, until one is refused.
/// Gives how many were inserted, and the refusal or 0.
fn crowded(twin: &mut Twin, bucket: u32, block: u32, most: u32) -> (u32, u8) {
    let mut answers = (0..most).map(|i| (i, twin.insert(bucket + 1024 * i, block, 7).number));
    answers.find(|&(_, number)| number != 0).unwrap_or((most, 0))
}

/// A begin, its new bucket's page filled by inserts, and then copies into the last page that there is, which the first
/// of them makes; then no room, for copies nor for pairs, until an entry goes. That page is freed, and taken again.
#[test]
fn copies_into_a_page_of_the_new_point() {
    for (blocks, point) in [(700, 9), (900, 10), (1024, 11)] {
        let mut twin = full(24_600, blocks, point, 1);
        let label = twin.label.clone();
        let (new, bit) = (IN_ALL[point as usize], Layout::of(twin.bytes()).bits());
        assert_eq!((twin.work(1), crowded(&mut twin, new, 8, 40)), (Reply::worked(1, 0), (40, 0)), "{label}");
        assert_eq!((twin.work(1), Layout::of(twin.bytes()).bits()), (Reply::worked(1, 0), bit + 1), "{label}");
        let at = 512 * (IN_ALL[point as usize + 1] + bit + 1) as usize;
        let copies = |twin: &Twin| {
            let entries = found(&twin.bytes()[at..at + 512]).filter(|entry| entry.moved && entry.bucket == new);
            entries.map(|entry| entry.pair).collect::<Vec<_>>()
        };
        assert_eq!((copies(&twin).len(), twin.bytes()[at]), (1, 1), "{label}");
        assert_eq!((crowded(&mut twin, new, 9, 41), twin.work(9)), ((39, 7), Reply::worked(0, 7)), "{label}");
        assert_eq!((twin.remove(new, 9, 7).number, twin.work(9)), (0, Reply::worked(1, 7)), "{label}");
        assert_eq!((copies(&twin).len(), twin.bytes()[at]), (2, 40), "{label}");
        let rest = (1..39).map(|i| (new + 1024 * i, 9, 7)).chain(copies(&twin));
        assert!(rest.into_iter().all(|(hash, block, offset)| twin.remove(hash, block, offset).done()), "{label}");
        assert!(!used(twin.bytes()).contains(&bit), "{label}");
        assert_eq!((twin.work(1), copies(&twin).len(), twin.bytes()[at]), (Reply::worked(1, 0), 1, 1), "{label}");
        assert!(used(twin.bytes()).contains(&bit) && twin.verify().done(), "{label}");
    }
}
