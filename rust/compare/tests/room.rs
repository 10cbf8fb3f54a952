//! Room for a split's steps (request 2026-12): copying that stops for room, and what mends that; the end of the copying
//! and the clearing, which need none.

use compare::build::found;
use compare::chains::{free_pages, overflow};
use compare::lists::Pair;
use compare::random::Random;
use compare::side::Reply;
use compare::stores::copying_one_code;
use compare::twin::Twin;

const MOST: u32 = 65_535;

/// The pairs that stand, marked moved, in the last bucket.
fn copies(twin: &Twin) -> Vec<Pair> {
    let new = twin.standing().1.new;
    found(twin.bytes()).filter(|entry| entry.moved && entry.bucket == new).map(|entry| entry.pair).collect()
}

/// The pairs of bucket 1 below, one more than a page has room for.
const OTHERS: u32 = 41;

/// A store in whose last blocks the split that it wants begins: bucket 0 has `movers` pairs, which all go to bucket 2,
/// and bucket 1 has `OTHERS`.
fn full(movers: u32) -> Twin {
    // Meta, bitmap, four bucket pages and the overflow pages of both.
    let blocks = 6 + (movers.div_ceil(40) - 1) + 1;
    let mut twin = Twin::new(vec![0; 512 * blocks as usize], format!("{movers} pairs move"));
    assert!(twin.format(40, 12, 0).done());
    let pairs = (0..movers).map(|i| (4 * i + 2, i)).chain((0..OTHERS).map(|i| (4 * i + 1, i)));
    for (hash, block) in pairs {
        assert!(twin.insert(hash, block, 1).done(), "{}", twin.label);
    }
    twin
}

/// The same, worked on until it stops for room: 40 of 60 pairs are copied.
fn stopped() -> Twin {
    let mut twin = full(60);
    assert_eq!(twin.work(MOST), Reply::worked(1 + 40, 7));
    assert_eq!((twin.work(MOST), twin.work(1)), (Reply::worked(0, 7), Reply::worked(0, 7)));
    assert_eq!(twin.insert(1002, 1, 1), Reply::refused(7, 0));
    twin
}

/// What a split with 60 pairs to move takes in all.
const ALL: u32 = 2 * 60 + 3;

/// "A page is free again": the removal of the only pair on another bucket's overflow page.
#[test]
fn a_page_freed_by_a_removal() {
    let mut twin = stopped();
    assert!(twin.remove(4 * 40 + 1, 40, 1).done());
    assert_eq!((free_pages(twin.bytes()), overflow(twin.bytes(), 2)), (1, 0));
    assert_eq!(twin.work(1), Reply::worked(1, 0));
    assert_eq!((free_pages(twin.bytes()), overflow(twin.bytes(), 2)), (0, 1));
    assert_eq!(twin.work(MOST), Reply::worked(ALL - 41 - 1, 9));
}

/// The same by a squeeze of another bucket, which is none of the split's steps.
#[test]
fn a_page_freed_by_a_squeeze() {
    let mut twin = full(60);
    assert!(twin.remove(1, 0, 1).done());
    assert_eq!(twin.work(MOST), Reply::worked(41, 7));
    assert_eq!([0, 2].map(|bucket| twin.squeeze(bucket, 9)), [Reply::refused(11, 0); 2]);
    assert_eq!(twin.squeeze(1, 9), Reply::worked(1, 9));
    assert_eq!(twin.work(MOST), Reply::worked(ALL - 41, 9));
}

/// "A page of the new bucket's chain has room": after the removal of a pair that has a copy, which saves a step.
#[test]
fn room_on_a_page_of_the_new_chain() {
    let mut twin = stopped();
    let mut steps = 41;
    for _ in 0..20 {
        let (hash, block, offset) = copies(&twin)[0];
        assert!(twin.remove(hash, block, offset).done());
        assert_eq!(twin.work(1), Reply::worked(1, 0));
        steps += 1;
    }
    assert_eq!(twin.work(MOST), Reply::worked(ALL - 20 - steps, 9));
}

/// The removal of a pair that has no copy yet makes no room, but saves two steps. With none left to copy the copying
/// ends without room.
#[test]
fn nothing_left_to_copy() {
    let mut twin = stopped();
    let copied = copies(&twin);
    let movers = found(twin.bytes()).filter(|entry| entry.bucket == 0).map(|entry| entry.pair);
    let uncopied: Vec<Pair> = movers.filter(|pair| !copied.contains(pair)).collect();
    assert_eq!(uncopied.len(), 20);
    for (hash, block, offset) in uncopied {
        assert_eq!(twin.work(1), Reply::worked(0, 7));
        assert!(twin.remove(hash, block, offset).done());
    }
    assert_eq!(twin.work(MOST), Reply::worked(ALL - 2 * 20 - 41, 9));
}

/// The end of the copying, and the clearing, on a store that has room for no pair of either bucket.
#[test]
fn clearing_needs_no_room() {
    let mut twin = full(40);
    assert_eq!(twin.work(1 + 40), Reply::worked(1 + 40, 0));
    let none = Reply::refused(7, 0);
    assert_eq!([1004, 1002].map(|hash| twin.insert(hash, 1, 1)), [none; 2]);
    assert_eq!((twin.work(1), twin.standing().1.phase), (Reply::worked(1, 0), 2));
    assert_eq!([1004, 1002].map(|hash| twin.insert(hash, 1, 1)), [none; 2]);
    for _ in 0..40 {
        assert_eq!((twin.work(1), twin.standing().1.phase), (Reply::worked(1, 0), 2));
    }
    assert_eq!(twin.work(MOST), Reply::worked(1, 9));
}

/// A long copying job that finds room for 480 more copies and then stops, with 416 to make. Removals of pairs that have
/// copies make room for as many others; with enough of them work goes on, to the end of the job, after which there is
/// no room for the next one to begin.
#[test]
fn room_in_a_long_chain() {
    let mut twin = Twin::new(copying_one_code(108), "one code");
    let mut random = Random::new(12_000);
    let before = copies(&twin).len();
    assert_eq!(twin.work(MOST), Reply::worked(480, 7));
    assert_eq!((copies(&twin).len(), twin.standing().1.phase), (before + 480, 1));
    assert_eq!(twin.work(MOST), Reply::worked(0, 7));
    let rest = Reply::worked(412 + 1 + 1376 + 1, 7);
    for (removals, reply) in [(1, Reply::worked(1, 7)), (3, Reply::worked(3, 7)), (412, rest)] {
        let mut pairs = copies(&twin);
        random.shuffle(&mut pairs);
        for &(hash, block, offset) in &pairs[..removals] {
            assert!(twin.remove(hash, block, offset).done());
        }
        assert_eq!(twin.work(MOST), reply, "{removals} removals");
        assert!(twin.verify().done());
    }
    assert_eq!(twin.standing().1.phase, 0);
}
