//! The stores that the benchmark measures on are sound and what it says, and both sides make its calls alike.

use compare::build::{found, Layout};
use compare::chains::{dense, lengths, squeeze_steps};
use compare::foreign::thread_time;
use compare::rows::{rows, Bench};
use compare::side::{Ordinary, Proved, Side};
use compare::stores::{chain, copying, copying_one_code, crowd, even, half_empty, leaving, longest, thin, wanting};
use compare::stores::{job_pages, leavers, Order, Split, CODE, EACH};
use compare::twin::Twin;
use std::collections::BTreeMap;
use std::time::Duration;

/// The benchmark's clock goes on while a call runs, and not while the thread sleeps.
#[test]
fn clock() {
    let (store, start) = (even(1024, 512, EACH, Split::Over), thread_time());
    assert!(Proved::verify(&store).done());
    let verified = thread_time();
    std::thread::sleep(Duration::from_millis(400));
    assert!(verified > start && thread_time() - verified < Duration::from_millis(200));
}

/// A sound store, and the numbers of its buckets and pages in use.
fn judged(store: Vec<u8>, label: String) -> (Twin, u32, usize) {
    let pages = store.chunks_exact(512).filter(|page| page[504] & 3 == 1 || page[504] & 3 == 2 && page[0] > 0).count();
    let twin = Twin::new(store, label);
    assert!(twin.verify().done(), "{}: {:?}", twin.label, twin.verify());
    let (_, state) = twin.standing();
    (twin, state.buckets, pages)
}

#[test]
fn every_row_is_sound_and_done_by_both() {
    for row in rows() {
        judged(row.store(), format!("N {}, {}", row.blocks, row.name));
        let mut bench = Bench::new(&row);
        bench.run::<Proved>(2);
        bench.run::<Ordinary>(2);
    }
}

#[test]
fn even_stores() {
    for (blocks, most) in [(4, 2), (16, 8), (64, 32), (128, 64), (1024, 512), (1024, 896)] {
        for split in [Split::Over, Split::Copying] {
            let each = if blocks == 4 && split == Split::Copying { 20 } else { EACH };
            let (twin, buckets, _) = judged(even(blocks, most, each, split), format!("N {blocks}, {most}, {split:?}"));
            let (_, state) = twin.standing();
            let phase = u32::from(split == Split::Copying);
            assert_eq!((buckets, state.slack, state.phase), (most, 0, phase), "{}", twin.label);
        }
    }
    for (blocks, most) in [(16, 8), (128, 64), (1024, 512), (1024, 513)] {
        let (mut twin, buckets, _) = judged(even(blocks, most, EACH, Split::Wanted), format!("N {blocks}, {most}"));
        assert_eq!((buckets, twin.standing().1.slack), (most - 1, -i64::from(EACH)), "{}", twin.label);
        let reply = twin.work(65_535);
        let (_, state) = twin.standing();
        assert!(reply.steps > 3 && reply.stop == 9, "{}: {reply:?}", twin.label);
        assert_eq!((state.buckets, state.slack, state.phase), (most, 0, 0), "{}", twin.label);
    }
}

/// The rows at points from 10 on: 896 buckets stand at point 12, and the split from 512 buckets takes point 10.
#[test]
fn points_from_10_on() {
    let rows: Vec<_> = rows().into_iter().filter(|row| row.has("buckets")).collect();
    let points: Vec<_> = rows.iter().map(|row| (row.blocks, Layout::of(&row.store()).point)).collect();
    assert_eq!(points, [(1024, 12), (1024, 12), (1024, 12), (1024, 12), (1024, 9)]);
    let mut pairs = BTreeMap::new();
    found(&rows[0].store()).for_each(|entry| *pairs.entry(entry.bucket).or_insert(0) += 1);
    assert!(pairs.values().all(|&pairs| pairs <= 36) && pairs.len() > 800, "{pairs:?}");
    let mut twin = Twin::new(rows[4].store(), rows[4].name.clone());
    assert_eq!((twin.work(1).steps, Layout::of(twin.bytes()).point), (1, 10));
}

/// The rows of formats: they are on a store in use.
#[test]
fn formats() {
    let formats: Vec<_> = rows().into_iter().filter(|row| row.has("format")).collect();
    let names: Vec<_> = formats.iter().map(|row| (row.blocks, row.name.as_str())).collect();
    let of_each = |name| [16, 128, 1024].map(|blocks| (blocks, name));
    assert_eq!(names, [of_each("format refused, in use"), of_each("format over")].concat());
    for row in &formats {
        let (mut twin, ..) = judged(row.store(), row.name.clone());
        assert_eq!((twin.in_use().number, twin.format(EACH, 7, 0).number), (12, 12), "{}", twin.label);
        assert!(twin.format(EACH, 7, 1).done() && twin.in_use().done(), "{}", twin.label);
    }
}

#[test]
fn chains_and_crowds() {
    for length in [1, 16, 64, 125] {
        let (twin, buckets, pages) = judged(chain(128, length), format!("chain of {length}"));
        assert_eq!((buckets, pages, twin.standing().1.count), (2, length as usize, length * EACH), "{}", twin.label);
    }
    for matches in [1, 40, 640, 2_560, 5_000] {
        for order in [Order::Ascending, Order::Interleaved] {
            let (twin, _, pages) = judged(crowd(128, matches, order), format!("crowd of {matches}"));
            assert_eq!(pages as u32, matches.div_ceil(40), "{}", twin.label);
            assert_eq!(twin.lookup(CODE, 30_000).0.gives, matches, "{}", twin.label);
        }
    }
    for (blocks, entries) in [(16, 520), (128, 5_000), (1024, 40_840)] {
        for but in [0, 1] {
            let (mut twin, buckets, pages) = judged(longest(blocks, but), format!("longest of {blocks}, but {but}"));
            let wanted = (2, blocks as usize - 3, entries - but);
            assert_eq!((buckets, pages, twin.standing().1.count), wanted, "{}", twin.label);
            assert_eq!(twin.insert(4, 7, 7).number, if but == 0 { 7 } else { 0 }, "{}", twin.label);
        }
    }
}

/// The rows of squeezes: the longest chains, of half-empty pages and of 1 to 3 entries a page, which one call brings to
/// as few pages as their entries need.
#[test]
fn squeezes() {
    let rows: Vec<_> = rows().into_iter().filter(|row| row.has("squeeze")).collect();
    let sizes: Vec<_> = rows.iter().map(|row| row.blocks).collect();
    assert_eq!(sizes, [16, 128, 1024].repeat(4));
    for blocks in [16, 128, 1024] {
        let stores = [(half_empty(blocks, blocks - 3), 20..=20), (thin(blocks, blocks - 3), 1..=3)];
        for (store, each) in stores {
            let (mut twin, buckets, pages) = judged(store, format!("N {blocks}, {each:?} entries a page"));
            let before = lengths(twin.bytes(), 0);
            assert!(before.iter().all(|entries| each.contains(entries)), "{}: {before:?}", twin.label);
            assert_eq!((buckets, pages, before.len() as u32 + 3), (2, before.len(), blocks), "{}", twin.label);
            let count = twin.standing().1.count;
            assert_eq!(count, before.iter().sum::<u32>(), "{}", twin.label);
            let steps = squeeze_steps(twin.bytes(), 0);
            assert!(steps > count / 3 && steps < count, "{}: {steps} of {count}", twin.label);
            assert_eq!(twin.squeeze(0, 65_535).steps, steps, "{}", twin.label);
            assert!(dense(twin.bytes(), 0) && twin.verify().done(), "{}", twin.label);
        }
    }
}

#[test]
fn jobs() {
    // Half of the guests are copied: the others, the end of the copying and the clearing of all are left.
    for (blocks, pages, guests) in [(16, 7 + 4, 98), (128, 64 + 40, 896), (1024, 512 + 320, 7_168)] {
        let (mut twin, _, found) = judged(copying(blocks), format!("copying, N {blocks}"));
        let (_, state) = twin.standing();
        assert_eq!((state.phase, state.old, state.new, found), (1, 0, 2, pages), "{}", twin.label);
        let left = guests / 2 + 1 + guests;
        assert_eq!((twin.work(left).steps, twin.standing().1.phase), (left, 2), "{}", twin.label);
    }
    for (blocks, guests) in [(128, 1_792), (1024, 14_336)] {
        let (mut twin, _, pages) = judged(copying_one_code(blocks), format!("one code, N {blocks}"));
        let (_, state) = twin.standing();
        let (old, new) = job_pages(blocks);
        assert_eq!((state.phase, state.old, state.new, pages), (1, 1, 3, (old + new) as usize), "{}", twin.label);
        let left = guests / 2 + 1 + guests;
        assert_eq!((twin.work(left).steps, twin.standing().1.phase), (left, 2), "{}", twin.label);
    }
    for blocks in [128, 1024] {
        let (mut twin, buckets, pages) = judged(leaving(blocks), format!("leaving, N {blocks}"));
        let (all, leave) = leavers(blocks);
        assert_eq!((buckets, pages as u32 * 40, twin.standing().1.count), (2, all, all), "{}", twin.label);
        assert_eq!(twin.work(2 * leave + 2).steps, 2 * leave + 2, "{}", twin.label);
        assert_eq!((twin.standing().1.phase, twin.standing().1.new), (2, 2), "{}", twin.label);
        assert_eq!((twin.work(1).steps, twin.standing().1.phase), (1, 0), "{}", twin.label);
    }
    for blocks in [16, 64, 128, 1024] {
        let (mut twin, buckets, pages) = judged(wanting(blocks), format!("wanting, N {blocks}"));
        assert_eq!((buckets, pages as u32), (blocks / 4 - 1, blocks / 2), "{}", twin.label);
        let reply = twin.work(65_535);
        assert_eq!((reply.steps, reply.stop, twin.standing().1.phase), (10 * blocks + 3, 9, 0), "{}", twin.label);
    }
}
