//! Points, and the addresses that they make: small ones by hand, PostgreSQL's own, and that no two meet.

use super::{buckets_at, latest_splits, masks, point_of, Meta};
use std::collections::BTreeSet;

/// A meta block of an index with this max bucket and these spares, from point 0 on.
fn with(max_bucket: u32, spares: &[u32]) -> Meta {
    let mut meta = Meta::fresh(u32::MAX, 1, 0);
    meta.set_max_bucket(max_bucket);
    meta.point = point_of(max_bucket);
    meta.spares[..spares.len()].copy_from_slice(spares);
    meta
}

#[test]
fn points() {
    let points = [(0, 0), (1, 1), (2, 2), (3, 2), (4, 3), (7, 3), (8, 4), (255, 8), (256, 9), (511, 9)];
    let phases = [(512, 10), (639, 10), (640, 11), (767, 11), (768, 12), (895, 12), (896, 13), (1023, 13)];
    let further = [(1024, 14), (1279, 14), (1280, 15), (1535, 15), (1536, 16)];
    for (bucket, point) in points.into_iter().chain(phases).chain(further) {
        assert_eq!(point_of(bucket), point, "bucket {bucket}");
    }
    let in_all = [1, 2, 4, 8, 16, 32, 64, 128, 256, 512, 640, 768, 896, 1024, 1280, 1536];
    for (point, in_all) in (0..).zip(in_all) {
        assert_eq!(buckets_at(point), in_all, "point {point}");
        // The first bucket that needs the next point.
        assert_eq!((point_of(in_all - 1), point_of(in_all)), (point, point + 1));
    }
}

#[test]
fn blocks_at_the_ends_of_points() {
    let spares = [0, 1, 1, 1, 2, 2, 2, 3, 3, 5, 9, 20, 100];
    let meta = with(895, &spares);
    assert_eq!((meta.point, meta.made()), (12, 896 + 100 + 1));
    let buckets = [(0, 1), (1, 2), (2, 4), (511, 515), (512, 518), (639, 645), (640, 650), (767, 777), (768, 789)];
    for (bucket, block) in buckets.into_iter().chain([(895, 916)]) {
        assert_eq!(meta.bucket_block(bucket), block, "bucket {bucket}");
    }
    let bits = [(0, 3), (1, 18), (2, 131), (3, 516), (4, 517), (5, 646), (8, 649), (9, 778), (19, 788), (20, 917)];
    for (bit, block) in bits.into_iter().chain([(99, 996)]) {
        assert_eq!((meta.bit_block(bit), meta.bit_of(block)), (block, Some(bit)), "bit {bit}");
    }
    assert_eq!((meta.bit_of(515), meta.bit_of(518), meta.bit_of(997)), (None, None, None));
}

/// Buckets in all and bits have a block each, from 1 to the last made one.
#[test]
fn no_two_in_one_block() {
    for max_bucket in [1, 2, 3, 300, 511, 512, 600, 639, 640, 767, 768, 895, 896, 1023] {
        let point = point_of(max_bucket);
        let spares: Vec<u32> = (0..=point).map(|i| i * i * i / 20 + u32::from(i > 0)).collect();
        let meta = with(max_bucket, &spares);
        let buckets = (0..buckets_at(point)).map(|bucket| meta.bucket_block(bucket));
        let mut blocks: Vec<usize> = buckets.chain((0..meta.bits()).map(|bit| meta.bit_block(bit))).collect();
        blocks.sort_unstable();
        assert!(blocks.into_iter().eq(1..meta.made() as usize), "max bucket {max_bucket}");
    }
}

/// All numbers in a field of a line, in their order.
fn numbers(line: &str, field: &str) -> Vec<u32> {
    let (_, rest) = line.split_once(&format!("\"{field}\":")).expect(field);
    // The next field begins with a quote.
    let value = rest.split('"').next().unwrap_or_default();
    let words = value.split(|c: char| !c.is_ascii_digit()).filter(|word| !word.is_empty());
    words.map(|word| word.parse().expect("a number")).collect()
}

#[test]
fn addresses_of_postgresql() {
    let mut points = BTreeSet::new();
    let mut seen = 0;
    for line in include_str!("../../../../tests/vectors/postgres-addresses.jsonl").lines() {
        let fields = ["maxbucket", "highmask", "lowmask", "ovflpoint", "nblocks"].map(|field| numbers(line, field)[0]);
        let [max_bucket, high, low, point, made] = fields;
        let meta = with(max_bucket, &numbers(line, "spares"));
        assert_eq!((masks(max_bucket), meta.point, meta.made()), ((high, low), point, made), "{line}");
        let latest = latest_splits(meta.buckets());
        for bucket in numbers(line, "buckets").chunks_exact(3) {
            let (block, previous) = (meta.bucket_block(bucket[0]) as u32, latest[bucket[0] as usize]);
            assert_eq!([block, previous], bucket[1..], "bucket {} of {line}", bucket[0]);
        }
        for bit in numbers(line, "bits").chunks_exact(3) {
            let block = bit[1] as usize;
            assert_eq!((meta.bit_block(bit[0]), meta.bit_of(block)), (block, Some(bit[0])), "{line}");
        }
        points.insert(point);
        seen += 1;
    }
    assert_eq!((seen, points), (25, BTreeSet::from([1, 2, 3, 4, 5, 6, 7, 8, 9, 15])));
}
