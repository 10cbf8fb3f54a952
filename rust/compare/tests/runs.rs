//! The run of a hash code within a page: none, one entry, some, the whole page; at the page's front, in its midst, at
//! its end. What lookup, insert and removal answer is what a sorted list of places gives, on both sides.

use compare::random::Random;
use compare::side::Reply;
use compare::twin::Twin;

type Place = (u32, u16);

const HELD: Reply = Reply { number: 5, gives: 0, steps: 0, stop: 0 };
const ABSENT: Reply = Reply { number: 6, gives: 0, steps: 0, stop: 0 };

/// How many entries of a page come before the run, are its own and come after it.
type Shape = (u32, u32, u32);

/// The shapes of pages of up to 40 entries.
fn shapes() -> Vec<Shape> {
    let sizes = [0, 1, 2, 3, 7, 13, 19, 20, 37, 38, 39, 40];
    let pairs = sizes.iter().flat_map(|&before| sizes.iter().map(move |&own| (before, own)));
    let shapes = pairs.flat_map(|(before, own)| sizes.iter().map(move |&after| (before, own, after)));
    shapes.filter(|(before, own, after)| before + own + after <= 40).collect()
}

/// The place of entry `k` of a run: several offsets to a block. Between it and the next there is room for others.
fn place(k: u32) -> Place {
    (10 * (k / 3) + 1, 100 * (k % 3) as u16 + 50)
}

/// Places that no entry of a run has: one before each, and one after all.
fn gaps(own: u32) -> Vec<Place> {
    let last = (u32::MAX - 1, u16::MAX);
    (0..own).map(|k| (place(k).0, place(k).1 - 1)).chain([last]).collect()
}

/// A page of a store of 4 blocks with a shape, put together by inserts in any order. Codes before and after it differ
/// from `code` by four at least, and go to the same bucket.
fn page(seed: u64, code: u32, (before, own, after): Shape) -> Twin {
    let mut pairs: Vec<(u32, Place)> = (0..own).map(|k| (code, place(k))).collect();
    pairs.extend((0..before).map(|k| (code - 4 - 4 * (k / 2), (k % 2, 1 + k as u16))));
    pairs.extend((0..after).map(|k| (code + 4 + 4 * (k / 2), (u32::MAX - 1 - k % 2, u16::MAX - k as u16))));
    Random::new(seed).shuffle(&mut pairs);
    let mut twin = Twin::new(vec![0; 4 * 512], format!("code {code}, {before} before, {own} own, {after} after"));
    assert!(twin.format(40, seed as u32, 0).done());
    for (hash, (block, offset)) in pairs {
        assert!(twin.insert(hash, block, offset.into()).done(), "{}", twin.label);
    }
    twin
}

/// A lookup of all places under a code.
fn looked_up(twin: &Twin, code: u32) -> Vec<Place> {
    let (reply, places) = twin.lookup(code, 6 * 40);
    assert_eq!(reply, Reply { gives: places.len() as u32, ..Reply::default() }, "{}", twin.label);
    places
}

/// Every call on the run of `code`, which has the places of `own` entries.
fn calls(twin: &Twin, code: u32, (before, own, after): Shape) {
    let places: Vec<Place> = (0..own).map(place).collect();
    assert_eq!(looked_up(twin, code), places, "{}", twin.label);
    // Codes without entries, just before and after the run's.
    for near in [code.wrapping_sub(2), code.wrapping_add(2)] {
        assert_eq!(looked_up(twin, near), [], "{}, code {near}", twin.label);
        assert_eq!(twin.clone().remove(near, 1, 50), ABSENT, "{}, code {near}", twin.label);
    }
    for &(block, offset) in &places {
        let mut twin = twin.clone();
        assert_eq!(twin.insert(code, block, offset.into()), HELD, "{}", twin.label);
        assert!(twin.remove(code, block, offset.into()).done(), "{}", twin.label);
        let others: Vec<Place> = places.iter().copied().filter(|&other| other != (block, offset)).collect();
        assert_eq!(looked_up(&twin, code), others, "{}", twin.label);
    }
    for (block, offset) in gaps(own) {
        let mut twin = twin.clone();
        assert_eq!(twin.remove(code, block, offset.into()), ABSENT, "{}", twin.label);
        if before + own + after < 40 {
            assert!(twin.insert(code, block, offset.into()).done(), "{}", twin.label);
            let mut with = [&places[..], &[(block, offset)]].concat();
            with.sort_unstable();
            assert_eq!(looked_up(&twin, code), with, "{}", twin.label);
        }
    }
}

#[test]
fn runs_anywhere_in_a_page() {
    let shapes = shapes();
    assert!(shapes.len() > 250, "{}", shapes.len());
    for (seed, &shape) in (0..).zip(&shapes) {
        let code = [1_000, 1_001, 0x8000_0000][seed as usize % 3];
        calls(&page(seed, code, shape), code, shape);
    }
}

#[test]
fn runs_of_the_least_and_the_greatest_code() {
    let shapes = shapes();
    let least = shapes.iter().filter(|shape| shape.0 == 0).map(|&shape| (0, shape));
    let greatest = shapes.iter().filter(|shape| shape.2 == 0).map(|&shape| (u32::MAX, shape));
    for (seed, (code, shape)) in (0..).zip(least.chain(greatest)) {
        calls(&page(seed, code, shape), code, shape);
    }
}
