//! Standing through the function for C, with results of several lengths: the word, the bytes that it writes, and that
//! a refusal writes none.

use compare::build::sound;
use compare::foreign::c::amiqsovik_standing;
use compare::random::Random;
use compare::side::{Ordinary, Side};
use compare::spoil::{damage, spoil};
use compare::twin::wiped;
use std::collections::BTreeSet;

const LENGTHS: [usize; 7] = [0, 1, 27, 28, 29, 30, 64];
const BLANK: [u8; 64] = [0x5A; 64];
/// The word for a result of less than 28 bytes: 255, which gives 28.
const SHORT: u64 = 28 << 32 | 255;

/// The word that is answered when the first `length` bytes of a result are lent, and what stands in the result then.
fn lent(store: &[u8], length: usize) -> (u64, [u8; 64]) {
    let mut result = BLANK;
    assert!(length <= result.len());
    // SAFETY: each pointer is that of a slice, with at most its length, and the slices do not overlap.
    let word = unsafe { amiqsovik_standing(store.as_ptr(), store.len(), result.as_mut_ptr(), length) };
    (word, result)
}

/// The same by the ordinary index: its values are written only if it is done.
fn wanted(store: &[u8], length: usize) -> (u64, [u8; 64]) {
    if length < 28 {
        return (SHORT, BLANK);
    }
    let (reply, now) = Ordinary::standing(store);
    let mut result = BLANK;
    if reply.done() {
        let numbers = [now.count, now.buckets, now.phase, now.old, now.new];
        let bytes = numbers.into_iter().flat_map(u32::to_le_bytes).chain(now.slack.to_le_bytes());
        result.iter_mut().zip(bytes).for_each(|(place, byte)| *place = byte);
    }
    (u64::from(reply.gives) << 32 | u64::from(reply.number), result)
}

/// A store of five blocks with three pairs at fill 1.
fn made() -> Vec<u8> {
    let mut store = vec![0; 5 * 512];
    assert!(Ordinary::format(&mut store, 1, 5, 0).done());
    for hash in 0..3 {
        assert!(Ordinary::insert(&mut store, &mut wiped(), hash, 7, 1).done());
    }
    store
}

#[test]
fn done() {
    let store = made();
    let values = [3, 0, 0, 0, 2, 0, 0, 0, 0, 0, 0, 0, 0, 0, 0, 0, 0, 0, 0, 0, 255, 255, 255, 255, 255, 255, 255, 255];
    for length in LENGTHS {
        let (word, result) = lent(&store, length);
        if length < 28 {
            assert_eq!((word, result), (SHORT, BLANK), "{length}");
        } else {
            assert_eq!((word, &result[..28], &result[28..]), (0, &values[..], &BLANK[28..]), "{length}");
        }
    }
}

#[test]
fn refused() {
    let store = made();
    let mut damaged = store.clone();
    damaged[2 * 512 + 9] ^= 1;
    let refusals = [
        (&store[..0], 1),
        (&store[..7], 1),
        (&store[..3 * 512], 1),
        (&damaged[..], 2 << 32 | 3),
        // All checks are right, but the meta block says that there are five blocks.
        (&store[..4 * 512], 1 << 32 | 4),
    ];
    for (store, refusal) in refusals {
        for length in LENGTHS {
            let word = if length < 28 { SHORT } else { refusal };
            assert_eq!(lent(store, length), (word, BLANK), "{} bytes, result of {length}", store.len());
        }
    }
}

#[test]
fn as_the_ordinary_index() {
    let mut seen = BTreeSet::new();
    for seed in 0..400 {
        let mut random = Random::new(8000 + seed);
        let blocks = random.within(4, 24);
        let mut store = sound(&mut random, blocks, seed as u32 % 3, 40);
        match random.below(3) {
            0 => damage(&mut random, &mut store),
            1 => spoil(&mut random, &mut store),
            _ => {}
        }
        for length in LENGTHS {
            let (word, result) = lent(&store, length);
            assert_eq!((word, result), wanted(&store, length), "seed {seed}, result of {length}");
            seen.insert((word as u8, result[8]));
        }
    }
    // Sound stores in each phase, damaged ones, ones with a broken rule, and short results.
    for wanted in [(0, 0), (0, 1), (0, 2), (3, 0x5A), (4, 0x5A), (255, 0x5A)] {
        assert!(seen.contains(&wanted), "{wanted:?} is not in {seen:?}");
    }
}
