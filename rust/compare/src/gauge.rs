//! What a gauge has to show, worked out in whole numbers.

use crate::side::Gauge;

/// The bits of `a / b`, rounded once to binary64: the nearest number, and of two that are as near the even one. `b` is
/// above 0.
pub fn rounded(a: u32, b: u32) -> u64 {
    const SHIFT: u32 = 90;
    let (a, b) = (u128::from(a) << SHIFT, u128::from(b));
    let (whole, rest) = (a / b, a % b);
    if whole == 0 {
        return 0;
    }
    // More than 53 digits, since both numbers have at most 32.
    let mut dropped = whole.ilog2() - 52;
    let (mut kept, below) = (whole >> dropped, whole % (1 << dropped));
    let half = 1 << (dropped - 1);
    let tie = below == half && rest == 0;
    if below > half || below == half && rest > 0 || tie && kept % 2 == 1 {
        kept += 1;
    }
    if kept == 1 << 53 {
        (kept, dropped) = (1 << 52, dropped + 1);
    }
    let exponent = u64::from(1023 + 52 + dropped - SHIFT);
    exponent << 52 | (kept as u64 - (1 << 52))
}

/// The pages that stand in chains, in a sound store: all its bucket and overflow pages.
pub fn pages(store: &[u8]) -> u32 {
    store.chunks_exact(512).filter(|block| matches!(block[504] % 4, 1 | 2)).count() as u32
}

/// The gauge of a sound store that holds so many pairs in so many buckets.
pub fn shown(store: &[u8], held: usize, buckets: u32) -> Gauge {
    [buckets, 40 * pages(store)].map(|by| rounded(held as u32, by))
}
