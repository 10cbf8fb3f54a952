//! Squeezes (request 2026-01), by hand: what moves where, what is freed, and what is refused in which order.

use ordinary::bare::{insert, remove, squeeze, work};
use ordinary::{format, lookup, standing, verify, Phase, Refusal, Stop, Worked};

/// A chain of bucket 0 with so many entries on each page, put in place by inserts of full pages and removals. The pair
/// `i` of the page `p` has the hash code 4 (100 p + i). Overflow page p stands in block 3 + p, and has the bit p.
fn chain(blocks: usize, pages: &[u32]) -> Vec<u8> {
    let mut store = vec![0; blocks * 512];
    format(&mut store, 40, 26, 0).expect("format");
    let hashes = |page: u32, from: u32| (from..40).map(move |i| 4 * (100 * page + i));
    (0..).zip(pages).flat_map(|(page, _)| hashes(page, 0)).for_each(|hash| {
        insert(&mut store, hash, 9, 1).expect("insert");
    });
    (0..).zip(pages).flat_map(|(page, &len)| hashes(page, len)).for_each(|hash| {
        remove(&mut store, hash, 9, 1).expect("remove");
    });
    store
}

/// The hash codes of a block's page, over 4.
fn codes(store: &[u8], block: usize) -> Vec<u32> {
    let page = &store[512 * block..][..512];
    let code = |entry: &[u8]| u32::from_le_bytes([entry[0], entry[1], entry[2], entry[3]]) / 4;
    page[4..].chunks_exact(12).take(page[0].into()).map(code).collect()
}

fn next(store: &[u8], block: usize) -> u32 {
    let at = 512 * block + 496;
    u32::from_le_bytes([store[at], store[at + 1], store[at + 2], store[at + 3]])
}

/// First free, and the bitmap's first byte.
fn free(store: &[u8]) -> (u8, u8) {
    (store[32], store[3 * 512])
}

fn worked(steps: u32, stop: Stop) -> Result<Worked, Refusal> {
    Ok(Worked { steps, stop })
}

#[test]
fn step_by_step() {
    let mut store = chain(8, &[38, 40, 39, 3]);
    assert_eq!((codes(&store, 6), next(&store, 5), free(&store)), (vec![300, 301, 302], 6, (4, 0xFF)));
    // The bucket page has room for two, and then the third page for one.
    for (step, moved, to) in [(1, 302, 1), (2, 301, 1)] {
        assert_eq!(squeeze(&mut store, 0, 1), worked(1, Stop::Spent), "step {step}");
        assert!(codes(&store, to).contains(&moved), "step {step}");
        assert_eq!((codes(&store, 6).len(), verify(&store)), (3 - step, Ok(())), "step {step}");
    }
    assert_eq!((codes(&store, 1).len(), codes(&store, 4).len(), codes(&store, 5).len()), (40, 40, 39));
    assert_eq!(squeeze(&mut store, 0, 1), worked(1, Stop::Spent));
    assert_eq!((codes(&store, 5).last(), next(&store, 5), free(&store)), (Some(&300), u32::MAX, (3, 0xF7)));
    assert!(store[6 * 512..7 * 512 - 4].iter().all(|&byte| byte == 0));
    assert_eq!((squeeze(&mut store, 0, 1), squeeze(&mut store, 0, 0)), (worked(0, Stop::Idle), worked(0, Stop::Spent)));
    assert_eq!((standing(&store).map(|now| now.count), verify(&store)), (Ok(120), Ok(())));
    // The freed page is taken again.
    insert(&mut store, 4, 10, 1).expect("insert");
    assert_eq!((codes(&store, 6), next(&store, 5), free(&store)), (vec![1], 6, (4, 0xFF)));
}

#[test]
fn sorted_places() {
    let mut store = chain(6, &[40, 3]);
    for hash in [4 * 20, 4 * 39, 0] {
        remove(&mut store, hash, 9, 1).expect("remove");
    }
    insert(&mut store, 4 * 200, 9, 1).expect("insert");
    // The code 200 went to the bucket page. Two of the three on the last page go between it and the others.
    assert_eq!(squeeze(&mut store, 0, 65_535), worked(2, Stop::Idle));
    let wanted: Vec<u32> = (1..39).filter(|&code| code != 20).chain([101, 102, 200]).collect();
    assert_eq!((codes(&store, 1), codes(&store, 4)), (wanted, vec![100]));
    let mut output = [0; 6];
    assert_eq!(lookup(&store, 4 * 102, &mut output), Ok(1));
}

/// An empty bucket page and one full overflow page: 40 steps, and a budget of 40 is spent then.
#[test]
fn into_an_empty_bucket_page() {
    let store = chain(5, &[0, 40]);
    let squeezed = |budget| {
        let mut store = store.clone();
        (squeeze(&mut store, 0, budget), store)
    };
    let (answer, end) = squeezed(41);
    assert_eq!((answer, squeezed(40)), (worked(40, Stop::Idle), (worked(40, Stop::Spent), end.clone())));
    assert_eq!((codes(&end, 1), next(&end, 1), free(&end)), ((100..140).collect(), u32::MAX, (1, 0xFD)));
    assert_eq!(squeezed(39).0, worked(39, Stop::Spent));
}

#[test]
fn refusals_in_order() {
    let mut store = chain(8, &[38, 3]);
    let mut damaged = store.clone();
    damaged[4 * 512 + 9] ^= 1;
    for (bucket, budget) in [(0, 0), (2, 5), (u32::MAX, 65_535)] {
        assert_eq!(squeeze(&mut store[..7 * 512 + 1], bucket, u32::MAX), Err(Refusal::Length));
        assert_eq!(squeeze(&mut damaged, bucket, 65_536), Err(Refusal::Number));
        assert_eq!(squeeze(&mut damaged, bucket, budget), Err(Refusal::Damaged(4)));
        assert_eq!(squeeze(&mut store[..7 * 512], bucket, budget), Err(Refusal::NotAnIndex(1)));
        assert_eq!(squeeze(&mut store, bucket.max(2), budget), Err(Refusal::Number));
    }
    assert_eq!((squeeze(&mut store, 1, 7), Refusal::Busy.number()), (worked(0, Stop::Idle), 11));
}

/// Both buckets of a job are busy while copying and while clearing, and no other is.
#[test]
fn busy() {
    let mut store = vec![0; 16 * 512];
    format(&mut store, 3, 26, 0).expect("format");
    for hash in 0..9 {
        insert(&mut store, hash, 9, 1).expect("insert");
    }
    let mut seen = [0; 3];
    while work(&mut store, 1) == worked(1, Stop::Spent) {
        let now = standing(&store).expect("a sound store");
        let (phase, job) = match now.phase {
            Phase::None => (0, vec![]),
            Phase::Copying { old, new } => (1, vec![old, new]),
            Phase::Clearing { old, new } => (2, vec![old, new]),
        };
        seen[phase] += 1;
        for bucket in 0..now.buckets {
            let busy = job.contains(&bucket);
            assert_eq!(squeeze(&mut store, bucket, 0), if busy { Err(Refusal::Busy) } else { worked(0, Stop::Spent) });
            assert_eq!(squeeze(&mut store, bucket, 1), if busy { Err(Refusal::Busy) } else { worked(0, Stop::Idle) });
        }
        assert_eq!(squeeze(&mut store, now.buckets, 0), Err(Refusal::Number));
    }
    assert!(seen.iter().all(|&times| times > 0), "{seen:?}");
}
