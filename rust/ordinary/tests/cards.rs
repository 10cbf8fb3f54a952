//! Document 01's bench cards C to K, and the ends of stores of 1,024 blocks (request 2026-09). Cards A and B are on
//! addresses, and are reached through the stores that the calls make.

use ordinary::bare::{insert, remove, work};
use ordinary::{format, lookup, standing, Phase, Refusal, Stop, Worked};

fn made(blocks: usize, fill: u32, hashes: &[u32]) -> Vec<u8> {
    let mut store = vec![0; blocks * 512];
    format(&mut store, fill, 26, 0).expect("format");
    for &hash in hashes {
        insert(&mut store, hash, 9, 1).expect("insert");
    }
    store
}

fn spare(store: &[u8], i: usize) -> u8 {
    store[40 + 4 * i]
}

fn worked(steps: u32, stop: Stop) -> Result<Worked, Refusal> {
    Ok(Worked { steps, stop })
}

#[test]
fn c_smallest_store() {
    assert_eq!(format(&mut [0; 4 * 512], 1, 0, 0), Ok(()));
    assert_eq!(format(&mut [0; 3 * 512], 1, 0, 0), Err(Refusal::Length));
}

#[test]
fn largest_store() {
    assert_eq!(format(&mut vec![0; 1024 * 512], 1, 0, 0), Ok(()));
    assert_eq!(format(&mut vec![0; 1025 * 512], 1, 0, 0), Err(Refusal::Length));
}

#[test]
fn d_no_room() {
    let even: Vec<u32> = (0..40).map(|i| 2 * i).collect();
    let mut store = made(4, 40, &even);
    assert_eq!(insert(&mut store, 80, 9, 1), Err(Refusal::NoRoom));
    assert_eq!(insert(&mut store, 81, 9, 1), Ok(()));
}

#[test]
fn e_f_overflow_page_made_freed_and_used_again() {
    let even: Vec<u32> = (0..41).map(|i| 2 * i).collect();
    let mut store = made(5, 40, &even);
    assert_eq!(spare(&store, 1), 2);
    assert_eq!(store[4 * 512], 1);
    assert_eq!(remove(&mut store, 80, 9, 1), Ok(()));
    assert_eq!((store[3 * 512], store[32], store[4 * 512]), (0xFD, 1, 0));
    assert_eq!(insert(&mut store, 82, 9, 1), Ok(()));
    assert_eq!((store[3 * 512], store[32], store[4 * 512]), (0xFF, 2, 1));
}

#[test]
fn g_h_split_with_and_without_room() {
    let mut store = made(6, 1, &[0, 2, 4]);
    assert_eq!(standing(&store).map(|now| now.slack), Ok(-1));
    assert_eq!(work(&mut store, 9), worked(5, Stop::Idle));
    assert_eq!(work(&mut made(5, 1, &[0, 2, 4]), 9), worked(0, Stop::NoRoom));
}

#[test]
fn i_removal_while_copying() {
    let mut store = made(6, 1, &[0, 2, 4]);
    assert_eq!(work(&mut store, 2), worked(2, Stop::Spent));
    assert_eq!(standing(&store).map(|now| now.phase), Ok(Phase::Copying { old: 0, new: 2 }));
    assert_eq!(lookup(&store, 2, &mut [0; 60]), Ok(1));
    assert_eq!(remove(&mut store, 2, 9, 1), Ok(()));
    assert_eq!(lookup(&store, 2, &mut [0; 60]), Ok(0));
    assert_eq!(work(&mut store, 9), worked(2, Stop::Idle));
}

#[test]
fn j_k_nothing_to_give_and_nothing_to_do() {
    let mut store = made(6, 1, &[0, 2, 4]);
    assert_eq!(lookup(&store, 1, &mut []), Ok(0));
    assert_eq!(work(&mut store, 0), worked(0, Stop::Spent));
}

/// By inserts and work alone, 1,024 blocks get to 896 buckets, and to no more.
#[test]
fn as_many_buckets_as_1024_blocks_have_room_for() {
    let mut store = made(1024, 1, &[]);
    for hash in 0..897 {
        insert(&mut store, hash, 9, 1).expect("insert");
        if hash % 128 == 0 {
            assert_eq!(
                work(&mut store, 65_535).map(|did| did.stop),
                Ok(if hash < 896 { Stop::Idle } else { Stop::NoRoom })
            );
        }
    }
    let now = standing(&store).expect("standing");
    assert_eq!((now.buckets, now.slack, now.phase, store[28]), (896, -1, Phase::None, 12));
}
