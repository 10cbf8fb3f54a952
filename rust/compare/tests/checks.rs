//! The check of a block on both sides, each by a table of its own, against the check bit by bit.

use compare::random::Random;
use compare::seal::{check, crc32c, number, seal, seal_all, set_number};
use compare::side::Reply;
use compare::twin::Twin;

/// Random bytes in blocks with right checks.
fn random_blocks(seed: u64, blocks: usize) -> Vec<u8> {
    let mut random = Random::new(seed);
    let mut store: Vec<u8> = (0..blocks * 512).map(|_| random.below(256) as u8).collect();
    set_number(&mut store, random.store_number());
    seal_all(&mut store);
    store
}

fn verdict(store: &[u8], label: String) -> Reply {
    Twin::new(store.to_vec(), label).verify()
}

#[test]
fn right_checks_of_any_bytes() {
    for seed in 0..20 {
        let store = random_blocks(seed, if seed < 4 { 1024 } else { 128 });
        assert_eq!(verdict(&store, format!("seed {seed}")), Reply::refused(4, 1));
        assert!(store.chunks_exact(512).all(|block| ordinary::crc32c(&block[..508]) == crc32c(&block[..508])));
    }
}

#[test]
fn any_one_bit_damages_its_block() {
    let mut store = random_blocks(99, 4);
    for place in 0..store.len() {
        for bit in 0..8 {
            store[place] ^= 1 << bit;
            let damaged = Reply::refused(3, place as u32 / 512);
            assert_eq!(verdict(&store, format!("byte {place}, bit {bit}")), damaged);
            store[place] ^= 1 << bit;
        }
    }
}

/// Where one byte of a block goes through all values, the step of that byte goes through the whole table.
#[test]
fn every_number_of_a_table() {
    for at in [0, 1, 100, 506, 507] {
        let mut store = random_blocks(at as u64, 4);
        for byte in 0..=255 {
            store[512 + at] = byte;
            seal(&mut store, 1);
            assert_eq!(verdict(&store, format!("byte {at} of block 1 is {byte}")), Reply::refused(4, 1));
        }
    }
}

/// The same with the bytes of the store's number.
#[test]
fn every_byte_of_a_store_number() {
    let mut store = random_blocks(0, 4);
    for at in 0..4 {
        for byte in 0..=255 {
            let mut bytes = number(&store).to_le_bytes();
            bytes[at] = byte;
            set_number(&mut store, u32::from_le_bytes(bytes));
            seal_all(&mut store);
            assert_eq!(verdict(&store, format!("byte {at} of the number is {byte}")), Reply::refused(4, 1));
        }
    }
}

#[test]
fn checks_that_calls_write() {
    let mut twin = Twin::new(vec![0xA5; 64 * 512], "written");
    let mut random = Random::new(3);
    let mut pairs = Vec::new();
    let number = 0xA1B2_C3D4;
    let mut squeezed = 0;
    assert!(twin.format(5, number, 0).done());
    for round in 0..60 {
        for _ in 0..10 {
            let pair = (random.below(40), random.number() >> 1, random.within(1, 65_535));
            if twin.insert(pair.0, pair.1, pair.2).done() {
                pairs.push(pair);
            }
        }
        let (hash, block, offset) = pairs.swap_remove(random.below(pairs.len() as u32) as usize);
        assert!(twin.remove(hash, block, offset).done());
        assert_eq!(twin.work(7).number, 0);
        squeezed += (0..3).map(|bucket| twin.squeeze(bucket, 9).steps).sum::<u32>();
        for (at, block) in twin.bytes().chunks_exact(512).enumerate() {
            assert_eq!(block[508..], check(number, at, block).to_le_bytes(), "round {round}, block {at}");
        }
    }
    assert!(squeezed > 0);
}
