//! Store numbers: blocks from another store or at another place, changed numbers, and what does not depend on them.

use compare::build::sound;
use compare::lists::{Call, Maker};
use compare::numbered::unnumbered;
use compare::random::Random;
use compare::seal::{block, check, lowest_wrong, number, seal, seal_all, set_number, NUMBER, UNSEEN};
use compare::side::Reply;
use compare::twin::Twin;

/// A sound store with this number.
fn with_number(store: &[u8], number: u32) -> Vec<u8> {
    let mut store = store.to_vec();
    set_number(&mut store, number);
    seal_all(&mut store);
    store
}

/// Sound stores of several sizes, in each phase.
fn stores(seed: u64) -> impl Iterator<Item = (Random, Vec<u8>)> {
    [(4, 30), (7, 60), (12, 40), (24, 90), (128, 40)].into_iter().zip(seed..).map(|((blocks, crowd), seed)| {
        let mut random = Random::new(seed);
        let store = sound(&mut random, blocks, seed as u32 % 3, crowd);
        (random, store)
    })
}

fn blocks(store: &[u8]) -> std::ops::Range<usize> {
    0..store.len() / 512
}

fn put_block(store: &mut [u8], at: usize, block: &[u8]) {
    store[512 * at..512 * (at + 1)].copy_from_slice(block);
}

/// Both sides say of a store what its checks say bit by bit, in every call: the lowest wrong block is this one.
fn damaged(store: &[u8], wrong: usize, label: String) {
    let verdict = Reply::refused(3, wrong as u32);
    assert_eq!(lowest_wrong(store), Some(wrong as u32), "{label}");
    let twin = Twin::new(store.to_vec(), label);
    assert_eq!(twin.verify(), verdict, "{}", twin.label);
    assert_eq!((twin.standing().0, twin.lookup(5, 60).0), (verdict, verdict), "{}", twin.label);
    assert_eq!((twin.clone().insert(5, 7, 1), twin.clone().remove(5, 7, 1)), (verdict, verdict), "{}", twin.label);
    assert_eq!(twin.clone().work(3), verdict, "{}", twin.label);
    assert_eq!(twin.clone().squeeze(0, 3), verdict, "{}", twin.label);
}

#[test]
fn blocks_of_another_store() {
    for (mut random, store) in stores(14_000) {
        let (one, two) = (random.store_number(), random.number());
        let store = with_number(&store, one);
        let other = sound(&mut random, store.len() as u32 / 512, 1, 50);
        for other in [with_number(&store, two), with_number(&other, two)] {
            for at in blocks(&store) {
                let mut mixed = store.clone();
                put_block(&mut mixed, at, block(&other, at));
                // The other store's block 0 is right by its own number, and under that one the next is not.
                damaged(&mixed, at.max(1), format!("block {at} of store {two} in {one}"));
            }
            let mut mixed = store.clone();
            let places: Vec<usize> = blocks(&store).skip(1).filter(|_| random.once_in(2)).collect();
            places.iter().for_each(|&at| put_block(&mut mixed, at, block(&other, at)));
            if let Some(&lowest) = places.first() {
                damaged(&mixed, lowest, format!("blocks {places:?} of store {two} in {one}"));
            }
        }
    }
}

/// A block of another store with the same number has a right check: 3 is not the answer.
#[test]
fn blocks_of_a_store_with_the_same_number() {
    for (mut random, store) in stores(14_100) {
        let other = sound(&mut random, store.len() as u32 / 512, 1, 50);
        let other = with_number(&other, number(&store));
        for at in blocks(&store) {
            let mut mixed = store.clone();
            put_block(&mut mixed, at, block(&other, at));
            let twin = Twin::new(mixed, format!("block {at} of store {}", number(&store)));
            assert_ne!(twin.verify().number, 3, "{}", twin.label);
        }
    }
}

#[test]
fn blocks_at_another_place() {
    for (mut random, store) in stores(14_200) {
        let all = blocks(&store);
        let pairs: Vec<(usize, usize)> = all.clone().flat_map(|from| all.clone().map(move |to| (from, to))).collect();
        for (from, to) in pairs.into_iter().filter(|(from, to)| from != to) {
            if all.len() > 24 && !random.once_in(60) {
                continue;
            }
            let mut copied = store.clone();
            put_block(&mut copied, to, block(&store, from));
            damaged(&copied, to, format!("block {from} of {} in place of {to}", all.len()));
            put_block(&mut copied, from, block(&store, to));
            damaged(&copied, from.min(to), format!("blocks {from} and {to} of {} exchanged", all.len()));
        }
    }
}

/// Number and place both others: for two places there is one change of the number with which a block passes, whatever
/// it holds; with any other change it does not. From place 1 to 2 it is 0x0E349B13.
#[test]
fn blocks_at_another_place_of_another_store() {
    const CHANGE: u32 = 0x0E34_9B13;
    for (mut random, store) in stores(14_250) {
        for one in [0, 7, u32::MAX, random.number()] {
            let from = with_number(&store, one);
            let mixed = |number: u32| {
                let mut mixed = with_number(&store, number);
                put_block(&mut mixed, 2, block(&from, 1));
                mixed
            };
            let twin = Twin::new(mixed(one ^ CHANGE), format!("block 1 of store {one} as block 2"));
            assert_eq!(lowest_wrong(&mixed(one ^ CHANGE)), None, "{}", twin.label);
            assert_eq!(twin.verify(), Reply::refused(4, 3), "{}", twin.label);
            for other in [one, one ^ 1, one ^ CHANGE ^ 1, one ^ CHANGE ^ 1 << 31, random.number()] {
                damaged(&mixed(other), 2, format!("block 1 of store {one} as block 2 of {other}"));
            }
        }
    }
}

/// The block of a changed number alone: block 0, but for one change.
#[test]
fn changed_numbers() {
    for (mut random, store) in stores(14_300) {
        for one in [0, 1, u32::MAX, UNSEEN, random.number()] {
            let store = with_number(&store, one);
            let near = (0..32).map(|bit| UNSEEN ^ 1 << bit);
            let mut changes: Vec<u32> = (0..32).map(|bit| 1 << bit).chain(near).collect();
            changes.extend([u32::MAX, 0x0101_0101, random.number(), random.number()]);
            for change in changes {
                let mut changed = store.clone();
                set_number(&mut changed, one ^ change);
                damaged(&changed, 0, format!("number {one} changed by {change:#x}"));
            }
            let mut changed = store.clone();
            set_number(&mut changed, one ^ UNSEEN);
            damaged(&changed, 1, format!("number {one} changed by {UNSEEN:#x}"));
            // With the other blocks sealed anew nothing is wrong, though nobody sealed block 0.
            blocks(&store).skip(1).for_each(|at| seal(&mut changed, at));
            assert_eq!(block(&changed, 0)[508..], block(&store, 0)[508..]);
            assert!(Twin::new(changed, format!("number {one} changed by {UNSEEN:#x}")).verify().done());
        }
    }
}

/// What a change of the number does to block 0's check does not depend on the block, and the change by two bits is what
/// both do: so the changes that it does not show are found by elimination. There is one.
#[test]
fn one_change_is_not_seen() {
    let shown = |change: u32| {
        let mut store = vec![0; 512];
        set_number(&mut store, change);
        check(change, 0, &store) ^ check(0, 0, &[0; 512])
    };
    let mut rows: Vec<(u32, u32)> = (0..32).map(|bit| (shown(1 << bit), 1 << bit)).collect();
    for bit in 0..32 {
        let Some(found) = rows.iter().position(|row| row.0 >> bit & 1 == 1) else { continue };
        let (check, change) = rows.swap_remove(found);
        for row in rows.iter_mut().filter(|row| row.0 >> bit & 1 == 1) {
            *row = (row.0 ^ check, row.1 ^ change);
        }
    }
    assert_eq!(rows, [(0, UNSEEN)]);
}

#[test]
fn zero_bytes_of_the_meta_block() {
    for (mut random, store) in stores(14_400) {
        for at in (14..16).chain(104..492) {
            let mut store = store.clone();
            let label = format!("byte {at}, N {}", store.len() / 512);
            store[at] ^= random.within(1, 255) as u8;
            seal_all(&mut store);
            let twin = Twin::new(store, label);
            let wanted = if (NUMBER..NUMBER + 4).contains(&at) { Reply::default() } else { Reply::refused(4, 1) };
            assert_eq!(twin.verify(), wanted, "{}", twin.label);
        }
    }
}

/// A store as document 01 has it, with checks that cover no numbers, is damaged in block 0.
#[test]
fn stores_without_numbers() {
    for (_, store) in stores(14_700) {
        let blocks = store.len() / 512;
        damaged(&unnumbered(&with_number(&store, 0), 0), 0, format!("{blocks} blocks of document 01"));
    }
}

#[test]
fn formats() {
    let mut random = Random::new(14_500);
    let mut twin = Twin::new((0..10 * 512).map(|_| random.word() as u8).collect(), "formats");
    for one in [0, u32::MAX, 1, 0x8000_0000, 0, random.number(), UNSEEN, u32::MAX] {
        assert!(twin.format(7, one, 1).done(), "number {one}");
        assert_eq!((number(twin.bytes()), lowest_wrong(twin.bytes())), (one, None), "number {one}");
        assert!(twin.insert(5, 7, 1).done() && twin.verify().done(), "number {one}");
        assert_eq!(twin.format(0, one ^ 1, 1), Reply::refused(2, 0), "number {one}");
        assert_eq!(twin.lookup(5, 6).1, [(7, 1)], "number {one}");
        let checks: Vec<&[u8]> = (6..10).map(|at| &block(twin.bytes(), at)[508..]).collect();
        assert!((1..4).all(|i| checks[0] != checks[i]), "unused blocks with one check: {checks:?}");
    }
}

/// The bytes of a store but for its number and its checks.
fn bare(store: &[u8]) -> Vec<u8> {
    let mut bare = store.to_vec();
    set_number(&mut bare, 0);
    bare.chunks_exact_mut(512).for_each(|block| block[508..].fill(0));
    bare
}

/// Makes a call on stores that differ in their numbers and checks alone, and still do so afterwards.
fn alike(twins: &mut [Twin], numbers: &[u32], call: Call) -> Reply {
    let answers: Vec<_> = match call {
        Call::Lookup(hash, room) => twins.iter().map(|twin| twin.lookup(hash, room)).collect(),
        Call::Format(fill, _, overwrite) => {
            let formats = twins.iter_mut().zip(numbers);
            formats.map(|(twin, &number)| (twin.format(fill, number, overwrite), vec![])).collect()
        }
        call => twins.iter_mut().map(|twin| (call.make(twin), vec![])).collect(),
    };
    let bytes = bare(twins[0].bytes());
    for (twin, answer) in twins.iter().zip(&answers) {
        assert_eq!(answer, &answers[0], "{}: {call:?}", twin.label);
        assert_eq!(twin.standing(), twins[0].standing(), "{}: {call:?}", twin.label);
        assert!(bare(twin.bytes()) == bytes, "{}: {call:?}: other bytes", twin.label);
    }
    answers[0].0
}

#[test]
fn the_same_under_every_number() {
    for seed in 0..6 {
        let mut maker = Maker::new(14_600 + seed, 4 + 30 * (seed as u32 % 2), 60, seed % 3 == 0);
        let numbers = [0, 1, u32::MAX, UNSEEN, maker.random.number()];
        let blocks = 5 + 7 * seed as usize;
        let label = |number| format!("seed {seed}, N {blocks}, number {number}");
        let mut twins: Vec<Twin> = numbers.iter().map(|n| Twin::new(vec![9; blocks * 512], label(n))).collect();
        for calls in [400, 20] {
            let format = Call::Format(1 + seed as u32 % 5, 0, 1);
            assert!(alike(&mut twins, &numbers, format).done(), "seed {seed}: {format:?}");
            for _ in 0..calls {
                let call = maker.call();
                let reply = alike(&mut twins, &numbers, call);
                maker.note(call, reply);
            }
            for (twin, one) in twins.iter().zip(numbers) {
                assert_eq!((number(twin.bytes()), lowest_wrong(twin.bytes())), (one, None), "{}", twin.label);
                assert!(twin.verify().done(), "{}", twin.label);
            }
        }
    }
}
