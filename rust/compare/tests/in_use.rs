//! Stores in use: what format and in_use say of sound stores with pairs and without, and of stores that are not sound.

use compare::build::{found, sound};
use compare::foreign;
use compare::random::Random;
use compare::seal::{check, number, seal_all, set_number, UNSEEN};
use compare::side::Reply;
use compare::spoil::{damage, spoil};
use compare::stores::{chain, copying, copying_one_code, crowd, even, leaving, longest, wanting, Order, Split};
use compare::twin::Twin;
use std::collections::BTreeMap;

const DONE: Reply = Reply { number: 0, gives: 0, steps: 0, stop: 0 };
const LENGTH: Reply = Reply { number: 1, ..DONE };
const NUMBER: Reply = Reply { number: 2, ..DONE };
const IN_USE: Reply = Reply { number: 12, ..DONE };

/// A format of a copy of a store, on both sides and by the function for C, whose word has the number alone. Gives the
/// answer; the twin sees to it that a refusal changes no byte. What is done is the same over any bytes.
fn format(twin: &Twin, fill: u32, number: u32, overwrite: u32) -> Reply {
    let label = format!("{}: format {fill} {number} {overwrite}", twin.label);
    let (mut copy, mut bytes) = (twin.clone(), twin.bytes().to_vec());
    let reply = copy.format(fill, number, overwrite);
    assert_eq!(foreign::format(&mut bytes, fill, number, overwrite), reply.number.into(), "{label}");
    assert!(bytes == copy.bytes(), "{label}: other bytes by the function for C");
    if reply.done() {
        let mut fresh = Twin::new(vec![0; bytes.len()], &label);
        assert!(fresh.format(fill, number, 1).done() && bytes == fresh.bytes(), "{label}: not as over zeros");
    }
    reply
}

/// What in_use says of a store, by its verdict and its count; each format says what follows from it.
fn judged(random: &mut Random, twin: &Twin) -> Reply {
    let (verdict, count) = (twin.verify(), twin.standing().1.count);
    let wanted = match verdict.number {
        0 if count != 0 => IN_USE,
        1 => LENGTH,
        _ => DONE,
    };
    assert_eq!(twin.in_use(), wanted, "{}", twin.label);
    assert_eq!(foreign::in_use(twin.bytes()), wanted.number.into(), "{}", twin.label);
    let (fill, number) = (random.within(1, 40), random.store_number());
    assert_eq!(format(twin, fill, number, 0), wanted, "{}", twin.label);
    let (over, bad) = if wanted == LENGTH { (LENGTH, LENGTH) } else { (DONE, NUMBER) };
    assert_eq!(format(twin, fill, number, 1), over, "{}", twin.label);
    let bad_fill = random.pick(&[0, 41, 65_536 + fill, u32::MAX]);
    for overwrite in [2, 3, u32::MAX] {
        assert_eq!(format(twin, fill, number, overwrite), bad, "{}", twin.label);
        assert_eq!(format(twin, bad_fill, number, overwrite), bad, "{}", twin.label);
    }
    assert_eq!((format(twin, bad_fill, number, 0), format(twin, bad_fill, number, 1)), (bad, bad), "{}", twin.label);
    wanted
}

#[test]
fn live_stores() {
    let mut random = Random::new(15_000);
    let mut stores =
        vec![copying(128), copying_one_code(128), leaving(128), chain(128, 125), wanting(16), wanting(128)];
    stores.extend([
        even(4, 2, 20, Split::Over),
        even(64, 32, 28, Split::Copying),
        even(128, 64, 28, Split::Over),
        crowd(128, 5_000, Order::Interleaved),
    ]);
    stores.extend([even(1024, 512, 28, Split::Wanted), copying(1024), longest(1024, 0)]);
    stores.extend([crowd(128, 1, Order::Ascending), crowd(4, 40, Order::Ascending)]);
    for (i, store) in stores.into_iter().enumerate() {
        assert_eq!(judged(&mut random, &Twin::new(store, format!("live {i}"))), IN_USE, "live {i}");
    }
}

/// Sound stores of all phases, with pairs and without.
#[test]
fn built_stores() {
    let mut seen: BTreeMap<(u32, u8), u32> = BTreeMap::new();
    for seed in 0..240 {
        let mut random = Random::new(15_100 + seed);
        let blocks = random.within(4, 30);
        let crowd = random.pick(&[0, 1, 30, 90]);
        let twin = Twin::new(sound(&mut random, blocks, seed as u32 % 3, crowd), format!("built {seed}"));
        assert!(twin.verify().done(), "{}", twin.label);
        *seen.entry((twin.standing().1.phase, judged(&mut random, &twin).number)).or_default() += 1;
    }
    for wanted in [(0, 0), (0, 12), (1, 0), (1, 12), (2, 0), (2, 12)] {
        assert!(seen.get(&wanted).is_some_and(|&times| times >= 10), "{wanted:?}: {seen:?}");
    }
}

/// After each step of a split, and then as the pairs go one by one: in use until the last one is gone, though there is
/// a job, and though while clearing the old bucket still has entries that are none of its own.
#[test]
fn every_step_and_every_removal() {
    const PAIRS: u32 = 7;
    let mut random = Random::new(15_200);
    let mut twin = Twin::new(vec![0; 9 * 512], "steps");
    assert!(twin.format(3, 9, 0).done());
    for i in 0..PAIRS {
        assert_eq!(judged(&mut random, &twin), if i == 0 { DONE } else { IN_USE });
        assert!(twin.insert(2 * i, 7, 1).done());
    }
    let mut empty = BTreeMap::new();
    // Hash codes 2, 6 and 10 move: a begin, three copies, the end of the copying, three entries cleared, the end.
    for step in 0..=9 {
        assert_eq!(judged(&mut random, &twin), IN_USE, "step {step}");
        let (mut left, phase) = (twin.clone(), twin.standing().1.phase);
        for i in 0..PAIRS {
            assert_eq!(judged(&mut random, &left), IN_USE, "step {step}, {i} removed");
            assert!(left.remove(2 * i, 7, 1).done(), "step {step}");
        }
        assert_eq!((judged(&mut random, &left), left.standing().1.phase), (DONE, phase), "step {step}");
        empty.entry(phase).or_insert_with(Vec::new).push(found(left.bytes()).count());
        assert_eq!(twin.work(1).steps, u32::from(step < 9));
    }
    assert_eq!(empty, BTreeMap::from([(0, vec![0, 0]), (1, vec![0; 4]), (2, vec![3, 2, 1, 0])]));
}

/// Damaged stores and stores with a rule broken are not in use, though readings are in them.
#[test]
fn spoilt_stores() {
    let mut seen: BTreeMap<(u8, u32, u8), u32> = BTreeMap::new();
    for seed in 0..1500 {
        let mut random = Random::new(15_300 + seed);
        let blocks = random.within(4, if seed % 8 == 0 { 40 } else { 14 });
        let crowd = random.pick(&[2, 20, 100]);
        let mut store = sound(&mut random, blocks, seed as u32 % 3, crowd);
        match seed % 5 {
            0 => damage(&mut random, &mut store),
            _ => spoil(&mut random, &mut store),
        }
        let readings = found(&store).next().is_some();
        let twin = Twin::new(store, format!("spoilt {seed}, N {blocks}"));
        let (verdict, answer) = (twin.verify(), judged(&mut random, &twin));
        if readings {
            let rule = if verdict.number == 4 { verdict.gives } else { 0 };
            *seen.entry((verdict.number, rule, answer.number)).or_default() += 1;
        }
    }
    for wanted in (1..=8).map(|rule| (4, rule, 0)).chain([(3, 0, 0), (0, 0, 12)]) {
        assert!(seen.get(&wanted).is_some_and(|&times| times >= 10), "{wanted:?}: {seen:?}");
    }
}

#[test]
fn lengths() {
    let mut random = Random::new(15_400);
    let whole = sound(&mut random, 1024, 1, 40);
    let mut stores: Vec<Vec<u8>> = [0, 1, 511, 512, 513, 3 * 512, 4 * 512 - 1, 4 * 512 + 1, 1024 * 512 - 1]
        .map(|length| whole[..length].to_vec())
        .into();
    stores.extend([[whole.clone(), vec![0]].concat(), [whole.clone(), vec![0; 512]].concat()]);
    for store in stores {
        let label = format!("{} bytes", store.len());
        assert_eq!(judged(&mut random, &Twin::new(store, &label)), LENGTH, "{label}");
    }
    // Whole blocks, but not all of them: no index.
    for blocks in [4, 5, 64, 127, 128, 129, 1023] {
        let twin = Twin::new(whole[..blocks * 512].to_vec(), format!("first {blocks} blocks"));
        assert_eq!((twin.verify(), judged(&mut random, &twin)), (Reply::refused(4, 1), DONE), "{}", twin.label);
    }
    assert_eq!(judged(&mut random, &Twin::new(whole, "all blocks")), IN_USE);
}

/// The store's own number counts, and not the one that format is given.
#[test]
fn own_numbers() {
    let mut random = Random::new(15_500);
    let numbers = [0, 1, 7, 0x8000_0000, UNSEEN, u32::MAX, random.number()];
    for (own, given) in numbers.iter().flat_map(|&own| numbers.map(|given| (own, given))) {
        let (blocks, phase) = (random.within(4, 12), random.below(3));
        let mut store = sound(&mut random, blocks, phase, 60);
        set_number(&mut store, own);
        seal_all(&mut store);
        let twin = Twin::new(store, format!("store {own}"));
        assert_eq!(judged(&mut random, &twin), IN_USE, "{}", twin.label);
        assert_eq!((format(&twin, 5, given, 0), format(&twin, 5, given, 1)), (IN_USE, DONE), "{}", twin.label);
    }
}

/// A store whose checks are right under the given number, and not under the one that stands in it, is not sound.
#[test]
fn checks_under_the_given_number() {
    let mut random = Random::new(15_600);
    for seed in 0..60 {
        let blocks = random.within(4, 12);
        let mut store = sound(&mut random, blocks, seed % 3, 60);
        let own = number(&store);
        let given = own ^ random.pick(&[1, 0x8000_0000, UNSEEN, u32::MAX]);
        assert_eq!(judged(&mut random, &Twin::new(store.clone(), format!("number {own}"))), IN_USE);
        for (at, block) in store.chunks_exact_mut(512).enumerate() {
            let check = check(given, at, block);
            block[508..].copy_from_slice(&check.to_le_bytes());
        }
        let twin = Twin::new(store, format!("number {own}, checks under {given}"));
        assert_eq!((twin.verify(), twin.in_use()), (Reply::refused(3, 0), DONE), "{}", twin.label);
        assert_eq!((judged(&mut random, &twin), format(&twin, 5, given, 0)), (DONE, DONE), "{}", twin.label);
    }
}
