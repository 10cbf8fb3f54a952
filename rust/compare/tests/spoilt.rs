//! Damaged stores, and stores with a rule broken under right checks: both sides say the same of them.

use compare::build::sound;
use compare::random::Random;
use compare::seal::seal_all;
use compare::side::Reply;
use compare::spoil::{damage, spoil};
use compare::twin::Twin;
use std::collections::BTreeMap;

/// All calls on copies of a store that has this verdict.
fn calls(random: &mut Random, twin: &Twin, verdict: Reply) {
    let (hash, block, offset) = (random.below(16), random.below(3), random.within(1, 3));
    let (standing, _) = twin.standing();
    let mut answers = vec![standing, twin.gauge().0, twin.lookup(hash, random.below(200) as usize).0];
    answers.push(twin.clone().insert(hash, block, offset));
    answers.push(twin.clone().remove(hash, block, offset));
    answers.push(twin.clone().work(random.below(30)));
    answers.push(twin.clone().squeeze(random.pick(&[0, 1, 2, 3, u32::MAX]), random.below(30)));
    if !verdict.done() {
        assert!(answers.iter().all(|&reply| reply == verdict), "{}: {answers:?}", twin.label);
    }
    // Numbers are tested before checks and rules.
    assert_eq!(twin.clone().insert(hash, block, 0), Reply::refused(2, 0), "{}", twin.label);
    assert_eq!(twin.clone().remove(hash, u32::MAX, 1), Reply::refused(2, 0), "{}", twin.label);
    assert_eq!(twin.clone().work(65_536), Reply::refused(2, 0), "{}", twin.label);
    assert_eq!(twin.clone().squeeze(hash, 65_536), Reply::refused(2, 0), "{}", twin.label);
    if random.once_in(8) {
        assert!(twin.clone().format(1, random.store_number(), 1).done(), "{}", twin.label);
    }
}

#[test]
fn damaged_blocks() {
    for seed in 0..120 {
        let mut random = Random::new(5000 + seed);
        let blocks = random.within(4, 20);
        let mut store = sound(&mut random, blocks, seed as u32 % 3, 30);
        let whole = store.clone();
        damage(&mut random, &mut store);
        let lowest = (0..store.len()).find(|&at| store[at] != whole[at]);
        let twin = Twin::new(store, format!("damaged {seed}"));
        let verdict = twin.verify();
        match lowest {
            Some(at) => assert_eq!(verdict, Reply::refused(3, at as u32 / 512), "{}", twin.label),
            None => assert!(verdict.done(), "{}", twin.label),
        }
        calls(&mut random, &twin, verdict);
    }
}

#[test]
fn broken_rules() {
    let mut seen: BTreeMap<(u8, u32), u32> = BTreeMap::new();
    for seed in 0..4000 {
        let mut random = Random::new(6000 + seed);
        let blocks = random.within(4, if seed % 8 == 0 { 40 } else { 16 });
        let crowd = random.pick(&[2, 20, 100]);
        let mut store = sound(&mut random, blocks, seed as u32 % 3, crowd);
        for _ in 0..random.pick(&[1, 1, 1, 2, 3]) {
            spoil(&mut random, &mut store);
        }
        let twin = Twin::new(store, format!("spoilt {seed}, N {blocks}"));
        let verdict = twin.verify();
        *seen.entry((verdict.number, verdict.gives)).or_default() += 1;
        if verdict.done() || seed % 4 == 0 {
            calls(&mut random, &twin, verdict);
        }
    }
    for rule in 1..=8 {
        assert!(seen.get(&(4, rule)).is_some_and(|&times| times >= 20), "rule {rule}: {seen:?}");
    }
    assert!(seen.get(&(0, 0)).is_some_and(|&times| times >= 100), "{seen:?}");
    assert_eq!(seen.len(), 9, "{seen:?}");
}

#[test]
fn any_bytes() {
    for seed in 0..60 {
        let mut random = Random::new(7000 + seed);
        let blocks = random.within(4, if seed < 8 { 1024 } else { 128 }) as usize;
        let mut store: Vec<u8> = (0..blocks * 512).map(|_| random.word() as u8).collect();
        if seed % 2 == 0 {
            seal_all(&mut store);
        }
        let twin = Twin::new(store, format!("noise {seed}"));
        let wanted = if seed % 2 == 0 { Reply::refused(4, 1) } else { Reply::refused(3, 0) };
        assert_eq!(twin.verify(), wanted, "{}", twin.label);
        calls(&mut random, &twin, wanted);
    }
}
