//! Sound stores that no list of calls need reach, built from outside: both sides find them sound, and go on alike.

use compare::build::{found, sound};
use compare::lists::{Call, Maker, Pair, Seen};
use compare::random::Random;
use compare::twin::Twin;

/// The pairs that stand anywhere in a store.
fn pairs(store: &[u8]) -> Vec<Pair> {
    found(store).map(|entry| entry.pair).collect()
}

/// Calls on a store: on pairs that stand in it, on others, work, and squeezes.
fn calls(random: &mut Random, twin: &mut Twin, number: u32, seen: &mut Seen) {
    for _ in 0..number {
        let pair = match pairs(twin.bytes()) {
            pairs if pairs.is_empty() => (1, 1, 1),
            pairs => random.pick(&pairs),
        };
        let bucket = random.below(twin.standing().1.buckets + 1);
        let call = match random.below(10) {
            0 | 1 => Call::Insert(pair),
            2 => Call::Insert((pair.0, pair.1 ^ 1 << random.below(20), pair.2)),
            3 | 4 => Call::Remove(pair),
            5 => Call::Lookup(pair.0, random.below(90) as usize),
            6 => Call::Lookup(pair.0, 40_000),
            7 => Call::Squeeze(bucket, random.below(20)),
            8 => Call::Squeeze(bucket, 65_535),
            _ => Call::Work(random.below(20)),
        };
        let reply = call.make(twin);
        seen.note(call, reply, twin);
    }
    assert!(twin.verify().done(), "{}: not sound any more", twin.label);
}

#[test]
fn small_and_middle() {
    let mut seen = Seen::default();
    for seed in 0..150 {
        let mut random = Random::new(2000 + seed);
        let blocks = random.within(4, if seed % 4 == 0 { 40 } else { 14 });
        let crowd = random.pick(&[3, 30, 90, 160]);
        let store = sound(&mut random, blocks, seed as u32 % 3, crowd);
        let mut twin = Twin::new(store, format!("built from {seed}, N {blocks}"));
        assert!(twin.verify().done(), "{}: {:?}", twin.label, twin.verify());
        calls(&mut random, &mut twin, 14, &mut seen);
        let reply = twin.work(65_535);
        seen.note(Call::Work(65_535), reply, &twin);
    }
    seen.reached(&[0, 2, 5, 6, 7, 8, 11], &[0, 7, 9], &[0, 1, 2]);
    assert!([(2, 0), (11, 0), (0, 0), (0, 9)].iter().all(|wanted| seen.squeezes.contains_key(wanted)), "{seen:?}");
    assert!(seen.squeezed > 0 && seen.longest_chain >= 5 && seen.most_free_pages >= 5, "{seen:?}");
}

#[test]
fn of_128_blocks() {
    let mut seen = Seen::default();
    for seed in 0..12 {
        let mut random = Random::new(3000 + seed);
        let crowd = [40, 120, 6000][seed as usize / 3 % 3];
        let store = sound(&mut random, 128, seed as u32 % 3, crowd);
        let mut twin = Twin::new(store, format!("built from {seed}, N 128"));
        assert!(twin.verify().done(), "{}: {:?}", twin.label, twin.verify());
        calls(&mut random, &mut twin, 16, &mut seen);
    }
    assert!(seen.longest_chain >= 50 && seen.most_buckets >= 16, "{seen:?}");
}

#[test]
fn lists_that_start_from_a_built_store() {
    let mut seen = Seen::default();
    for seed in 0..6 {
        let mut random = Random::new(4000 + seed);
        let store = sound(&mut random, 20, seed as u32 % 3, 60);
        let mut twin = Twin::new(store, format!("list from built {seed}"));
        let mut maker = Maker::new(seed, 6, 60, seed % 2 == 0);
        maker.codes.extend(pairs(twin.bytes()).iter().map(|pair| pair.0).take(6));
        for _ in 0..250 {
            let call = maker.call();
            let reply = call.make(&mut twin);
            maker.note(call, reply);
            seen.note(call, reply, &twin);
        }
    }
    seen.reached(&[0, 5, 6, 8, 12], &[0, 9], &[0, 1, 2]);
}
