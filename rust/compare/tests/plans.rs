//! Plans and their block stores (request 2026-05): what they are refused with, in which order, and what any plan does.

use compare::build::{found, sound};
use compare::cuts::make;
use compare::journals::barred;
use compare::random::Random;
use compare::side::{Change, Reply, JOURNAL, PLAN};
use compare::spoil::{damage, spoil};
use compare::twin::{wiped, Twin};
use compare::word::word;
use std::collections::BTreeMap;

/// A change of a store, its numbers good or at and past their ends.
fn change(random: &mut Random, store: &[u8]) -> Change {
    let pairs: Vec<_> = found(store).map(|entry| entry.pair).collect();
    let mut pair = if pairs.is_empty() { (1, 1, 1) } else { random.pick(&pairs) };
    match random.below(6) {
        0 => pair.1 ^= 1 << random.below(20),
        1 => pair.1 = random.pick(&[u32::MAX, u32::MAX - 1]),
        2 => pair.2 = random.pick(&[0, 65_535, 65_536, u32::MAX]),
        _ => {}
    }
    match random.below(4) {
        0 => Change::Insert(pair),
        1 => Change::Remove(pair),
        2 => Change::Work,
        _ => Change::Squeeze(random.pick(&[0, 1, 2, 3, u32::MAX])),
    }
}

/// A store, sound or not, and a journal, good or not.
fn lent(random: &mut Random, seed: u64) -> Twin {
    let (blocks, phase) = (random.within(4, 20), random.below(3));
    let mut store = sound(random, blocks, phase, 90);
    match random.below(8) {
        0 => damage(random, &mut store),
        1 => spoil(random, &mut store),
        2 => store.truncate(random.below(4 * 512) as usize),
        3 => store.push(0),
        _ => {}
    }
    let journal = if random.once_in(4) { barred(random, &[0; 20 * 512]) } else { wiped() };
    Twin::beside(store, journal, format!("seed {seed}"))
}

/// A plan is refused as the call in one piece is, and so is a stop; what a plan does not need it leaves alone.
#[test]
fn plans_are_refused_as_their_calls() {
    let mut seen = BTreeMap::new();
    for seed in 0..3_000 {
        let mut random = Random::new(33_000 + seed);
        let mut twin = lent(&mut random, seed);
        let change = change(&mut random, twin.bytes());
        let before = random.bytes(PLAN + 40);
        let mut plan = before.clone();
        let planned = twin.plan(change, &mut plan);
        let whole = make(&mut twin, change);
        let label = format!("{}: {change:?}", twin.label);
        if planned.done() && planned.gives > 0 {
            assert!(whole.done() && whole.stop == 0, "{label}: {whole:?}");
            let images = (planned.gives as usize - 3) / 2;
            assert_eq!((planned.gives % 2, word(&plan, 4) as usize), (1, images), "{label}");
            assert!(plan[512 * (3 + images)..] == before[512 * (3 + images)..], "{label}: the rest of the plan");
        } else {
            assert_eq!(planned, whole, "{label}");
        }
        *seen.entry((planned.number, planned.stop)).or_insert(0) += 1;
    }
    let refusals = [1, 13, 2, 14, 3, 4, 5, 6, 7, 11].map(|number| (number, 0));
    let wanted = refusals.into_iter().chain([(0, 0), (0, 7), (0, 9)]);
    assert!(wanted.clone().all(|wanted| seen.contains_key(&wanted)), "{seen:?}");
}

/// A short plan comes before everything else.
#[test]
fn short_plans() {
    let short = Reply::refused(255, PLAN as u32);
    for seed in 0..300 {
        let mut random = Random::new(34_000 + seed);
        let mut twin = lent(&mut random, seed);
        let change = change(&mut random, twin.bytes());
        for length in [0, 1, 511, 5_120, random.below(PLAN as u32) as usize, PLAN - 1] {
            let mut plan = random.bytes(length);
            assert_eq!(twin.plan(change, &mut plan), short, "{}: {change:?}, {length} bytes", twin.label);
            for n in [0, random.below(20), u32::MAX] {
                assert_eq!(twin.do_store(&plan, n), short, "{}: {n}, {length} bytes", twin.label);
            }
        }
    }
}

/// What block store `n` of a plan is by the plan's bytes: whether it goes to the journal, where, and which 512 bytes of
/// the plan go there.
fn by_hand(plan: &[u8], blocks: usize, n: u32) -> Option<(u8, u32, usize)> {
    let images = word(plan, 4);
    if images == 0 || images > 8 || n > 2 * images + 2 {
        return None;
    }
    let (head, end, last) = (images, images + 1, 2 * images + 2);
    if n < head {
        return Some((1, n + 1, 3 + n as usize));
    }
    match n {
        _ if n == head => Some((1, 0, 0)),
        _ if n == end => Some((1, 15, 1)),
        _ if n == last => Some((1, 0, 2)),
        _ => {
            let i = (n - images - 2) as usize;
            let name = word(plan, 8 + 4 * i);
            ((name as usize) < blocks).then_some((0, name, 3 + i))
        }
    }
}

/// Plans of any bytes, with numbers of images and names at and past their ends: a block store writes one block or none.
#[test]
fn block_stores_of_any_plan() {
    let mut seen = BTreeMap::new();
    for seed in 0..1_500 {
        let mut random = Random::new(35_000 + seed);
        let mut twin = lent(&mut random, seed);
        let (length, blocks) = (PLAN + random.below(600) as usize, twin.bytes().len() / 512);
        let mut plan = random.bytes(length);
        let images = random.pick(&[0, 1, 2, 3, 4, 5, 6, 7, 8, 9, 14, 1 << 31, u32::MAX, 256 + 3]);
        plan[4..8].copy_from_slice(&images.to_le_bytes());
        for i in 0..14 {
            let ends = [0, 3, blocks as u32, u32::MAX, random.below(blocks.max(1) as u32), random.number()];
            let name = if random.once_in(3) { random.pick(&ends) } else { random.below(blocks.max(1) as u32) };
            plan[8 + 4 * i..][..4].copy_from_slice(&name.to_le_bytes());
        }
        let legal = twin.bytes().len() == 512 * blocks && (4..=1024).contains(&blocks);
        for n in (0..21).chain([random.number(), u32::MAX]) {
            let (mut store, mut journal) = (twin.bytes().to_vec(), twin.journal().to_vec());
            let wanted = match by_hand(&plan, blocks, n) {
                _ if !legal => Reply::refused(1, 0),
                _ if journal.len() != JOURNAL => Reply::refused(13, 0),
                None => Reply::refused(2, 0),
                Some((part, block, from)) => {
                    let slice = if part == 0 { &mut store } else { &mut journal };
                    slice[512 * block as usize..][..512].copy_from_slice(&plan[512 * from..][..512]);
                    Reply { stop: part, gives: block, ..Reply::default() }
                }
            };
            assert_eq!(twin.do_store(&plan, n), wanted, "{}: {images} images, store {n}", twin.label);
            assert!(twin.bytes() == store && twin.journal() == journal, "{}: {n}: other bytes", twin.label);
            *seen.entry((wanted.number, wanted.stop)).or_insert(0) += 1;
        }
    }
    assert!([(0, 0), (0, 1), (1, 0), (2, 0), (13, 0)].iter().all(|wanted| seen[wanted] > 500), "{seen:?}");
}
