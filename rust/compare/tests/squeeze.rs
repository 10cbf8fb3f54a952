//! Squeezes (request 2026-01): long thin chains after storms of removals, step by step; what they come to, and when;
//! squeezes between the steps of a split, whose buckets are busy; altered blocks, marks and freed pages.

use compare::book::Book;
use compare::build::{found, sound, Layout};
use compare::chains::{chain, changed, dense, free_pages, last, lengths, overflow, squeeze_blocks, squeeze_steps};
use compare::foreign;
use compare::lists::{Call, Pair};
use compare::random::Random;
use compare::side::Reply;
use compare::spoil::{damage, spoil};
use compare::stores::{half_empty, shaped, thin, wanting};
use compare::twin::Twin;
use compare::word::word;
use std::collections::{BTreeMap, BTreeSet};

const MOST: u32 = 65_535;

/// The entries of a store, ascending: bucket, pair and mark.
fn entries(store: &[u8]) -> Vec<(u32, Pair, bool)> {
    let mut entries: Vec<_> = found(store).map(|entry| (entry.bucket, entry.pair, entry.moved)).collect();
    entries.sort_unstable();
    entries
}

/// What a single step has to be, on a store without a job: the last entry goes to the first page with room, with its
/// mark, and its page is freed if that leaves it empty. Count, standing and lookups stay. Gives the number of altered
/// blocks.
fn step(twin: &mut Twin, bucket: u32, random: &mut Random) -> usize {
    let (before, standing, label) = (twin.bytes().to_vec(), twin.standing(), twin.label.clone());
    let (mut wanted, (pair, moved)) = (lengths(&before, bucket), last(&before, bucket));
    let to = wanted.iter().position(|&entries| entries < 40).expect("a page with room");
    wanted[to] += 1;
    let left = wanted.pop().expect("a page") - 1;
    wanted.extend(Some(left).filter(|&left| left > 0));
    let altered = squeeze_blocks(&before, bucket, to);
    assert_eq!(twin.squeeze(bucket, 1), Reply::worked(1, 0), "{label}");
    let store = twin.bytes();
    assert!(twin.verify().done() && twin.standing() == standing && store[8..12] == before[8..12], "{label}");
    assert_eq!(lengths(store, bucket), wanted, "{label}");
    let page = &store[512 * chain(store, bucket)[to] as usize..][..512];
    assert!(found(page).any(|entry| (entry.pair, entry.moved) == (pair, moved)), "{label}: {pair:?} did not move");
    assert!(entries(store) == entries(&before), "{label}: other entries");
    assert_eq!(free_pages(store), free_pages(&before) + u32::from(left == 0), "{label}: free pages");
    assert_eq!(store[40..104], before[40..104], "{label}: spares");
    assert_eq!(changed(store, &before), altered, "{label}: altered blocks");
    let all: Vec<u32> = found(&before).map(|entry| entry.pair.0).collect();
    for hash in [pair.0, random.pick(&all), random.number()] {
        lookup(twin, hash);
    }
    altered.len()
}

/// A lookup, on a store without a job, finds the places that stand under a code.
fn lookup(twin: &Twin, hash: u32) {
    let under = found(twin.bytes()).filter(|entry| entry.pair.0 == hash);
    let places: BTreeSet<(u32, u16)> = under.map(|entry| (entry.pair.1, entry.pair.2 as u16)).collect();
    let (reply, found) = twin.lookup(hash, 6 * places.len());
    assert!(reply.done() && found.iter().eq(&places), "{}: lookup {hash}: {reply:?}", twin.label);
}

/// A store that got pairs of bucket 1 under random codes, of which all but some are removed again, at random.
fn storm(random: &mut Random, blocks: usize, pairs: u32, codes: u32, left: usize) -> Twin {
    let mut twin = Twin::new(vec![0; 512 * blocks], format!("storm, N {blocks}, {pairs} pairs, {left} left"));
    assert!(twin.format(40, random.store_number(), 0).done());
    let mut pair = |block| (2 * random.below(codes) + 1, block, random.within(1, 65_535));
    let mut pairs: Vec<Pair> = (0..pairs).map(&mut pair).collect();
    assert!(pairs.iter().all(|pair| twin.insert(pair.0, pair.1, pair.2).done()), "{}", twin.label);
    random.shuffle(&mut pairs);
    assert!(pairs[left..].iter().all(|pair| twin.remove(pair.0, pair.1, pair.2).done()), "{}", twin.label);
    twin
}

#[test]
fn storms_step_by_step() {
    let mut random = Random::new(27_000);
    let storms = [(5, 80, 3, 7), (8, 190, 1, 30), (12, 300, 40, 60), (24, 800, 9, 130), (128, 5_000, 1_000, 300)];
    for (blocks, pairs, codes, left) in storms {
        let mut twin = storm(&mut random, blocks, pairs, codes, left);
        let steps = squeeze_steps(twin.bytes(), 1);
        assert!(steps > left as u32 / 3, "{}: {steps} steps", twin.label);
        for _ in 0..steps {
            step(&mut twin, 1, &mut random);
        }
        assert_eq!(twin.squeeze(1, MOST), Reply::worked(0, 9), "{}", twin.label);
        assert!(dense(twin.bytes(), 1), "{}", twin.label);
        let codes: BTreeSet<u32> = found(twin.bytes()).map(|entry| entry.pair.0).collect();
        codes.into_iter().for_each(|code| lookup(&twin, code));
    }
}

/// A step alters 2 blocks, or 3 where it frees the last page; then one more where the page with room is not the one
/// before the last, and one more where first free falls, which it does not if an earlier page is free.
#[test]
fn altered_blocks() {
    let all_taken = [(&[39, 2][..], 2), (&[39, 1], 4), (&[40, 39, 1], 4), (&[39, 40, 1], 5)];
    // Of these the second page is freed first, by a removal.
    let one_free = [(&[39, 1, 2][..], 2), (&[39, 1, 1], 3), (&[40, 1, 39, 1], 3), (&[39, 1, 40, 1], 4)];
    for (free, shapes) in [(false, all_taken), (true, one_free)] {
        for (shape, wanted) in shapes {
            let mut twin = Twin::new(shaped(7, shape), format!("{shape:?}, {free}"));
            let second = found(&twin.bytes()[4 * 512..5 * 512]).next().filter(|_| free).map(|entry| entry.pair);
            assert!(second.is_none_or(|(hash, block, offset)| twin.remove(hash, block, offset).done()), "{shape:?}");
            assert_eq!(free_pages(twin.bytes()), u32::from(free), "{shape:?}");
            assert_eq!(step(&mut twin, 0, &mut Random::new(27_800)), wanted, "{shape:?}, {free}");
        }
    }
}

/// Chains of up to 1,021 pages, thinned out further by removals, squeezed by steps and by larger budgets.
#[test]
fn storms_on_1024_blocks() {
    for (name, store) in [("thin", thin(1024, 1021)), ("half empty", half_empty(1024, 700))] {
        let (mut random, mut twin) = (Random::new(27_100), Twin::new(store, name));
        for _ in 0..60 {
            let pairs: Vec<Pair> = found(twin.bytes()).map(|entry| entry.pair).collect();
            let (hash, block, offset) = random.pick(&pairs);
            assert!(twin.remove(hash, block, offset).done(), "{name}");
        }
        let mut left = squeeze_steps(twin.bytes(), 0);
        assert!(left > 1_000, "{name}: {left} steps");
        while left > 0 {
            let budget = random.within(1, 600).min(left.saturating_sub(9));
            assert_eq!(twin.squeeze(0, budget), Reply::worked(budget, 0), "{name}");
            for _ in 0..(left - budget).min(3) {
                step(&mut twin, 0, &mut random);
            }
            left = squeeze_steps(twin.bytes(), 0);
        }
        assert_eq!(twin.squeeze(0, 1), Reply::worked(0, 9), "{name}");
        assert!(dense(twin.bytes(), 0), "{name}");
    }
}

/// A squeeze to its end. 40 steps for each overflow page always get there, and with one more of the budget the stop
/// says so. Gives the steps and the stop without that one.
fn to_the_end(twin: &Twin, bucket: u32) -> (u32, u8) {
    let (most, steps) = (40 * overflow(twin.bytes(), bucket), squeeze_steps(twin.bytes(), bucket));
    let (mut end, mut same, label) = (twin.clone(), twin.clone(), format!("{}, bucket {bucket}", twin.label));
    assert_eq!(end.squeeze(bucket, most + 1), Reply::worked(steps, 9), "{label}");
    assert!(dense(end.bytes(), bucket) && end.verify().done(), "{label}");
    assert!(entries(end.bytes()) == entries(twin.bytes()), "{label}: other entries");
    assert_eq!(end.standing(), twin.standing(), "{label}");
    let reply = same.squeeze(bucket, most);
    assert_eq!(reply, Reply::worked(steps, if steps == most { 0 } else { 9 }), "{label}");
    assert!(same.bytes() == end.bytes(), "{label}: other bytes with {most} steps");
    assert_eq!((end.squeeze(bucket, MOST), end.squeeze(bucket, 0)), (Reply::worked(0, 9), Reply::default()), "{label}");
    (steps, reply.stop)
}

#[test]
fn shapes_to_their_ends() {
    let mut random = Random::new(27_200);
    let shapes = [&[0][..], &[7], &[40], &[0, 40], &[0, 39], &[0, 1], &[40, 1], &[39, 1], &[39, 40], &[40, 40, 40]];
    let longer = [&[0, 40, 40][..], &[0, 1, 1, 1], &[39, 40, 2], &[1, 40, 40, 40], &[40, 1, 40, 1], &[0, 40, 40, 1]];
    let mut shapes: Vec<Vec<u32>> = shapes.iter().chain(&longer).map(|shape| shape.to_vec()).collect();
    for _ in 0..60 {
        let (pages, most) = (random.within(2, 40), random.pick(&[1, 2, 8, 20, 40]));
        let first = random.below(41);
        shapes.push((1..pages).fold(vec![first], |shape, _| [shape, vec![random.within(1, most)]].concat()));
    }
    for shape in shapes {
        let twin = Twin::new(shaped(shape.len() as u32 + 3, &shape), format!("{shape:?}"));
        assert_eq!(lengths(twin.bytes(), 0), shape);
        // Only an empty bucket page and one full page take as many steps as there can be.
        let (steps, stop) = to_the_end(&twin, 0);
        assert_eq!(stop == 0, shape.len() == 1 || shape == [0, 40], "{}: {steps} steps", twin.label);
    }
}

/// Built stores of all phases: the job's two buckets are busy, and every other comes to its end.
#[test]
fn built_stores_to_their_ends() {
    let mut seen: BTreeMap<(u32, u8), u32> = BTreeMap::new();
    for seed in 0..120 {
        let mut random = Random::new(27_300 + seed);
        let (blocks, crowd) = (random.within(4, 40), random.pick(&[10, 60, 160]));
        let twin = Twin::new(sound(&mut random, blocks, seed as u32 % 3, crowd), format!("built {seed}, N {blocks}"));
        let (_, state) = twin.standing();
        for bucket in 0..state.buckets {
            if state.phase > 0 && [state.old, state.new].contains(&bucket) {
                assert_eq!(twin.clone().squeeze(bucket, random.below(3)), Reply::refused(11, 0), "{}", twin.label);
                *seen.entry((state.phase, 11)).or_default() += 1;
            } else if to_the_end(&twin, bucket).0 > 0 {
                *seen.entry((state.phase, 0)).or_default() += 1;
            }
        }
    }
    for wanted in [(0, 0), (1, 0), (2, 0), (1, 11), (2, 11)] {
        assert!(seen.get(&wanted).is_some_and(|&times| times >= 20), "{wanted:?}: {seen:?}");
    }
}

/// A split of bucket 0 with squeezes of bucket 1 between its steps: the book counts its 2m + 3 steps as ever, and both
/// of its buckets are busy until it is over.
#[test]
fn between_the_steps_of_a_split() {
    let (mut random, mut twin) = (Random::new(27_400), Twin::new(vec![0; 24 * 512], "between"));
    assert!(twin.format(24, 9, 0).done());
    assert!((0..200).all(|i| twin.insert(2 * i + 1, 7, 1).done()));
    assert!((0..200).filter(|i| i % 5 > 0).all(|i| twin.remove(2 * i + 1, 7, 1).done()));
    assert!((0..10).all(|i| twin.insert(2 * i, 7, 1).done()));
    assert_eq!((lengths(twin.bytes(), 1), twin.standing().1.slack), (vec![8; 5], -2));
    let mut book = Book::of(twin.bytes());
    let mut call = |call| book.call(&mut twin, call, &mut random);
    assert_eq!((call(Call::Squeeze(2, 1)).number, call(Call::Squeeze(0, 1))), (2, Reply::worked(0, 9)));
    // Codes 2, 6, 10, 14 and 18 move.
    for left in (0..13).rev() {
        assert_eq!(call(Call::Work(1)), Reply::worked(1, 0), "{left} left");
        let wanted = if left == 0 { 0 } else { 11 };
        assert_eq!([0, 2].map(|bucket| call(Call::Squeeze(bucket, left)).number), [wanted; 2], "{left} left");
        assert_eq!(call(Call::Squeeze(1, 2)), Reply::worked(2, 0), "{left} left");
    }
    assert_eq!((call(Call::Squeeze(1, MOST)), call(Call::Work(1))), (Reply::worked(6, 9), Reply::worked(0, 9)));
    let tally = book.tally;
    assert_eq!((tally.counted, tally.disturbed, tally.between, tally.busy), (1, 0, 24, 24), "{tally:?}");
}

/// After a split the new bucket's entries are marked moved, but for those inserted since; a squeeze keeps each mark.
#[test]
fn marks_stay() {
    let (mut random, mut twin) = (Random::new(27_500), Twin::new(wanting(64), "marks"));
    assert_eq!(twin.work(MOST), Reply::worked(643, 9));
    let (old, new) = (7, 15);
    let many: Vec<_> = entries(twin.bytes()).into_iter().filter(|entry| entry.0 == new).collect();
    assert!(many.len() == 320 && many.iter().all(|entry| entry.2), "{} entries", many.len());
    for (_, (hash, block, offset), _) in (0..).zip(many).filter(|(i, _)| i % 7 > 0).map(|(_, entry)| entry) {
        assert!(twin.remove(hash, block, offset).done());
    }
    assert!((0..12).all(|i| twin.insert(16 * i + 15, 7, 7).done()));
    let marks = entries(twin.bytes()).into_iter().filter(|entry| entry.0 == new).map(|entry| entry.2);
    assert_eq!(marks.clone().filter(|&moved| moved).count() + 12, marks.count());
    for bucket in [new, old] {
        assert!(overflow(twin.bytes(), bucket) >= 4, "bucket {bucket}");
        while squeeze_steps(twin.bytes(), bucket) > 0 {
            step(&mut twin, bucket, &mut random);
        }
        assert!(dense(twin.bytes(), bucket) && overflow(twin.bytes(), bucket) > 0, "bucket {bucket}");
    }
}

/// The pages that a squeeze frees are taken by inserts, the lowest first, before a new one is made.
#[test]
fn freed_pages_are_taken_again() {
    let mut twin = Twin::new(thin(40, 30), "taken again");
    assert_eq!((free_pages(twin.bytes()), twin.squeeze(0, MOST).stop), (0, 9));
    let (bits, freed) = (Layout::of(twin.bytes()).bits(), free_pages(twin.bytes()));
    assert_eq!((freed + overflow(twin.bytes(), 0), freed > 20), (29, true));
    for i in 0.. {
        let (free, first, pages) = (free_pages(twin.bytes()), word(twin.bytes(), 32), chain(twin.bytes(), 0));
        assert!(twin.insert(2, i, 9).done(), "insert {i}");
        let (layout, now) = (Layout::of(twin.bytes()), chain(twin.bytes(), 0));
        assert_eq!(layout.bits(), bits + u32::from(free == 0 && now.len() > pages.len()), "insert {i}");
        if now.len() > pages.len() {
            assert_eq!((now.last(), &now[..pages.len()]), (Some(&layout.bit_block(first)), &pages[..]), "insert {i}");
            if free == 0 {
                break;
            }
            assert_eq!(free_pages(twin.bytes()), free - 1, "insert {i}");
        }
    }
}

/// The word of the function for C has the number, the stop, the steps and what 3 and 4 give, and no other bit.
#[test]
fn words() {
    let mut seen = BTreeSet::new();
    for seed in 0..600 {
        let mut random = Random::new(27_700 + seed);
        let (blocks, phase) = (random.within(4, 24), random.below(3));
        let mut store = sound(&mut random, blocks, phase, 90);
        match random.below(4) {
            0 => damage(&mut random, &mut store),
            1 => spoil(&mut random, &mut store),
            _ => {}
        }
        let (bucket, budget) = (random.below(4), random.pick(&[0, 1, 5, MOST, MOST + 1]));
        let mut twin = Twin::new(store.clone(), format!("seed {seed}"));
        let mut journal = twin.journal().to_vec();
        let reply = twin.squeeze(bucket, budget);
        let word = foreign::squeeze(&mut store, &mut journal, bucket, budget);
        assert_eq!(word, reply.word(), "{}", twin.label);
        let same = store == twin.bytes() && journal == twin.journal();
        assert!(same, "{}: other bytes by the function for C", twin.label);
        assert!(reply.gives == 0 || [3, 4].contains(&reply.number), "{}: {reply:?}", twin.label);
        assert!(reply.done() || (reply.steps, reply.stop) == (0, 0), "{}: {reply:?}", twin.label);
        seen.insert((reply.number, reply.stop, reply.steps > 0));
    }
    let wanted = [(0, 0, false), (0, 0, true), (0, 9, false), (0, 9, true)];
    let refusals = [(2, 0, false), (3, 0, false), (4, 0, false), (11, 0, false)];
    assert_eq!(seen, wanted.into_iter().chain(refusals).collect());
}
