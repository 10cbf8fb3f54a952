//! Recovery, look, wipe and wiped (request 2026-05) on journals of any kind: whole ones made by hand, with one thing
//! wrong, spoilt, and random, beside any store.

use compare::build::sound;
use compare::journals::{barred, close, full, holding, put_word, seal, END, MOST};
use compare::random::Random;
use compare::seal::{block, check};
use compare::side::{Reply, JOURNAL};
use compare::spoil::damage;
use compare::twin::{wiped, Twin};
use compare::word::word;
use ordinary::journal::recovery;
use std::collections::BTreeMap;

/// The blocks that a journal holds, in its head's order, by the rule and bit by bit.
fn names(journal: &[u8], blocks: usize) -> Option<Vec<usize>> {
    let (number, images) = (word(journal, 0), word(journal, 4) as usize);
    if !(1..=14).contains(&images) {
        return None;
    }
    let right = |at: usize, as_block: usize| {
        let bytes = block(journal, at);
        bytes[508..] == check(number, as_block, bytes).to_le_bytes()
    };
    let names: Vec<usize> = (0..images).map(|i| word(journal, 8 + 4 * i) as usize).collect();
    let mut sorted = names.clone();
    sorted.sort_unstable();
    sorted.dedup();
    let good = right(0, 0)
        && right(15, 15)
        && journal[..508] == journal[15 * 512..][..508]
        && sorted.len() == images
        && sorted.last().is_some_and(|&last| last < blocks)
        && (0..images).all(|i| right(1 + i, names[i]));
    good.then_some(names)
}

/// Looks at every block, recovers, and holds both to the rule. Gives how many images were copied.
fn recover(mut twin: Twin) -> usize {
    let (mut store, mut journal) = (twin.bytes().to_vec(), twin.journal().to_vec());
    let blocks = store.len() / 512;
    let held = names(&journal, blocks).unwrap_or_default();
    for at in 0..blocks {
        let wanted = match held.iter().position(|&name| name == at) {
            Some(i) => Reply { stop: 1, gives: 1 + i as u32, ..Reply::default() },
            None => Reply { gives: at as u32, ..Reply::default() },
        };
        assert_eq!(twin.look(at as u32).0, wanted, "{}: block {at}", twin.label);
    }
    for at in [blocks as u32, blocks as u32 + 1, 1 << 31, u32::MAX] {
        assert_eq!(twin.look(at), (Reply::refused(2, 0), &[][..]), "{}: block {at}", twin.label);
    }
    for (i, name) in held.iter().enumerate() {
        store[512 * name..][..512].copy_from_slice(&journal[512 * (i + 1)..][..512]);
    }
    journal[..512].copy_from_slice(&wiped()[..512]);
    for times in ["once", "twice"] {
        assert_eq!((twin.recover(), twin.wiped()), (Reply::default(), Reply::default()), "{}: {times}", twin.label);
        assert!(twin.bytes() == store && twin.journal() == journal, "{}: {times}: other bytes", twin.label);
    }
    held.len()
}

/// Some blocks of a store of so many, no two the same, in any order.
fn some(random: &mut Random, blocks: usize, images: usize) -> Vec<u32> {
    let mut names: Vec<u32> = (0..blocks as u32).collect();
    random.shuffle(&mut names);
    names.truncate(images);
    names
}

/// Images of any bytes for these blocks.
fn journal(random: &mut Random, names: &[u32]) -> Vec<u8> {
    let images: Vec<Vec<u8>> = names.iter().map(|_| random.bytes(512)).collect();
    let images: Vec<(u32, &[u8])> = names.iter().copied().zip(images.iter().map(Vec::as_slice)).collect();
    holding(random.store_number(), &images)
}

/// Stores of any bytes: recovery judges none.
fn store(random: &mut Random, blocks: usize) -> Vec<u8> {
    match random.below(3) {
        0 => random.bytes(512 * blocks),
        _ => sound(random, blocks as u32, 0, 30),
    }
}

/// Whole journals with names in any order, for any store number: 1 to 14 images are copied, and no other number.
#[test]
fn whole_journals() {
    for seed in 0..400 {
        let mut random = Random::new(36_000 + seed);
        let (blocks, images) = (random.pick(&[4, 5, 15, 16, 24, 128]), seed as usize % 18);
        let names = some(&mut random, blocks, images);
        let journal = journal(&mut random, &names);
        let label = format!("seed {seed}, N {blocks}, {} images", names.len());
        let copied = recover(Twin::beside(store(&mut random, blocks), journal, label));
        assert_eq!(copied, if names.len() <= MOST { names.len() } else { 0 }, "seed {seed}");
    }
}

/// Changes one thing of a whole journal, and says which and whether it stays whole, as where the rule does not name it.
/// Every check that is not the thing itself is made right.
fn changed(random: &mut Random, journal: &mut [u8], blocks: usize, change: u32) -> (&'static str, bool) {
    let (number, images) = (word(journal, 0), word(journal, 4) as usize);
    let i = random.below(images as u32) as usize;
    let (name, next) = (word(journal, 8 + 4 * i), word(journal, 8 + 4 * ((i + 1) % images)));
    let (other, bit, byte) = (number ^ 1 << random.below(32), 1 << random.below(8), random.below(512) as usize);
    let rename = |journal: &mut [u8], name: u32| {
        put_word(journal, 0, 8 + 4 * i, name);
        seal(journal, 1 + i, number, name as usize);
    };
    match change {
        0 => rename(journal, blocks as u32),
        1 => rename(journal, next),
        2 => put_word(journal, 0, 4, 0),
        3 => put_word(journal, 0, 4, random.pick(&[15, 256 + images as u32, u32::MAX])),
        4 => put_word(journal, 0, 0, other),
        5 => put_word(journal, 0, 4 * random.within(2 + images as u32, 126) as usize, 1 + random.below(9)),
        6 => journal[512 * (1 + i) + byte] ^= bit,
        7 => seal(journal, 1 + i, number, name as usize + blocks),
        8 => seal(journal, 1 + i, other, name as usize),
        9 => journal[508 + byte % 4] ^= bit,
        10 => journal[512 * END + byte] ^= bit,
        11 => journal.copy_within(..512, 512 * END),
        12 => other_end(journal, 8 + 4 * i, name ^ 1, number),
        13 => other_end(journal, 0, other, other),
        _ => journal[512 * (1 + images)..512 * END].fill(0x11),
    }
    if change <= 5 {
        close(journal);
    }
    let head = ["name N", "name twice", "no image", "too many", "other number", "after the names"];
    let blocks = ["image", "image's place", "image's number", "head's check", "end", "end's check"];
    let ends = ["end of another change", "end of another store", "other blocks"];
    let name = [&head[..], &blocks, &ends].concat()[change as usize];
    (name, [5, 14].contains(&change) || change == 1 && images == 1)
}

/// Puts another word in the end, with a right check under a number.
fn other_end(journal: &mut [u8], at: usize, word: u32, number: u32) {
    put_word(journal, END, at, word);
    seal(journal, END, number, END);
}

#[test]
fn one_thing_changed() {
    let mut seen = BTreeMap::new();
    for seed in 0..1_500 {
        let mut random = Random::new(37_000 + seed);
        let (blocks, images) = (random.within(4, 20) as usize, random.within(1, 13) as usize);
        let names = some(&mut random, blocks, images);
        let mut journal = journal(&mut random, &names);
        let (name, whole) = changed(&mut random, &mut journal, blocks, seed as u32 % 15);
        let twin = Twin::beside(store(&mut random, blocks), journal, format!("seed {seed}: {name}"));
        let copied = recover(twin);
        assert_eq!(copied, if whole { names.len() } else { 0 }, "seed {seed}: {name}");
        *seen.entry((name, whole)).or_insert(0) += 1;
    }
    assert!(seen.len() >= 15, "{seen:?}");
}

/// Fifteen images, the last of block 15: there the end itself has the check of such an image, and is none.
#[test]
fn the_end_as_a_fifteenth_image() {
    for seed in 0..20 {
        let mut random = Random::new(37_900 + seed);
        let names: Vec<u32> = (0..MOST as u32).collect();
        let mut journal = journal(&mut random, &names);
        put_word(&mut journal, 0, 4, 15);
        put_word(&mut journal, 0, 8 + 4 * MOST, END as u32);
        close(&mut journal);
        let twin = Twin::beside(store(&mut random, 20), journal, format!("seed {seed}"));
        assert_eq!(recover(twin), 0, "seed {seed}");
    }
}

/// Journals with a few bits wrong anywhere, and ones of any bytes.
#[test]
fn spoilt_and_random() {
    let mut copied = [0; 2];
    for seed in 0..800 {
        let mut random = Random::new(38_000 + seed);
        let (blocks, images) = (random.within(4, 20) as usize, random.within(1, 5) as usize);
        let names = some(&mut random, blocks, images);
        let mut journal = match random.below(4) {
            0 => random.bytes(JOURNAL),
            _ => journal(&mut random, &names),
        };
        damage(&mut random, &mut journal);
        let images = recover(Twin::beside(store(&mut random, blocks), journal, format!("seed {seed}")));
        copied[usize::from(images > 0)] += 1;
    }
    assert!(copied.iter().all(|&times| times > 50), "{copied:?}");
}

/// Lengths: 1 comes first, then 13. Nothing is written.
#[test]
fn lengths() {
    let (length, journal_length) = (Reply::refused(1, 0), Reply::refused(13, 0));
    for len in [0, 1, 511, 512, 15 * 512, JOURNAL - 1, JOURNAL, JOURNAL + 1, 17 * 512, 2 * JOURNAL] {
        for (bytes, legal) in [(0, false), (3 * 512, false), (4 * 512 + 1, false), (4 * 512, true), (1024 * 512, true)]
        {
            let mut journal = full(&[7; 16 * 512], 3);
            journal.resize(len, 0x44);
            let mut twin = Twin::beside(vec![9; bytes], journal, format!("{len} and {bytes} bytes"));
            let wanted = match (legal, len == JOURNAL) {
                (false, _) => length,
                (_, false) => journal_length,
                _ => Reply::default(),
            };
            let pending = if len == JOURNAL { 14 } else { 13 };
            assert_eq!((twin.look(0).0.number, twin.wiped().number), (wanted.number, pending), "{}", twin.label);
            assert_eq!(twin.look(u32::MAX).0.number, if wanted.done() { 2 } else { wanted.number }, "{}", twin.label);
            assert_eq!(twin.recover(), wanted, "{}", twin.label);
            assert_eq!(twin.wipe(), if len == JOURNAL { Reply::default() } else { journal_length }, "{}", twin.label);
        }
    }
}

/// A head is wiped if all its 512 bytes are, and wiping makes any head so and leaves the rest.
#[test]
fn wiped_heads() {
    let mut random = Random::new(39_000);
    for bit in 0..8 * 512 {
        let mut journal = wiped();
        journal[bit / 8] ^= 1 << (bit % 8);
        let mut twin = Twin::beside(vec![0; 4 * 512], journal, format!("bit {bit}"));
        assert_eq!(twin.wiped(), Reply::refused(14, 0), "{}", twin.label);
        assert!(twin.wipe().done() && twin.wiped().done() && twin.journal() == wiped(), "{}", twin.label);
    }
    for seed in 0..100 {
        let journal = barred(&mut random, &[5; 20 * 512]);
        let mut twin = Twin::beside(Vec::new(), journal.clone(), format!("seed {seed}"));
        let whole = journal.len() == JOURNAL;
        assert_eq!(twin.wipe().number, if whole { 0 } else { 13 }, "{}", twin.label);
        assert!(!whole || twin.journal()[512..] == journal[512..], "{}", twin.label);
    }
}

/// A recovery of 14 images, cut at each of its block stores, clean and torn: recovering again mends it.
#[test]
fn cut_recoveries() {
    for seed in 0..12 {
        let mut random = Random::new(39_500 + seed);
        let names = some(&mut random, 20, MOST);
        let twin = Twin::beside(store(&mut random, 20), journal(&mut random, &names), format!("seed {seed}"));
        let stores = recovery(twin.bytes(), twin.journal()).expect("legal lengths");
        assert_eq!(stores.len(), MOST + 1, "{}", twin.label);
        let mut whole = twin.clone();
        assert!(whole.recover().done());
        let mut cut = twin.clone();
        for store in &stores {
            let mut torn = cut.clone();
            torn.put(store.place, &random.bytes(512));
            for mut twin in [cut.clone(), torn] {
                assert!(twin.recover().done() && twin.bytes() == whole.bytes(), "{}", twin.label);
            }
            cut.put(store.place, &store.block);
        }
        assert!(cut.bytes() == whole.bytes() && cut.journal() == whole.journal(), "{}", cut.label);
    }
}
