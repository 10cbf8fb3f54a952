//! Busy hours (request 2026-12): a split's own steps with inserts, removals, lookups and squeezes of other buckets
//! between them, counted against 2m + 3 and what removals saved.

use compare::book::{bucket, saving, Book, Tally};
use compare::build::found;
use compare::lists::{Call, Pair};
use compare::random::Random;
use compare::side::Reply;
use compare::stores::wanting;
use compare::twin::Twin;

/// Makes up the calls that come between two steps of a split from a store in which it is under way.
struct Between {
    random: Random,
    /// Of twenty calls so many are inserts, and so many removals.
    inserts: u32,
    removals: u32,
}

impl Between {
    /// A pair that stands in a store.
    fn pair(&mut self, store: &[u8]) -> Pair {
        let pairs: Vec<Pair> = found(store).map(|entry| entry.pair).collect();
        if pairs.is_empty() {
            (7, 7, 7)
        } else {
            self.random.pick(&pairs)
        }
    }

    fn call(&mut self, store: &[u8], buckets: u32) -> Call {
        let pair = self.pair(store);
        let random = &mut self.random;
        match random.below(20) {
            n if n < self.inserts => {
                // Under a code in use or one beside it, so that both buckets of the split get some.
                let hash = pair.0 ^ random.pick(&[0, 0, 1, 2, 4, 1 << 31]);
                Call::Insert((hash, random.below(u32::MAX), random.within(1, 65_535)))
            }
            n if n < self.inserts + self.removals => Call::Remove(pair),
            n if n % 2 == 0 => Call::Lookup(pair.0, random.below(600) as usize),
            _ => Call::Squeeze(random.below(buckets + 1), random.below(30)),
        }
    }
}

/// What came up in the splits of a store: their tally, and the stops for room that removals mended.
#[derive(Debug, Default)]
struct Seen {
    tally: Tally,
    mended: u32,
}

/// Works on until so many splits are over, none is wanted or a begin finds no room, each step with up to `most` calls
/// before it. A copying step that stops for room is tried again after a removal. The book counts own steps against
/// 2m + 3, and what removals saved.
fn busy(mut twin: Twin, mut book: Book, between: &mut Between, most: u32, splits: u32, seen: &mut Seen) {
    book.tally = seen.tally;
    let mut random = Random::new(28_000);
    let over = |tally: &Tally| tally.counted + tally.disturbed;
    let enough = over(&book.tally) + splits;
    let mut stopped = false;
    while over(&book.tally) < enough {
        let (_, state) = twin.standing();
        let calls = if stopped { 0 } else { between.random.below(most + 1) };
        for _ in 0..calls {
            let call = between.call(twin.bytes(), state.buckets);
            book.call(&mut twin, call, &mut random);
        }
        let reply = book.call(&mut twin, Call::Work(1), &mut random);
        match (reply.steps, reply.stop) {
            (0, 9) => break,
            (0, 7) if twin.standing().1.phase == 0 => break,
            (0, 7) => {
                assert_eq!(twin.standing().1.phase, 1, "{}: a clearing step stopped for room", twin.label);
                let pair = between.pair(twin.bytes());
                book.call(&mut twin, Call::Remove(pair), &mut random);
                stopped = true;
            }
            _ => seen.mended += u32::from(std::mem::take(&mut stopped)),
        }
    }
    seen.tally = book.tally;
}

/// A new store with so many random pairs under so many hash codes, and its book.
fn filled(random: &mut Random, blocks: usize, fill: u32, pairs: u32, codes: u32) -> (Twin, Book) {
    let mut twin = Twin::new(vec![0; 512 * blocks], format!("N {blocks}, fill {fill}, {pairs} pairs"));
    let mut book = Book::new(fill);
    assert!(twin.format(fill, random.store_number(), 0).done());
    for _ in 0..pairs {
        let pair = (random.below(codes), random.below(u32::MAX), random.within(1, 65_535));
        let label = twin.label.clone();
        assert!(book.call(&mut twin, Call::Insert(pair), random).done(), "{label}");
    }
    (twin, book)
}

#[test]
fn busy_lists() {
    let mut seen = Seen::default();
    for seed in 0..6 {
        let mut random = Random::new(28_100 + seed);
        let (fill, blocks) = (random.within(2, 12), 12 + 4 * (seed as usize % 5));
        let (twin, book) = filled(&mut random, blocks, fill, 3 * fill + 10, 60);
        let (inserts, removals) = [(8, 8), (12, 3), (3, 12)][seed as usize % 3];
        busy(twin, book, &mut Between { random, inserts, removals }, 3, 4, &mut seen);
    }
    let tally = seen.tally;
    assert!(tally.disturbed > 15 && tally.saved_one > 5 && tally.saved_two > 5 && tally.busy > 0, "{seen:?}");
}

/// Long chains under few codes, on stores that are all but full: squeezes of other buckets between a split's steps, and
/// stops for room that removals mend.
#[test]
fn busy_lists_without_room() {
    let mut seen = Seen::default();
    for seed in 0..6 {
        let mut random = Random::new(28_400 + seed);
        let (twin, book) = filled(&mut random, 10 + seed as usize % 2, 40, 200, 4);
        let (inserts, removals) = [(6, 6), (10, 3), (3, 8)][seed as usize % 3];
        busy(twin, book, &mut Between { random, inserts, removals }, 2, 2, &mut seen);
    }
    let tally = seen.tally;
    assert!(tally.disturbed > 5 && tally.between > 20 && seen.mended > 10, "{seen:?}");
}

/// Inserts, lookups and squeezes between the steps, and no removal: the split takes all its 2m + 3 steps.
#[test]
fn inserts_alone() {
    let mut seen = Seen::default();
    for seed in 0..2 {
        let mut random = Random::new(28_200 + seed);
        let (twin, book) = filled(&mut random, 40, 10, 40, 60);
        let mut between = Between { random, inserts: 12, removals: 0 };
        busy(twin, book, &mut between, 2, 3, &mut seen);
    }
    let tally = seen.tally;
    assert!(tally.disturbed > 3 && (tally.saved_one, tally.saved_two) == (0, 0), "{seen:?}");
}

/// The split of a long chain, counted to its end with up to `most` calls before each step. Gives what removals saved.
fn long_split(blocks: u32, between: &mut Between, most: u32) -> usize {
    let mut twin = Twin::new(wanting(blocks), format!("wanting, N {blocks}"));
    assert_eq!(twin.work(1), Reply::worked(1, 0), "{}", twin.label);
    let (_, begun) = twin.standing();
    let moves = |pair: Pair| bucket(pair.0, begun.new) == begun.new;
    let m = found(twin.bytes()).filter(|entry| entry.bucket == begun.old && moves(entry.pair)).count();
    let (mut own, mut saved) = (1, 0);
    while twin.standing().1.phase > 0 {
        for _ in 0..between.random.below(most + 1) {
            let call = between.call(twin.bytes(), begun.buckets);
            let saving = saving(&twin, call);
            saved += if call.make(&mut twin).done() { saving } else { 0 };
        }
        assert_eq!(twin.work(1), Reply::worked(1, 0), "{}: step {own} of {m} moves", twin.label);
        own += 1;
        assert!(own + saved <= 2 * m + 3, "{}: step {own}, {saved} saved, {m} moves", twin.label);
    }
    assert_eq!(own + saved, 2 * m + 3, "{}", twin.label);
    saved
}

#[test]
fn long_busy_splits() {
    let splits = [(16, 3, 12, 2), (16, 10, 4, 2), (64, 6, 6, 2), (128, 2, 8, 1), (128, 3, 0, 1)];
    for (blocks, inserts, removals, most) in splits {
        let random = Random::new(28_300 + u64::from(blocks));
        let saved = long_split(blocks, &mut Between { random, inserts, removals }, most);
        assert_eq!(saved > 0, removals > 0, "N {blocks}: {saved} steps saved");
    }
}
