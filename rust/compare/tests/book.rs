//! Demand 3: after every call, and after every single step of work or a squeeze, both indexes say what the book says.

use compare::book::{Book, Tally};
use compare::lists::{Call, Maker};
use compare::random::Random;
use compare::twin::Twin;
use std::collections::BTreeMap;

/// Runs a list, and adds to a tally what came up in it.
fn run(seed: u64, blocks: usize, fill: u32, calls: u32, maker: &mut Maker, tally: &mut Tally) {
    let mut random = Random::new(seed);
    let mut twin = Twin::new(vec![0; blocks * 512], format!("seed {seed}, N {blocks}, fill {fill}"));
    assert!(twin.format(fill, random.store_number(), 0).done());
    let mut book = Book::new(fill);
    book.tally = *tally;
    book.check(&twin, &mut random);
    for _ in 0..calls {
        let call = maker.call();
        let reply = book.call(&mut twin, call, &mut random);
        maker.note(call, reply);
    }
    // A format that overwrites empties the book, whatever stood there; one that does not leaves it alone.
    let number = random.store_number();
    for call in [Call::Format(fill, number, 1), Call::Insert((7, 7, 7)), Call::Format(fill, number, 0)] {
        book.call(&mut twin, call, &mut random);
    }
    *tally = book.tally;
}

fn runs(seeds: std::ops::Range<u64>, codes: u32, places: u32, calls: u32) {
    let mut tally = Tally::default();
    let lists = (seeds.end - seeds.start) as u32;
    for seed in seeds {
        let mut maker = Maker::new(seed, codes, places, seed % 2 == 0);
        let blocks = 6 + 5 * (seed as usize % 4);
        run(seed, blocks, 1 + 3 * (seed as u32 % 3), calls, &mut maker, &mut tally);
    }
    assert!(tally.counted > 0 && tally.disturbed > 0 && tally.moved > 0, "{tally:?}");
    assert!(tally.busy > 0, "{tally:?}");
    // More than the last formats of each list.
    assert!(tally.kept > lists && tally.emptied > 0, "{tally:?}");
}

#[test]
fn few_codes() {
    runs(1000..1008, 5, 30, 220);
}

#[test]
fn one_code() {
    runs(1100..1104, 1, 300, 150);
}

#[test]
fn many_codes() {
    runs(1200..1204, 40, 3, 110);
}

#[test]
fn splits_with_nothing_in_between() {
    let mut tally = Tally::default();
    for seed in 1300..1304 {
        let mut maker = Maker::new(seed, 12, 6, false);
        maker.budget = 300;
        run(seed, 20, 2, 60, &mut maker, &mut tally);
    }
    assert!(tally.counted >= 8, "{tally:?}");
}

/// Long chains, thinned out where the tide has more removals, and squeezed: also while another bucket is split.
#[test]
fn squeezes_of_thin_chains() {
    let mut tally = Tally::default();
    for seed in 1500..1506 {
        let mut maker = Maker::new(seed, 3, 200, true);
        maker.squeezes = 8;
        run(seed, 20, 20 + 4 * (seed as u32 % 6), 620, &mut maker, &mut tally);
    }
    assert!(tally.squeezed >= 30 && tally.between > 0 && tally.busy > 0, "{tally:?}");
}

/// A book emptied pair by pair in the midst of a split: then a format that does not overwrite is accepted.
#[test]
fn emptied_in_the_midst_of_a_split() {
    let mut phases = BTreeMap::new();
    // Three of seven pairs move: a begin, three copies, the end of the copying, three entries cleared, the end.
    for steps in 0..=9 {
        let mut random = Random::new(1400);
        let mut twin = Twin::new(vec![0; 9 * 512], format!("{steps} steps"));
        assert!(twin.format(3, 9, 0).done());
        let mut book = Book::new(3);
        let pairs = [0, 2, 4, 6, 8, 10, 12].map(|hash| (hash, 7, 1));
        let calls = pairs.map(Call::Insert).into_iter().chain([Call::Work(steps)]);
        for call in calls.chain([Call::Format(3, 5, 0)]).chain(pairs.map(Call::Remove)) {
            book.call(&mut twin, call, &mut random);
        }
        *phases.entry(twin.standing().1.phase).or_insert(0) += 1;
        assert!(book.call(&mut twin, Call::Format(3, 5, 0), &mut random).done());
        assert_eq!((book.tally.kept, book.tally.emptied), (1, 0), "{}", twin.label);
    }
    assert_eq!(phases, BTreeMap::from([(0, 2), (1, 4), (2, 4)]));
}
