//! The words of the functions for C that change a store or a journal, or say whether one is wiped, whole, beside what
//! the ordinary index answers: on sound and spoilt stores, good and bad journals, numbers at and past their ends. What
//! they write is the same too.

use compare::build::{found, sound};
use compare::foreign;
use compare::journals::{barred, full};
use compare::random::Random;
use compare::side::{Ordinary, Reply, Side};
use compare::spoil::{damage, spoil};
use compare::twin::wiped;
use std::collections::BTreeSet;

/// A store and a journal.
type Lent = (Vec<u8>, Vec<u8>);

fn lent(random: &mut Random) -> Lent {
    let (blocks, phase) = (random.within(4, 20), random.below(3));
    let mut store = sound(random, blocks, phase, 90);
    match random.below(8) {
        0 => damage(random, &mut store),
        1 => spoil(random, &mut store),
        2 => store.truncate(random.below(4 * 512) as usize),
        _ => {}
    }
    let journal = match random.below(6) {
        0 => barred(random, &[0; 20 * 512]),
        1 => full(&[3; 16 * 512], random.number()),
        _ => wiped(),
    };
    (store, journal)
}

/// A call on each side, on copies, and what the ordinary one answers.
fn both(
    (store, journal): &Lent,
    label: &str,
    word: impl Fn(&mut [u8], &mut [u8]) -> u64,
    reply: impl Fn(&mut [u8], &mut [u8]) -> Reply,
) -> Reply {
    let (mut one, mut two) = ((store.clone(), journal.clone()), (store.clone(), journal.clone()));
    let (word, reply) = (word(&mut one.0, &mut one.1), reply(&mut two.0, &mut two.1));
    assert_eq!(word, reply.word(), "{label}: {reply:?}");
    assert!(one == two, "{label}: {reply:?}: other bytes");
    reply
}

/// One of the calls with a journal: its name and what it answers.
fn call(random: &mut Random, lent: &Lent, label: &str) -> (&'static str, Reply) {
    let pairs: Vec<_> = found(&lent.0).map(|entry| entry.pair).collect();
    let (hash, held, good) = if pairs.is_empty() { (1, 1, 1) } else { random.pick(&pairs) };
    let block = random.pick(&[held, held, held ^ 1, u32::MAX]);
    let offset = random.pick(&[good, good, good, 0, 65_536]);
    let budget = random.pick(&[0, 1, 7, 65_535, 65_536, u32::MAX]);
    let bucket = random.pick(&[0, 1, 2, 3, u32::MAX]);
    match random.below(7) {
        0 => {
            let insert = |s: &mut [u8], j: &mut [u8]| foreign::insert(s, j, hash, block, offset);
            ("insert", both(lent, label, insert, |s, j| Ordinary::insert(s, j, hash, block, offset)))
        }
        1 => {
            let remove = |s: &mut [u8], j: &mut [u8]| foreign::remove(s, j, hash, block, offset);
            ("remove", both(lent, label, remove, |s, j| Ordinary::remove(s, j, hash, block, offset)))
        }
        2 => {
            let work = |s: &mut [u8], j: &mut [u8]| foreign::work(s, j, budget);
            ("work", both(lent, label, work, |s, j| Ordinary::work(s, j, budget)))
        }
        3 => {
            let squeeze = |s: &mut [u8], j: &mut [u8]| foreign::squeeze(s, j, bucket, budget);
            ("squeeze", both(lent, label, squeeze, |s, j| Ordinary::squeeze(s, j, bucket, budget)))
        }
        4 => ("recover", both(lent, label, foreign::recover, Ordinary::recover)),
        5 => ("wipe", both(lent, label, |_, j| foreign::wipe(j), |_, j| Ordinary::wipe(j))),
        _ => ("wiped", both(lent, label, |_, j| foreign::wiped(j), |_, j| Ordinary::wiped(j))),
    }
}

#[test]
fn of_changes_and_of_calls_on_a_journal() {
    let mut seen = BTreeSet::new();
    for seed in 0..4_000 {
        let mut random = Random::new(40_000 + seed);
        let lent = lent(&mut random);
        let (name, reply) = call(&mut random, &lent, &format!("seed {seed}"));
        seen.insert((name, reply.number));
    }
    let pairs = [1, 13, 2, 14, 3, 4, 0].map(|number| [("insert", number), ("remove", number)]);
    let steps = [1, 13, 2, 14, 3, 4, 0].map(|number| [("work", number), ("squeeze", number)]);
    let own = [("insert", 5), ("remove", 6), ("insert", 7), ("squeeze", 11), ("recover", 1), ("recover", 13)];
    let more = [("recover", 0), ("wipe", 13), ("wipe", 0), ("wiped", 13), ("wiped", 14), ("wiped", 0)];
    let wanted: BTreeSet<_> = [pairs, steps].concat().concat().into_iter().chain(own).chain(more).collect();
    assert_eq!(seen, wanted);
}
