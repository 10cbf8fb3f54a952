//! Long chains: changes that no single page shows, and lookups while copying from one to another.

use compare::build::found;
use compare::random::Random;
use compare::side::Reply;
use compare::spoil::{change, Change};
use compare::stores::{chain, copying, copying_one_code, last_code_places, LAST_CODE};
use compare::twin::Twin;
use std::collections::{BTreeMap, BTreeSet};

/// The verdict of a change, if the change alone settles it.
fn wanted(kind: Change, populated: bool) -> Option<Reply> {
    match kind {
        Change::Copy | Change::Marked => Some(Reply::refused(4, 5)),
        Change::Mark if populated => Some(Reply::refused(4, 7)),
        Change::Mark => Some(Reply::default()),
        Change::Shifted => None,
    }
}

#[test]
fn long_chains() {
    let stores = [(chain(128, 125), None, 240), (copying(128), Some(2), 240), (copying_one_code(128), Some(3), 240)];
    let larger = [(chain(1024, 1021), None, 40), (copying(1024), Some(2), 40), (copying_one_code(1024), Some(3), 40)];
    let mut seen: BTreeMap<(bool, u8, u32), u32> = BTreeMap::new();
    for (number, (store, populated, times)) in stores.into_iter().chain(larger).enumerate() {
        assert!(Twin::new(store.clone(), format!("store {number}")).verify().done());
        for seed in 0..times {
            let mut random = Random::new(9000 + seed);
            let kind = [Change::Copy, Change::Marked, Change::Shifted, Change::Mark][seed as usize % 4];
            let mut store = store.clone();
            let bucket = change(&mut random, &mut store, kind);
            assert!(bucket.is_some(), "store {number}, seed {seed}: no change");
            let twin = Twin::new(store, format!("store {number}, {kind:?}, seed {seed}"));
            let verdict = twin.verify();
            *seen.entry((kind == Change::Shifted, verdict.number, verdict.gives)).or_default() += 1;
            if let Some(reply) = wanted(kind, bucket == populated) {
                assert_eq!(verdict, reply, "{}", twin.label);
            }
        }
    }
    for wanted in [(false, 4, 5), (false, 4, 7), (false, 0, 0), (true, 4, 7), (true, 4, 8), (true, 0, 0)] {
        assert!(seen.get(&wanted).is_some_and(|&times| times >= 15), "{wanted:?}: {seen:?}");
    }
}

/// The places that stand under `LAST_CODE`: while copying all are held, since a copy's pair stands in the old chain.
fn places(store: &[u8]) -> Vec<(u32, u16)> {
    let under = found(store).filter(|entry| entry.pair.0 == LAST_CODE);
    let places: BTreeSet<_> = under.map(|entry| (entry.pair.1, entry.pair.2 as u16)).collect();
    places.into_iter().collect()
}

#[test]
fn lookups_while_copying() {
    let mut twin = Twin::new(copying_one_code(128), "one code");
    let all = places(twin.bytes());
    let number = all.len();
    assert_eq!((number, last_code_places(128)), (2_016, 2_016));
    assert_eq!(all.last(), Some(&(u32::MAX - 1, 65_535)));
    let mut phases = BTreeSet::new();
    // 896 entries to copy, the end of the copying, 1,792 to clear, the end of the job, and the begin of the next.
    for budget in [0, 1, 2, 477, 1, 1, 400, 14, 1, 1, 1700, 91, 1, 1] {
        let reply = twin.work(budget);
        let (_, state) = twin.standing();
        assert!(reply.done() && twin.verify().done(), "work {budget}: {reply:?}");
        assert_eq!(state.count, 2_016, "work {budget}");
        phases.insert(state.phase);
        let full = Reply { gives: number as u32, ..Reply::default() };
        for room in [6 * number, 6 * number + 1, 30_000] {
            assert_eq!(twin.lookup(LAST_CODE, room), (full, all.clone()), "work {budget}, room {room}");
        }
        // The twin sees to it that a refused lookup writes nothing.
        for room in [0, 5, 6, 6 * number - 6, 6 * number - 1] {
            assert_eq!(twin.lookup(LAST_CODE, room).0, Reply::refused(8, number as u32), "work {budget}, room {room}");
        }
        assert_eq!(twin.lookup(LAST_CODE - 4, 0), (Reply::default(), vec![]), "work {budget}, a code without places");
    }
    assert_eq!((phases, twin.standing().1.new), (BTreeSet::from([0, 1, 2]), 4));
}
