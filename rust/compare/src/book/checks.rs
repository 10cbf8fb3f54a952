//! What the book says of a store as it is.

use super::{bucket, Begun, Book};
use crate::build::found;
use crate::gauge::shown;
use crate::lists::Pair;
use crate::random::Random;
use crate::side::Reply;
use crate::twin::Twin;
use crate::word::word;
use std::collections::{BTreeMap, BTreeSet};

impl Book {
    /// Everything that the book says of the store as it is.
    pub fn check(&mut self, twin: &Twin, random: &mut Random) {
        let phase = self.check_standing(twin);
        let codes = self.check_lookups(twin, random);
        if let (1, Some(split)) = (phase, &self.split) {
            let copies = found(twin.bytes()).filter(|entry| entry.moved && entry.bucket == split.new);
            let copied: BTreeSet<u32> = copies.map(|entry| entry.pair.0).collect();
            self.tally.moved += codes.iter().filter(|code| copied.contains(code)).count() as u32;
        }
        self.check_refusals(twin, random);
        self.check_formats(twin, random);
    }

    /// Gives the phase.
    fn check_standing(&self, twin: &Twin) -> u32 {
        assert!(twin.verify().done(), "{}: not sound", twin.label);
        let (reply, state) = twin.standing();
        assert!(reply.done(), "{}", twin.label);
        let counts = (word(twin.bytes(), 8) as usize, state.count as usize);
        assert_eq!(counts, (self.pairs.len(), self.pairs.len()), "{}: count", twin.label);
        assert_eq!((state.buckets, state.slack), (self.buckets(), self.slack()), "{}: standing", twin.label);
        let shown = shown(twin.bytes(), self.pairs.len(), self.buckets());
        assert_eq!(twin.gauge(), (reply, shown), "{}: gauge", twin.label);
        let told = (state.phase != 0).then_some((state.old, state.new));
        assert_eq!(told, self.job(), "{}: job", twin.label);
        state.phase
    }

    /// Whether a code is looked up in every check: that of the last call's pair, and those of the job's two buckets.
    fn matters(&self, hash: u32) -> bool {
        let job = |split: &Begun| bucket(hash, split.new - 1) == split.new ^ (1 << split.new.ilog2());
        self.last == Some(hash) || self.split.as_ref().is_some_and(job)
    }

    /// Every code in the book, or those that matter and some, and some others: with exact room, and with one byte less.
    /// Gives the codes.
    fn check_lookups(&self, twin: &Twin, random: &mut Random) -> Vec<u32> {
        let mut codes: BTreeMap<u32, Vec<(u32, u16)>> = BTreeMap::new();
        for &(hash, block, offset) in &self.pairs {
            codes.entry(hash).or_default().push((block, offset as u16));
        }
        for hash in [random.number(), random.number()].into_iter().chain(self.last) {
            codes.entry(hash).or_default();
        }
        if let Some(&(hash, ..)) = self.pairs.first() {
            codes.entry(hash ^ 1 << random.below(8)).or_default();
        }
        let mut codes: Vec<_> = codes.into_iter().collect();
        if codes.len() > self.codes {
            random.shuffle(&mut codes);
            codes.sort_by_key(|code| !self.matters(code.0));
            codes.truncate(self.codes + codes.iter().filter(|code| self.matters(code.0)).count());
        }
        for (hash, places) in &codes {
            let (hash, room) = (*hash, 6 * places.len());
            let (reply, found) = twin.lookup(hash, room);
            assert_eq!((reply.number, found), (0, places.clone()), "{}: lookup {hash}", twin.label);
            if room > 0 {
                let (reply, _) = twin.lookup(hash, room - 1);
                assert_eq!(reply, Reply::refused(8, places.len() as u32), "{}: lookup {hash}", twin.label);
            }
        }
        codes.into_iter().map(|code| code.0).collect()
    }

    /// Refusals 5 and 6, of some pairs that the book has and some that it has not, on copies of the store.
    fn check_refusals(&self, twin: &Twin, random: &mut Random) {
        let pairs: Vec<Pair> = self.pairs.iter().copied().collect();
        for _ in 0..2.min(pairs.len()) {
            let (hash, block, offset) = random.pick(&pairs);
            assert_eq!(twin.clone().insert(hash, block, offset).number, 5, "{}: held", twin.label);
            assert_eq!(twin.clone().remove(hash, block, offset).number, 0, "{}: held", twin.label);
            let other = (hash, block ^ 1 << random.below(31), offset);
            if !self.pairs.contains(&other) && other.1 != u32::MAX {
                let put = twin.clone().insert(other.0, other.1, other.2).number;
                assert!(put == 0 || put == 7, "{}: not held, but insert gave {put}", twin.label);
                assert_eq!(twin.clone().remove(other.0, other.1, other.2).number, 6, "{}: not held", twin.label);
            }
        }
    }

    /// Formats with good numbers, on copies of the store: 12 exactly if the book has a pair and `overwrite` is 0.
    fn check_formats(&self, twin: &Twin, random: &mut Random) {
        let (fill, number) = (random.within(1, 40), random.store_number());
        let kept = Reply::refused(self.format(fill, 0), 0);
        assert_eq!((twin.in_use(), twin.clone().format(fill, number, 0)), (kept, kept), "{}: in use", twin.label);
        assert!(twin.clone().format(fill, number, 1).done(), "{}: overwriting", twin.label);
    }
}
