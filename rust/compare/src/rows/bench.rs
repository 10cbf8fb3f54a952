//! A row's store and its call, made on either side.

use super::{Call, Kind, Row};
use crate::build::found;
use crate::chains::squeeze_steps;
use crate::side::{Change, Ordinary, Reply, Side, PLAN};
use crate::stores::{Split, CODE, EACH, LAST_CODE};
use crate::twin::wiped;
use crate::word::word;
use std::hint::black_box;

/// A hash code, with the first and the last place that stand under it, as a lookup writes them.
#[derive(Clone, Copy)]
struct Code {
    hash: u32,
    ends: [[u8; 6]; 2],
}

impl Code {
    fn new(store: &[u8], hash: u32) -> Self {
        let under = found(store).filter(|entry| entry.pair.0 == hash).map(|entry| (entry.pair.1, entry.pair.2));
        let ends = [under.clone().min(), under.max()].map(Option::unwrap_or_default);
        Code { hash, ends: ends.map(written) }
    }
}

/// A row's store, ready for its call.
pub struct Bench {
    call: Call,
    store: Vec<u8>,
    journal: Vec<u8>,
    scratch: Vec<u8>,
    codes: Vec<Code>,
    /// The plans of an insert under each code, if that is the call.
    plans: Vec<Vec<u8>>,
    /// The steps of the next split, or of a whole squeeze.
    steps: u32,
    output: Vec<u8>,
}

impl Bench {
    pub fn new(row: &Row) -> Self {
        let store = row.store();
        let codes = match row.kind {
            Kind::Even(_, Split::Over) | Kind::Longest | Kind::NearlyLongest => first_codes(&store),
            Kind::CopyingOneCode => vec![LAST_CODE],
            _ => vec![CODE],
        };
        let codes: Vec<Code> = codes.into_iter().map(|hash| Code::new(&store, hash)).collect();
        let plans = match row.call {
            Call::Insert | Call::Bare | Call::Stores => codes.iter().map(|code| plan(&store, *code)).collect(),
            _ => vec![Vec::new(); codes.len()],
        };
        let steps = match row.call {
            Call::WholeSqueeze => squeeze_steps(&store, 0),
            _ => 2 * movers(&store) + 3,
        };
        let (journal, scratch, output) = (wiped(), store.clone(), vec![0; 6 * 40_840]);
        Bench { call: row.call, store, journal, scratch, codes, plans, steps, output }
    }

    /// Makes the call `times` times. Each must be answered as it has to.
    pub fn run<S: Side>(&mut self, times: u32) {
        for i in 0..times as usize {
            let i = i % self.codes.len();
            let right = match self.call {
                Call::Verdict => S::verify(black_box(&self.store)) == Reply::default(),
                Call::Gauge => S::gauge(black_box(&self.store)).0 == Reply::default(),
                Call::Lookup(matches) => self.lookup::<S>(self.codes[i], matches),
                Call::Pair => self.pair(S::insert, i) && self.pair(S::remove, i),
                Call::Insert => self.pair(S::insert, i) && self.undo(i),
                Call::Bare => self.pair(S::bare_insert, i) && self.undo(i),
                Call::Stores => self.stores::<S>(i) && self.undo(i),
                Call::Kept => S::format(black_box(&mut self.store), EACH, 7, 0) == Reply::refused(12, 0),
                Call::Over => {
                    self.scratch.copy_from_slice(&self.store);
                    S::format(black_box(&mut self.scratch), EACH, 7, 1) == Reply::default()
                }
                Call::Work(budget, steps, stop) => self.work(S::work, budget, steps, stop),
                Call::SealedOnce(budget, steps, stop) => self.work(S::work_sealed_once, budget, steps, stop),
                Call::WholeSplit => self.work(S::work, 65_535, self.steps, 9),
                Call::SqueezeStep => self.work(squeeze::<S>, 1, 1, 0),
                Call::WholeSqueeze => self.work(squeeze::<S>, 65_535, self.steps, 9),
            };
            assert!(right, "the call was not answered as it has to");
        }
    }

    /// Whether an insert or a removal of the pair under a code is done.
    fn pair(&mut self, call: fn(&mut [u8], &mut [u8], u32, u32, u32) -> Reply, i: usize) -> bool {
        let (hash, block, offset) = pair(self.codes[i]);
        call(black_box(&mut self.store), black_box(&mut self.journal), hash, block, offset) == Reply::default()
    }

    /// Whether the block stores of the plan under a code are done.
    fn stores<S: Side>(&mut self, i: usize) -> bool {
        let plan = &self.plans[i];
        let mut done = |n| S::do_store(black_box(&mut self.store), black_box(&mut self.journal), plan, n).done();
        (0..2 * word(plan, 4) + 3).all(&mut done)
    }

    /// Puts the blocks that the plan under a code alters back.
    fn undo(&mut self, i: usize) -> bool {
        let plan = &self.plans[i];
        for image in 0..word(plan, 4) as usize {
            let at = 512 * word(plan, 8 + 4 * image) as usize;
            self.store[at..at + 512].copy_from_slice(&self.scratch[at..at + 512]);
        }
        true
    }

    /// Whether work, or a squeeze, on a copy of the store makes so many steps and stops so.
    fn work(&mut self, work: fn(&mut [u8], &mut [u8], u32) -> Reply, budget: u32, steps: u32, stop: u8) -> bool {
        self.scratch.copy_from_slice(&self.store);
        work(black_box(&mut self.scratch), black_box(&mut self.journal), budget) == Reply::worked(steps, stop)
    }

    /// Whether a lookup is done, gives so many matches, and writes the first and the last of them.
    fn lookup<S: Side>(&mut self, code: Code, matches: u32) -> bool {
        let last = 6 * (matches as usize - 1);
        // Not what the call before wrote; 0 is no offset.
        self.output[..6].fill(0);
        self.output[last..last + 6].fill(0);
        let reply = S::lookup(black_box(&self.store), code.hash, &mut self.output);
        reply == Reply { gives: matches, ..Reply::default() }
            && [&self.output[..6], &self.output[last..last + 6]] == code.ends
    }
}

/// The pair that is inserted under a code, and removed.
fn pair(code: Code) -> (u32, u32, u32) {
    (code.hash ^ 0x100, 7, 7)
}

/// The plan of its insert.
fn plan(store: &[u8], code: Code) -> Vec<u8> {
    let mut plan = vec![0; PLAN];
    assert!(Ordinary::plan(store, &wiped(), Change::Insert(pair(code)), &mut plan).done());
    plan
}

fn squeeze<S: Side>(store: &mut [u8], journal: &mut [u8], budget: u32) -> Reply {
    S::squeeze(store, journal, 0, budget)
}

/// A place as a lookup writes it.
fn written((block, offset): (u32, u32)) -> [u8; 6] {
    let ([a, b, c, d], [e, f, ..]) = (block.to_le_bytes(), offset.to_le_bytes());
    [a, b, c, d, e, f]
}

/// The entries that go to the next bucket.
fn movers(store: &[u8]) -> u32 {
    let new = word(store, 16) + 1;
    found(store).filter(|entry| entry.pair.0 % (new + 1).next_power_of_two() == new).count() as u32
}

/// The first hash code of each bucket page, up to 64 of them.
fn first_codes(store: &[u8]) -> Vec<u32> {
    let pages = store.chunks_exact(512).filter(|page| page[504] == 2 && page[0] > 0);
    pages.map(|page| word(page, 4)).take(64).collect()
}
