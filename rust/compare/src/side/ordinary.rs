//! The ordinary index behind the interface.

use super::{Change, Gauge, Ordinary, Reply, Side, State};
use ordinary::journal::{plan::PlannedStep, Place};
use ordinary::Refusal;

impl Side for Ordinary {
    fn verify(store: &[u8]) -> Reply {
        done(ordinary::verify(store))
    }

    fn format(store: &mut [u8], fill: u32, number: u32, overwrite: u32) -> Reply {
        done(ordinary::format(store, fill, number, overwrite))
    }

    fn in_use(store: &[u8]) -> Reply {
        ordinary::in_use(store).map_or_else(refused, Reply::used)
    }

    fn insert(store: &mut [u8], journal: &mut [u8], hash: u32, block: u32, offset: u32) -> Reply {
        done(ordinary::insert(store, journal, hash, block, offset))
    }

    fn remove(store: &mut [u8], journal: &mut [u8], hash: u32, block: u32, offset: u32) -> Reply {
        done(ordinary::remove(store, journal, hash, block, offset))
    }

    fn bare_insert(store: &mut [u8], _: &mut [u8], hash: u32, block: u32, offset: u32) -> Reply {
        done(ordinary::bare::insert(store, hash, block, offset))
    }

    fn bare_remove(store: &mut [u8], _: &mut [u8], hash: u32, block: u32, offset: u32) -> Reply {
        done(ordinary::bare::remove(store, hash, block, offset))
    }

    fn lookup(store: &[u8], hash: u32, output: &mut [u8]) -> Reply {
        let found = |matches| Reply { gives: matches, ..Reply::default() };
        ordinary::lookup(store, hash, output).map_or_else(refused, found)
    }

    fn work(store: &mut [u8], journal: &mut [u8], budget: u32) -> Reply {
        worked(ordinary::work(store, journal, budget))
    }

    fn work_sealed_once(store: &mut [u8], _: &mut [u8], budget: u32) -> Reply {
        worked(ordinary::bare::work_sealed_once(store, budget))
    }

    fn squeeze(store: &mut [u8], journal: &mut [u8], bucket: u32, budget: u32) -> Reply {
        worked(ordinary::squeeze(store, journal, bucket, budget))
    }

    fn standing(store: &[u8]) -> (Reply, State) {
        use ordinary::Phase;
        match ordinary::standing(store) {
            Ok(now) => {
                let (phase, old, new) = match now.phase {
                    Phase::None => (0, 0, 0),
                    Phase::Copying { old, new } => (1, old, new),
                    Phase::Clearing { old, new } => (2, old, new),
                };
                let state = State { count: now.count, buckets: now.buckets, phase, old, new, slack: now.slack };
                (Reply::default(), state)
            }
            Err(refusal) => (refused(refusal), State::default()),
        }
    }

    fn gauge(store: &[u8]) -> (Reply, Gauge) {
        match ordinary::gauge(store) {
            Ok(gauge) => (Reply::default(), [gauge.per_bucket, gauge.per_page].map(f64::to_bits)),
            Err(refusal) => (refused(refusal), Gauge::default()),
        }
    }

    fn recover(store: &mut [u8], journal: &mut [u8]) -> Reply {
        done(ordinary::recover(store, journal))
    }

    fn wipe(journal: &mut [u8]) -> Reply {
        done(ordinary::wipe(journal))
    }

    fn wiped(journal: &[u8]) -> Reply {
        done(ordinary::wiped(journal))
    }

    fn look(store: &[u8], journal: &[u8], block: u32) -> Reply {
        ordinary::look(store, journal, block).map_or_else(refused, at)
    }

    fn plan(store: &[u8], journal: &[u8], change: Change, plan: &mut [u8]) -> Reply {
        use ordinary::{plan_insert, plan_remove, plan_squeeze, plan_work};
        match change {
            Change::Insert((hash, block, offset)) => planned(plan_insert(store, journal, hash, block, offset, plan)),
            Change::Remove((hash, block, offset)) => planned(plan_remove(store, journal, hash, block, offset, plan)),
            Change::Work => step(plan_work(store, journal, plan)),
            Change::Squeeze(bucket) => step(plan_squeeze(store, journal, bucket, plan)),
        }
    }

    fn do_store(store: &mut [u8], journal: &mut [u8], plan: &[u8], n: u32) -> Reply {
        ordinary::do_store(store, journal, plan, n).map_or_else(refused, at)
    }
}

fn refused(refusal: Refusal) -> Reply {
    Reply::refused(refusal.number(), refusal.gives())
}

fn done(answer: Result<(), Refusal>) -> Reply {
    answer.map_or_else(refused, |()| Reply::default())
}

fn worked(answer: Result<ordinary::Worked, Refusal>) -> Reply {
    answer.map_or_else(refused, |did| Reply::worked(did.steps, did.stop.number()))
}

/// A place as a word has it.
pub fn at(place: Place) -> Reply {
    match place {
        Place::Store(block) => Reply { gives: block as u32, ..Reply::default() },
        Place::Journal(block) => Reply { gives: block as u32, stop: 1, ..Reply::default() },
    }
}

fn planned(answer: Result<usize, Refusal>) -> Reply {
    answer.map_or_else(refused, |stores| Reply { gives: stores as u32, ..Reply::default() })
}

fn step(answer: Result<PlannedStep, Refusal>) -> Reply {
    match answer {
        Ok(Err(stop)) => Reply::worked(0, stop.number()),
        Ok(Ok(stores)) => planned(Ok(stores)),
        Err(refusal) => refused(refusal),
    }
}
