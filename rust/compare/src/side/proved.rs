//! The proved index behind the interface.

use super::{Change, Gauge, Proved, Reply, Side, State};
use crate::foreign;

/// Through the wrapper, but for what it cannot say: other numbers than 0 and 1 for `overwrite`, a gauge's numbers on a
/// refusal, and plans of any bytes and any length. Those go through the functions for C.
impl Side for Proved {
    fn verify(store: &[u8]) -> Reply {
        proved(amiqsovik::verify(store))
    }

    fn format(store: &mut [u8], fill: u32, number: u32, overwrite: u32) -> Reply {
        match overwrite {
            0 => proved(amiqsovik::format(store, fill, number)),
            1 => proved(amiqsovik::format_over(store, fill, number)),
            _ => Reply::of(foreign::format(store, fill, number, overwrite)),
        }
    }

    fn in_use(store: &[u8]) -> Reply {
        amiqsovik::in_use(store).map_or_else(|refusal| proved(Err(refusal)), Reply::used)
    }

    fn insert(store: &mut [u8], journal: &mut [u8], hash: u32, block: u32, offset: u32) -> Reply {
        proved(amiqsovik::insert(store, journal, hash, block, offset))
    }

    fn remove(store: &mut [u8], journal: &mut [u8], hash: u32, block: u32, offset: u32) -> Reply {
        proved(amiqsovik::remove(store, journal, hash, block, offset))
    }

    fn lookup(store: &[u8], hash: u32, output: &mut [u8]) -> Reply {
        match amiqsovik::lookup(store, hash, output) {
            Ok(matches) => Reply { gives: matches.len() as u32, ..Reply::default() },
            Err(refusal) => proved(Err(refusal)),
        }
    }

    fn work(store: &mut [u8], journal: &mut [u8], budget: u32) -> Reply {
        did(amiqsovik::work(store, journal, budget))
    }

    fn squeeze(store: &mut [u8], journal: &mut [u8], bucket: u32, budget: u32) -> Reply {
        did(amiqsovik::squeeze(store, journal, bucket, budget))
    }

    fn standing(store: &[u8]) -> (Reply, State) {
        use amiqsovik::Phase;
        match amiqsovik::standing(store) {
            Ok(now) => {
                let (phase, old, new) = match now.phase {
                    Phase::None => (0, 0, 0),
                    Phase::Copying { old, new } => (1, old, new),
                    Phase::Clearing { old, new } => (2, old, new),
                    Phase::Unknown { number, old, new } => (number, old, new),
                };
                let state = State { count: now.count, buckets: now.buckets, phase, old, new, slack: now.slack };
                (Reply::default(), state)
            }
            Err(refusal) => (proved(Err(refusal)), State::default()),
        }
    }

    fn gauge(store: &[u8]) -> (Reply, Gauge) {
        let mut numbers = [f64::NAN, -7.5];
        let word = foreign::gauge(store, &mut numbers);
        (Reply::of(word), numbers.map(f64::to_bits))
    }

    fn recover(store: &mut [u8], journal: &mut [u8]) -> Reply {
        proved(amiqsovik::recover(store, journal))
    }

    fn wipe(journal: &mut [u8]) -> Reply {
        proved(amiqsovik::wipe(journal))
    }

    fn wiped(journal: &[u8]) -> Reply {
        match amiqsovik::is_wiped(journal) {
            Ok(wiped) => Reply::refused(if wiped { 0 } else { 14 }, 0),
            Err(refusal) => proved(Err(refusal)),
        }
    }

    /// The place that the function for C gives; the wrapper hands out that very part.
    fn look(store: &[u8], journal: &[u8], block: u32) -> Reply {
        let reply = Reply::of(foreign::look(store, journal, block));
        let slice = if reply.stop == 0 { store } else { journal };
        match amiqsovik::look(store, journal, block) {
            Ok(part) => assert!(reply.done() && std::ptr::eq(part, crate::seal::block(slice, reply.gives as usize))),
            Err(refusal) => assert_eq!(proved(Err(refusal)), reply),
        }
        reply
    }

    fn plan(store: &[u8], journal: &[u8], change: Change, plan: &mut [u8]) -> Reply {
        Reply::of(match change {
            Change::Insert((hash, block, offset)) => foreign::plan_insert(store, journal, hash, block, offset, plan),
            Change::Remove((hash, block, offset)) => foreign::plan_remove(store, journal, hash, block, offset, plan),
            Change::Work => foreign::plan_work(store, journal, plan),
            Change::Squeeze(bucket) => foreign::plan_squeeze(store, journal, bucket, plan),
        })
    }

    fn do_store(store: &mut [u8], journal: &mut [u8], plan: &[u8], n: u32) -> Reply {
        Reply::of(foreign::do_store(store, journal, plan, n))
    }
}

fn proved(answer: Result<(), amiqsovik::Refusal>) -> Reply {
    match answer {
        Ok(()) => Reply::default(),
        Err(refusal) => Reply::refused(refusal.number(), refusal.gives()),
    }
}

fn did(answer: Result<amiqsovik::Worked, amiqsovik::Refusal>) -> Reply {
    match answer {
        Ok(did) => Reply::worked(did.steps, did.stop.number()),
        Err(refusal) => proved(Err(refusal)),
    }
}
