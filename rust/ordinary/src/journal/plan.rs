//! A change as a list of block stores, worked out before the first of them is done.
//!
//! A plan has the head, the end, the wiped head and the images, 512 bytes each.

use super::{images, lent_mut, name, BlockStore, Journal, Place, END, WIPED};
use crate::answer::{Refusal, Stop, Worked};
use crate::block::{self, put32, Block};
use crate::calls::{self, blocks_mut};
use crate::meta::store_number;

/// The most blocks that a change alters.
const MOST: usize = 8;
const FIRST_IMAGE: usize = 3;
/// The bytes of a plan.
pub const PLAN: usize = 512 * (FIRST_IMAGE + MOST);

/// A plan's blocks; those past its images are of no account.
pub(crate) type Plan = [Block; FIRST_IMAGE + MOST];

/// The plan of a change, from blocks of the store with their numbers, ascending, before and after it: it alters those
/// that differ. There is none if none does.
pub(crate) fn plan<'a>(
    number: u32,
    blocks: impl Iterator<Item = (usize, &'a Block, &'a Block)>,
) -> Option<(Plan, usize)> {
    let mut plan = [[0; 512]; FIRST_IMAGE + MOST];
    let mut altered = 0;
    for (at, _, after) in blocks.filter(|(_, before, after)| before != after) {
        assert!(altered < MOST, "a change of more than {MOST} blocks");
        put32(&mut plan[0], 8 + 4 * altered, at as u32);
        plan[FIRST_IMAGE + altered] = *after;
        altered += 1;
    }
    put32(&mut plan[0], 0, number);
    put32(&mut plan[0], 4, altered as u32);
    plan[1] = plan[0];
    block::seal(number, 0, &mut plan[0]);
    block::seal(number, END, &mut plan[1]);
    plan[2] = WIPED;
    (altered > 0).then_some((plan, altered))
}

/// The number of block stores of a plan with so many images.
fn stores(images: usize) -> usize {
    2 * images + 3
}

/// The place of a plan's block store `n`, and which block of the plan goes there, if there is one with such a number.
fn nth(plan: &Plan, n: usize) -> Option<(Place, &Block)> {
    let images = images(&plan[0]);
    if !(1..=MOST).contains(&images) || n >= stores(images) {
        return None;
    }
    let image = |i: usize| &plan[FIRST_IMAGE + i];
    Some(match n {
        n if n < images => (Place::Journal(1 + n), image(n)),
        n if n == images => (Place::Journal(0), &plan[0]),
        n if n == images + 1 => (Place::Journal(END), &plan[1]),
        n if n < 2 * images + 2 => {
            let i = n - images - 2;
            (Place::Store(name(&plan[0], i)), image(i))
        }
        _ => (Place::Journal(0), &plan[2]),
    })
}

/// Does the block stores of a plan, in order.
pub(crate) fn run(plan: &Plan, store: &mut [Block], journal: &mut Journal) {
    let list = (0..).map_while(|n| nth(plan, n));
    list.for_each(|(place, block)| BlockStore::new(place, block).run(store, journal));
}

/// The plan of a change of a store, written over a lent one, and the number of its block stores.
fn write(plan: &mut Plan, store: &[u8], after: &[u8]) -> usize {
    let (before, after) = (store.as_chunks().0, after.as_chunks().0);
    let pairs = before.iter().zip(after).enumerate().map(|(at, (before, after))| (at, before, after));
    let Some((made, images)) = self::plan(store_number(&before[0]), pairs) else {
        return 0;
    };
    plan[..FIRST_IMAGE + images].copy_from_slice(&made[..FIRST_IMAGE + images]);
    stores(images)
}

fn lent_plan(bytes: &mut [u8]) -> Result<&mut Plan, Refusal> {
    bytes.as_chunks_mut().0.first_chunk_mut().ok_or(Refusal::PlanShort)
}

/// Makes a call on copies of store and journal, and writes the plan of what it changed.
fn planned<T>(
    (store, journal): (&[u8], &[u8]),
    plan: &mut [u8],
    call: impl Fn(&mut [u8], &mut [u8]) -> Result<T, Refusal>,
) -> Result<(T, usize), Refusal> {
    let plan = lent_plan(plan)?;
    let mut after = store.to_vec();
    let answer = call(&mut after, &mut journal.to_vec())?;
    Ok((answer, write(plan, store, &after)))
}

/// Plans an insert. Gives the number of block stores.
pub fn plan_insert(
    store: &[u8],
    journal: &[u8],
    hash: u32,
    block: u32,
    offset: u32,
    plan: &mut [u8],
) -> Result<usize, Refusal> {
    let insert = |store: &mut [u8], journal: &mut [u8]| calls::insert(store, journal, hash, block, offset);
    planned((store, journal), plan, insert).map(|(_, stores)| stores)
}

/// Plans a removal. Gives the number of block stores.
pub fn plan_remove(
    store: &[u8],
    journal: &[u8],
    hash: u32,
    block: u32,
    offset: u32,
    plan: &mut [u8],
) -> Result<usize, Refusal> {
    let remove = |store: &mut [u8], journal: &mut [u8]| calls::remove(store, journal, hash, block, offset);
    planned((store, journal), plan, remove).map(|(_, stores)| stores)
}

/// A step that was planned, by its number of block stores, or why there is none.
pub type PlannedStep = Result<usize, Stop>;

fn step((worked, stores): (Worked, usize)) -> PlannedStep {
    match worked.steps {
        0 => Err(worked.stop),
        _ => Ok(stores),
    }
}

/// Plans one step of work.
pub fn plan_work(store: &[u8], journal: &[u8], plan: &mut [u8]) -> Result<PlannedStep, Refusal> {
    planned((store, journal), plan, |store, journal| calls::work(store, journal, 1)).map(step)
}

/// Plans one step of a squeeze.
pub fn plan_squeeze(store: &[u8], journal: &[u8], bucket: u32, plan: &mut [u8]) -> Result<PlannedStep, Refusal> {
    planned((store, journal), plan, |store, journal| calls::squeeze(store, journal, bucket, 1)).map(step)
}

/// The block stores of a plan, in order.
pub fn list(plan: &[u8]) -> Vec<BlockStore> {
    let plan = plan.as_chunks().0.first_chunk();
    let nth = |n| plan.and_then(|plan| nth(plan, n)).map(|(place, block)| BlockStore::new(place, block));
    (0..).map_while(nth).collect()
}

/// Does a plan's block store `n` and nothing else. Gives the place that it wrote.
pub fn do_store(store: &mut [u8], journal: &mut [u8], plan: &[u8], n: u32) -> Result<Place, Refusal> {
    let plan = plan.as_chunks().0.first_chunk().ok_or(Refusal::PlanShort)?;
    let (blocks, journal) = (blocks_mut(store)?, lent_mut(journal)?);
    match nth(plan, n as usize) {
        None => Err(Refusal::Number),
        Some((Place::Store(at), _)) if at >= blocks.len() => Err(Refusal::Number),
        Some((place, block)) => {
            BlockStore::new(place, block).run(blocks, journal);
            Ok(place)
        }
    }
}
