//! A change in two halves, for a host that keeps store and journal on a medium and flushes between the block stores.

use crate::answer::{Place, Planned, Refusal};
use crate::foreign;
use crate::word::Word;
use core::fmt;

/// The bytes of a plan: 11 blocks.
pub const PLAN_SIZE: usize = 5632;

/// A change that was worked out and is still to be made: [`plan_insert`], [`plan_remove`], [`plan_work`] and
/// [`plan_squeeze`] fill it and change neither store nor journal, and [`do_store`] makes one of its block stores.
///
/// All of them, in order, are the change, and leave store and journal as the call in one piece would. A host makes
/// each in memory, writes the block that it names to its medium, and waits until that block is there for good before
/// it makes the next: then whatever moment the power fails in, [`recover`](crate::recover) gives the store before the
/// change or the one after it. Nothing else may change store or journal from the plan on to its last store.
///
/// ```
/// use amiqsovik::{do_store, format, plan_insert, standing, wipe, Part, Plan};
/// let (mut store, mut journal, mut plan) = ([0; 8 * 512], [0; 8192], Plan::new());
/// wipe(&mut journal)?;
/// format(&mut store, 30, 7)?;
/// plan_insert(&store, &journal, 5, 7, 1, &mut plan)?;
/// for n in 0..plan.stores() {
///     let place = do_store(&mut store, &mut journal, &plan, n)?;
///     let (_bytes, _file) = match place.part {
///         Part::Store => (&store[place.bytes()], "store"),
///         _ => (&journal[place.bytes()], "journal"),
///     };
///     // Here the bytes go to block `place.block` of that file, which is then synced.
/// }
/// assert_eq!(standing(&store)?.count, 1);
/// # Ok::<(), amiqsovik::Refusal>(())
/// ```
#[derive(Clone)]
pub struct Plan {
    bytes: [u8; PLAN_SIZE],
}

impl Plan {
    /// A plan with nothing to make yet.
    #[must_use]
    pub const fn new() -> Self {
        Plan { bytes: [0; PLAN_SIZE] }
    }

    /// The number of block stores: 2k + 3 for a change that alters k blocks, 1 to 8, and 0 before the first plan. A plan
    /// that is refused, or stops, leaves the one before it: make the stores only of one that was planned.
    ///
    /// ```
    /// assert_eq!(amiqsovik::Plan::new().stores(), 0);
    /// ```
    #[must_use]
    pub fn stores(&self) -> u32 {
        match u32::from_le_bytes([self.bytes[4], self.bytes[5], self.bytes[6], self.bytes[7]]) {
            0 => 0,
            images => images.saturating_mul(2).saturating_add(3),
        }
    }

    /// The bytes: the journal's head, its end and its wiped head, a block each, and then the images of the altered
    /// blocks.
    #[must_use]
    pub const fn as_bytes(&self) -> &[u8; PLAN_SIZE] {
        &self.bytes
    }
}

impl Default for Plan {
    fn default() -> Self {
        Plan::new()
    }
}

/// The number of block stores; not the bytes.
impl fmt::Debug for Plan {
    fn fmt(&self, f: &mut fmt::Formatter<'_>) -> fmt::Result {
        f.debug_struct("Plan").field("stores", &self.stores()).finish_non_exhaustive()
    }
}

/// Works out what [`insert`](crate::insert) would change, and gives the number of its block stores.
///
/// # Errors
///
/// As [`insert`](crate::insert) has them. The plan is then as it was.
pub fn plan_insert(
    store: &[u8],
    journal: &[u8],
    hash: u32,
    block: u32,
    offset: u32,
    plan: &mut Plan,
) -> Result<u32, Refusal> {
    Word(foreign::plan_insert(store, journal, hash, block, offset, &mut plan.bytes)).done().map(Word::gives)
}

/// Works out what [`remove`](crate::remove) would change, and gives the number of its block stores.
///
/// # Errors
///
/// As [`remove`](crate::remove) has them. The plan is then as it was.
pub fn plan_remove(
    store: &[u8],
    journal: &[u8],
    hash: u32,
    block: u32,
    offset: u32,
    plan: &mut Plan,
) -> Result<u32, Refusal> {
    Word(foreign::plan_remove(store, journal, hash, block, offset, &mut plan.bytes)).done().map(Word::gives)
}

/// Works out the next step that [`work`](crate::work) would make, if there is one.
///
/// # Errors
///
/// As [`work`](crate::work) has them. The plan is then as it was.
///
/// # Examples
///
/// ```
/// # let (mut store, mut journal) = ([0; 8 * 512], [0; 8192]);
/// # amiqsovik::wipe(&mut journal)?;
/// use amiqsovik::{do_store, format, insert, plan_work, Plan, Planned, Stop};
/// format(&mut store, 1, 7)?;
/// for hash in [0, 2, 4] {
///     insert(&mut store, &mut journal, hash, 9, 1)?;
/// }
/// let (mut plan, mut steps) = (Plan::new(), 0);
/// let stop = loop {
///     match plan_work(&store, &journal, &mut plan)? {
///         Planned::Stores(stores) => {
///             for n in 0..stores {
///                 do_store(&mut store, &mut journal, &plan, n)?;
///             }
///         }
///         Planned::Stopped(stop) => break stop,
///     }
///     steps += 1;
/// };
/// assert_eq!((steps, stop), (5, Stop::Idle));
/// # Ok::<(), amiqsovik::Refusal>(())
/// ```
pub fn plan_work(store: &[u8], journal: &[u8], plan: &mut Plan) -> Result<Planned, Refusal> {
    Word(foreign::plan_work(store, journal, &mut plan.bytes)).done().map(Word::planned)
}

/// Works out the next step that [`squeeze`](crate::squeeze) would make, if there is one.
///
/// # Errors
///
/// As [`squeeze`](crate::squeeze) has them. The plan is then as it was.
pub fn plan_squeeze(store: &[u8], journal: &[u8], bucket: u32, plan: &mut Plan) -> Result<Planned, Refusal> {
    Word(foreign::plan_squeeze(store, journal, bucket, &mut plan.bytes)).done().map(Word::planned)
}

/// Makes the `n`-th block store of a plan, from 0 on, and nothing else, and says which block it wrote.
///
/// # Errors
///
/// [`Length`](Refusal::Length), [`JournalLength`](Refusal::JournalLength) or [`Number`](Refusal::Number) of a block
/// store that the plan does not have, or that is past the end of the store: the first that fits.
///
/// # Examples
///
/// ```
/// use amiqsovik::{do_store, Plan, Refusal};
/// assert_eq!(do_store(&mut [0; 8 * 512], &mut [0; 8192], &Plan::new(), 0), Err(Refusal::Number));
/// ```
pub fn do_store(store: &mut [u8], journal: &mut [u8], plan: &Plan, n: u32) -> Result<Place, Refusal> {
    Word(foreign::do_store(store, journal, &plan.bytes, n)).done().map(Word::place)
}
