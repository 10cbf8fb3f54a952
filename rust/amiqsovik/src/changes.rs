//! The calls that change a store through its journal, over plain slices and plain numbers.
//!
//! Each change, an insert, a removal or one step, is a list of whole block stores. They are worked out first and then
//! made in order, so that a cut between them, or in the midst of one, is mended by [`recover`](crate::recover). These
//! functions make all of them, on the lent bytes; a host that flushes between them takes the change in two halves, as
//! in [`Plan`](crate::Plan).

use crate::answer::{Refusal, Worked};
use crate::foreign;
use crate::word::Word;

/// Puts in the pair of a hash code and a reading's place. An offset that does not fit 16 bits is refused, as 0 is.
///
/// # Errors
///
/// [`Length`](Refusal::Length), [`JournalLength`](Refusal::JournalLength), [`Number`](Refusal::Number),
/// [`Pending`](Refusal::Pending), [`Damaged`](Refusal::Damaged), [`NotAnIndex`](Refusal::NotAnIndex),
/// [`HeldAlready`](Refusal::HeldAlready) or [`NoRoom`](Refusal::NoRoom): the first that fits.
///
/// # Examples
///
/// ```
/// use amiqsovik::{format, insert, wipe, Refusal};
/// let (mut store, mut journal) = ([0; 8 * 512], [0; 8192]);
/// wipe(&mut journal)?;
/// format(&mut store, 30, 7)?;
/// assert_eq!(insert(&mut store, &mut journal, 5, 7, 1), Ok(()));
/// assert_eq!(insert(&mut store, &mut journal, 5, 7, 1), Err(Refusal::HeldAlready));
/// assert_eq!(insert(&mut store, &mut journal, 5, 7, 65_536), Err(Refusal::Number));
/// # Ok::<(), amiqsovik::Refusal>(())
/// ```
pub fn insert(store: &mut [u8], journal: &mut [u8], hash: u32, block: u32, offset: u32) -> Result<(), Refusal> {
    Word(foreign::insert(store, journal, hash, block, offset)).done().map(drop)
}

/// Takes a pair out.
///
/// # Errors
///
/// [`Length`](Refusal::Length), [`JournalLength`](Refusal::JournalLength), [`Number`](Refusal::Number),
/// [`Pending`](Refusal::Pending), [`Damaged`](Refusal::Damaged), [`NotAnIndex`](Refusal::NotAnIndex) or
/// [`NotHeld`](Refusal::NotHeld): the first that fits.
///
/// # Examples
///
/// ```
/// # let (mut store, mut journal) = ([0; 8 * 512], [0; 8192]);
/// # amiqsovik::wipe(&mut journal)?;
/// # amiqsovik::format(&mut store, 30, 7)?;
/// use amiqsovik::{remove, Refusal};
/// assert_eq!(remove(&mut store, &mut journal, 5, 7, 1), Err(Refusal::NotHeld));
/// # Ok::<(), amiqsovik::Refusal>(())
/// ```
pub fn remove(store: &mut [u8], journal: &mut [u8], hash: u32, block: u32, offset: u32) -> Result<(), Refusal> {
    Word(foreign::remove(store, journal, hash, block, offset)).done().map(drop)
}

/// Makes up to `budget` steps, at most 65535, of the splits that are wanted. The store is a sound index after each
/// step.
///
/// A split that finds m pairs to move is over within 2m + 3 of its own steps, the begin included, whatever is inserted,
/// removed, looked up and squeezed in between. A removal while copying may save one or two of them; without removals it
/// takes them all. A step that finds no room is not made, and not counted; see [`Stop::NoRoom`](crate::Stop::NoRoom).
///
/// # Errors
///
/// [`Length`](Refusal::Length), [`JournalLength`](Refusal::JournalLength), [`Number`](Refusal::Number),
/// [`Pending`](Refusal::Pending), [`Damaged`](Refusal::Damaged) or [`NotAnIndex`](Refusal::NotAnIndex): the first that
/// fits. No room for a step is no refusal, but a [`Stop`](crate::Stop): the steps made before it stay.
///
/// # Examples
///
/// ```
/// # let (mut store, mut journal) = ([0; 8 * 512], [0; 8192]);
/// # amiqsovik::wipe(&mut journal)?;
/// use amiqsovik::{format, insert, work, Stop, Worked};
/// format(&mut store, 1, 7)?;
/// for hash in [0, 2, 4] {
///     insert(&mut store, &mut journal, hash, 9, 1)?;
/// }
/// assert_eq!(work(&mut store, &mut journal, 2)?, Worked { steps: 2, stop: Stop::Spent });
/// assert_eq!(work(&mut store, &mut journal, 9)?, Worked { steps: 3, stop: Stop::Idle });
/// # Ok::<(), amiqsovik::Refusal>(())
/// ```
///
/// In busy hours a step at a time, between inserts and removals: of six pairs three move, so the split would take 9
/// steps. The removal of one that has no copy yet saves two of them; that of one which stays, and the insert, none.
///
/// ```
/// # let (mut store, mut journal) = ([0; 8 * 512], [0; 8192]);
/// # amiqsovik::wipe(&mut journal)?;
/// use amiqsovik::{format, insert, remove, standing, work, Phase};
/// format(&mut store, 2, 7)?;
/// for hash in [0, 2, 4, 6, 8, 10] {
///     insert(&mut store, &mut journal, hash, 9, 1)?;
/// }
/// let mut steps = work(&mut store, &mut journal, 2)?.steps;
/// remove(&mut store, &mut journal, 10, 9, 1)?;
/// steps += work(&mut store, &mut journal, 1)?.steps;
/// remove(&mut store, &mut journal, 0, 9, 1)?;
/// insert(&mut store, &mut journal, 14, 9, 1)?;
/// while standing(&store)?.phase != Phase::None {
///     steps += work(&mut store, &mut journal, 1)?.steps;
/// }
/// assert_eq!(steps, 7);
/// # Ok::<(), amiqsovik::Refusal>(())
/// ```
pub fn work(store: &mut [u8], journal: &mut [u8], budget: u32) -> Result<Worked, Refusal> {
    Word(foreign::work(store, journal, budget)).done().map(Word::worked)
}

/// Makes up to `budget` steps, at most 65535, of a squeeze of a bucket: each moves the last entry of the last page of
/// the bucket's chain to the first earlier page with room, and frees a page that it leaves empty. The store is a sound
/// index after each step, and every lookup finds what it found before.
///
/// When it stops with [`Idle`](crate::Stop::Idle), no earlier page has room: the chain has as few pages as its entries
/// need. With a budget of 40 for each overflow page of the chain, and one more, it always comes to that.
///
/// # Errors
///
/// [`Length`](Refusal::Length), [`JournalLength`](Refusal::JournalLength), [`Number`](Refusal::Number) of the budget,
/// [`Pending`](Refusal::Pending), [`Damaged`](Refusal::Damaged), [`NotAnIndex`](Refusal::NotAnIndex),
/// [`Number`](Refusal::Number) of a bucket that there is not or [`Busy`](Refusal::Busy): the first that fits. A bucket
/// is busy while a job, copying or clearing, has it as its old or new one: [`work`] ends the job.
///
/// # Examples
///
/// Of three pages the second is thinned out, and the entries of the third go there.
///
/// ```
/// # let (mut store, mut journal) = ([0; 8 * 512], [0; 8192]);
/// # amiqsovik::wipe(&mut journal)?;
/// use amiqsovik::{format, insert, remove, squeeze, Refusal, Stop, Worked};
/// format(&mut store, 40, 7)?;
/// for block in 0..90 {
///     insert(&mut store, &mut journal, 2, block, 1)?;
/// }
/// for block in 50..80 {
///     remove(&mut store, &mut journal, 2, block, 1)?;
/// }
/// assert_eq!(squeeze(&mut store, &mut journal, 0, 4)?, Worked { steps: 4, stop: Stop::Spent });
/// assert_eq!(squeeze(&mut store, &mut journal, 0, 1000)?, Worked { steps: 6, stop: Stop::Idle });
/// assert_eq!(squeeze(&mut store, &mut journal, 2, 1000), Err(Refusal::Number));
/// # Ok::<(), amiqsovik::Refusal>(())
/// ```
pub fn squeeze(store: &mut [u8], journal: &mut [u8], bucket: u32, budget: u32) -> Result<Worked, Refusal> {
    Word(foreign::squeeze(store, journal, bucket, budget)).done().map(Word::worked)
}
