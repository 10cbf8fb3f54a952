//! The calls for a journal, over plain slices and plain numbers: before the first change, and after a cut.

use crate::answer::{Part, Refusal};
use crate::foreign;
use crate::word::Word;

/// The bytes of a journal: 16 blocks.
pub const JOURNAL_SIZE: usize = 8192;

/// Mends a store after a cut: finishes the change in the journal if all of it got there, leaves the store alone
/// otherwise, and wipes the journal's head. Then the store is the one before the change or the one after it.
///
/// Call it before the first change after any start: where nothing was cut it changes nothing, and neither does a second
/// call. It judges neither the store nor its number, so [`verify`](crate::verify) it afterwards. A cut inside it is
/// mended by calling it again: it writes the blocks of the store first and the head last, and so must a host that
/// writes them on to files.
///
/// # Errors
///
/// [`Length`](Refusal::Length) or [`JournalLength`](Refusal::JournalLength): the first that fits.
///
/// # Examples
///
/// ```
/// use amiqsovik::{do_store, format, insert, plan_insert, recover, standing, wipe, Plan, Refusal};
/// let (mut store, mut journal, mut plan) = ([0; 8 * 512], [0; 8192], Plan::new());
/// wipe(&mut journal)?;
/// format(&mut store, 30, 7)?;
/// let stores = plan_insert(&store, &journal, 5, 7, 1, &mut plan)?;
/// for n in 0..stores - 2 {
///     do_store(&mut store, &mut journal, &plan, n)?;
/// }
/// // Here the power fails: a block of the store and the wiped head are still to come.
/// assert_eq!(insert(&mut store, &mut journal, 6, 7, 1), Err(Refusal::Pending));
/// recover(&mut store, &mut journal)?;
/// assert_eq!(standing(&store)?.count, 1);
/// assert_eq!(insert(&mut store, &mut journal, 6, 7, 1), Ok(()));
/// # Ok::<(), amiqsovik::Refusal>(())
/// ```
pub fn recover(store: &mut [u8], journal: &mut [u8]) -> Result<(), Refusal> {
    Word(foreign::recover(store, journal)).done().map(drop)
}

/// Wipes the head of a new journal, whatever its bytes are. Wipe it before the store is formatted: the promise of
/// [`recover`] starts at a format made with the head wiped.
///
/// A journal belongs to one store, and a store has one journal. A head that is not wiped may be the one record of a
/// change that was cut: wiping it ends the promise. [`recover`] is the call for that, and [`is_wiped`] tells.
///
/// # Errors
///
/// [`JournalLength`](Refusal::JournalLength).
///
/// # Examples
///
/// ```
/// use amiqsovik::{is_wiped, wipe, Refusal};
/// let mut journal = [0; 8192];
/// assert_eq!(is_wiped(&journal), Ok(false));
/// wipe(&mut journal)?;
/// assert_eq!(is_wiped(&journal), Ok(true));
/// assert_eq!(wipe(&mut journal[512..]), Err(Refusal::JournalLength));
/// # Ok::<(), amiqsovik::Refusal>(())
/// ```
pub fn wipe(journal: &mut [u8]) -> Result<(), Refusal> {
    Word(foreign::wipe(journal)).done().map(drop)
}

/// Whether the head of a journal is wiped. If not, inserts, removals, work and squeezes are
/// [`Pending`](Refusal::Pending).
///
/// # Errors
///
/// [`JournalLength`](Refusal::JournalLength).
pub fn is_wiped(journal: &[u8]) -> Result<bool, Refusal> {
    match Word(foreign::wiped(journal)).done() {
        Ok(_) => Ok(true),
        Err(Refusal::Pending) => Ok(false),
        Err(refusal) => Err(refusal),
    }
}

/// The 512 bytes of a block of the store as they will stand after [`recover`], uncopied: a part of the journal, where
/// recovering would put that block in place, and else a part of the store.
///
/// # Errors
///
/// [`Length`](Refusal::Length), [`JournalLength`](Refusal::JournalLength) or [`Number`](Refusal::Number) of a block
/// that the store does not have: the first that fits.
///
/// # Examples
///
/// ```
/// use amiqsovik::{do_store, format, look, plan_insert, recover, wipe, Plan, Refusal};
/// let (mut store, mut journal, mut plan) = ([0; 8 * 512], [0; 8192], Plan::new());
/// wipe(&mut journal)?;
/// format(&mut store, 30, 7)?;
/// assert_eq!(look(&store, &journal, 0)?, &store[..512]);
/// let stores = plan_insert(&store, &journal, 5, 7, 1, &mut plan)?;
/// for n in 0..stores - 3 {
///     do_store(&mut store, &mut journal, &plan, n)?;
/// }
/// let block = look(&store, &journal, 0)?.to_vec();
/// assert_ne!(block, store[..512]);
/// recover(&mut store, &mut journal)?;
/// assert_eq!(block, store[..512]);
/// assert_eq!(look(&store, &journal, 8), Err(Refusal::Number));
/// # Ok::<(), amiqsovik::Refusal>(())
/// ```
pub fn look<'a>(store: &'a [u8], journal: &'a [u8], block: u32) -> Result<&'a [u8], Refusal> {
    let place = Word(foreign::look(store, journal, block)).done()?.place();
    let part = match place.part {
        Part::Store => store,
        Part::Journal => journal,
        Part::Unknown { .. } => &[],
    };
    // Never empty with an archive of this package's version.
    Ok(part.get(place.bytes()).unwrap_or_default())
}
