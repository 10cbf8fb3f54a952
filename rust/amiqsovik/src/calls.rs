//! The calls that take no journal, over plain slices and plain numbers; format has two functions.

use crate::answer::{Gauge, Refusal, Standing};
use crate::foreign;
use crate::matches::Matches;
use crate::word::{self, Word};

/// Judges a store: done if it is a sound index.
///
/// # Errors
///
/// [`Length`](Refusal::Length), [`Damaged`](Refusal::Damaged) or [`NotAnIndex`](Refusal::NotAnIndex).
///
/// # Examples
///
/// ```
/// use amiqsovik::{verify, Refusal};
/// assert_eq!(verify(&[0; 100]), Err(Refusal::Length));
/// assert_eq!(verify(&[0; 4 * 512]), Err(Refusal::Damaged { block: 0 }));
/// ```
pub fn verify(store: &[u8]) -> Result<(), Refusal> {
    Word(foreign::verify(store)).done().map(drop)
}

/// Makes a store of any bytes an empty index, unless it is in use. `fill`, 1 to 40, is the number of pairs a bucket
/// above which buckets split.
///
/// A store is in use if it is sound and holds pairs; [`in_use`] says so beforehand, and [`format_over`] formats such a
/// store too. A store that is not sound is formatted without a word, whatever readings are in it: where they may be
/// worth something, [`verify`] it first.
///
/// `number` is the store number, any value: give each store another one. It stands in block 0, and the check of every
/// block covers it, the block's own number and the block's bytes. So, after block 0, a block that was right at the same
/// place of a store with another number is [`Damaged`](Refusal::Damaged), and so is one that was right at another place
/// of this store. One from another place of a store with another number passes for at most one value of that number.
/// The number in block 0 is the one that counts: where a right block 0 comes from a store with another number, it
/// passes, and block 1 is damaged. Stores with the same number are not told apart, nor is an older block at its own
/// place.
///
/// # Errors
///
/// [`Length`](Refusal::Length), [`Number`](Refusal::Number) or [`InUse`](Refusal::InUse): the first that fits.
///
/// # Examples
///
/// ```
/// # let mut journal = [0; 8192];
/// # amiqsovik::wipe(&mut journal)?;
/// use amiqsovik::{format, insert, verify, Refusal};
/// let (mut store, mut other) = ([0; 8 * 512], [0; 8 * 512]);
/// format(&mut store, 30, 1)?;
/// format(&mut other, 30, 2)?;
/// insert(&mut store, &mut journal, 5, 7, 1)?;
/// assert_eq!(format(&mut store, 30, 1), Err(Refusal::InUse));
/// store[3 * 512..4 * 512].copy_from_slice(&other[3 * 512..4 * 512]);
/// assert_eq!(verify(&store), Err(Refusal::Damaged { block: 3 }));
/// assert_eq!(format(&mut store, 30, 1), Ok(()));
/// # Ok::<(), amiqsovik::Refusal>(())
/// ```
pub fn format(store: &mut [u8], fill: u32, number: u32) -> Result<(), Refusal> {
    Word(foreign::format(store, fill, number, 0)).done().map(drop)
}

/// Makes a store of any bytes an empty index, also one in use, whose pairs are lost; else as [`format`].
///
/// # Errors
///
/// [`Length`](Refusal::Length) or [`Number`](Refusal::Number).
///
/// # Examples
///
/// ```
/// # let (mut store, mut journal) = ([0; 8 * 512], [0; 8192]);
/// # amiqsovik::wipe(&mut journal)?;
/// use amiqsovik::{format, format_over, insert, standing, Refusal};
/// format(&mut store, 30, 1)?;
/// insert(&mut store, &mut journal, 5, 7, 1)?;
/// assert_eq!(format(&mut store, 30, 1), Err(Refusal::InUse));
/// assert_eq!(format_over(&mut store, 30, 1), Ok(()));
/// assert_eq!(standing(&store)?.count, 0);
/// # Ok::<(), amiqsovik::Refusal>(())
/// ```
pub fn format_over(store: &mut [u8], fill: u32, number: u32) -> Result<(), Refusal> {
    Word(foreign::format(store, fill, number, 1)).done().map(drop)
}

/// Whether a store is in use: sound, under its own number, and holding pairs. That is when [`format`], given good
/// numbers, refuses it. A store that is not sound is not in use, whatever readings are in it, nor is one that is lent
/// with another length than its own.
///
/// # Errors
///
/// [`Length`](Refusal::Length).
///
/// # Examples
///
/// ```
/// # let (mut store, mut journal) = ([0; 8 * 512], [0; 8192]);
/// # amiqsovik::wipe(&mut journal)?;
/// use amiqsovik::{format, in_use, insert, remove};
/// assert_eq!(in_use(&store), Ok(false));
/// format(&mut store, 30, 1)?;
/// assert_eq!(in_use(&store), Ok(false));
/// insert(&mut store, &mut journal, 5, 7, 1)?;
/// assert_eq!(in_use(&store), Ok(true));
/// remove(&mut store, &mut journal, 5, 7, 1)?;
/// assert_eq!(in_use(&store), Ok(false));
/// # Ok::<(), amiqsovik::Refusal>(())
/// ```
pub fn in_use(store: &[u8]) -> Result<bool, Refusal> {
    match Word(foreign::in_use(store)).done() {
        Ok(_) => Ok(false),
        Err(Refusal::InUse) => Ok(true),
        Err(refusal) => Err(refusal),
    }
}

/// Writes the readings held under a hash code to the output, 6 bytes each, and gives them. Later bytes of the output
/// stay as they are.
///
/// A store of N blocks that these calls made has at most 40 (N - 3) readings under one hash code: 40,840 in 1,024
/// blocks, for which an output of 245,040 bytes is long enough. (A sound store that no calls make may have 40 (N - 2).)
///
/// # Errors
///
/// [`Length`](Refusal::Length), [`Damaged`](Refusal::Damaged), [`NotAnIndex`](Refusal::NotAnIndex) or
/// [`OutputShort`](Refusal::OutputShort): the first that fits.
///
/// # Examples
///
/// ```
/// # let (mut store, mut journal) = ([0; 8 * 512], [0; 8192]);
/// # amiqsovik::wipe(&mut journal)?;
/// # amiqsovik::format(&mut store, 30, 7)?;
/// use amiqsovik::{insert, lookup, Reading, Refusal};
/// insert(&mut store, &mut journal, 5, 7, 1)?;
/// insert(&mut store, &mut journal, 5, 3, 2)?;
/// let mut output = [0; 600];
/// let found: Vec<Reading> = lookup(&store, 5, &mut output)?.collect();
/// assert_eq!(found, [Reading::new(3, 2), Reading::new(7, 1)]);
/// let short = lookup(&store, 5, &mut output[..11]).map(|found| found.len());
/// assert_eq!(short, Err(Refusal::OutputShort { matches: 2 }));
/// # Ok::<(), amiqsovik::Refusal>(())
/// ```
pub fn lookup<'o>(store: &[u8], hash: u32, output: &'o mut [u8]) -> Result<Matches<'o>, Refusal> {
    let word = Word(foreign::lookup(store, hash, output)).done()?;
    Ok(Matches::new(output, word.gives()))
}

/// How the index stands.
///
/// # Errors
///
/// [`Length`](Refusal::Length), [`Damaged`](Refusal::Damaged) or [`NotAnIndex`](Refusal::NotAnIndex).
///
/// # Examples
///
/// ```
/// # let mut store = [0; 8 * 512];
/// use amiqsovik::{format, standing, Phase, Standing};
/// format(&mut store, 10, 7)?;
/// let now = Standing { count: 0, buckets: 2, phase: Phase::None, slack: 20 };
/// assert_eq!(standing(&store)?, now);
/// # Ok::<(), amiqsovik::Refusal>(())
/// ```
pub fn standing(store: &[u8]) -> Result<Standing, Refusal> {
    let mut result = [0; word::RESULT_SIZE];
    Word(foreign::standing(store, &mut result)).done()?;
    Ok(word::standing(&result))
}

/// How full the index is, for a panel: held pairs a bucket, and the part of the room of its pages that they take.
///
/// An empty store shows 0 twice, and 40 pairs in two pages exactly 0.5. While a split copies, only held pairs count,
/// and not their copies. The pages are those that stand in chains: of each bucket its own, empty or not, and its
/// overflow pages. (The function for C gives 0 twice besides a refusal; here there is the refusal alone.)
///
/// # Errors
///
/// [`Length`](Refusal::Length), [`Damaged`](Refusal::Damaged) or [`NotAnIndex`](Refusal::NotAnIndex).
///
/// # Examples
///
/// ```
/// # let (mut store, mut journal) = ([0; 8 * 512], [0; 8192]);
/// # amiqsovik::wipe(&mut journal)?;
/// use amiqsovik::{format, gauge, insert, Gauge};
/// format(&mut store, 40, 7)?;
/// assert_eq!(gauge(&store)?, Gauge { per_bucket: 0.0, per_page: 0.0 });
/// for hash in 0..40 {
///     insert(&mut store, &mut journal, hash, 7, 1)?;
/// }
/// assert_eq!(gauge(&store)?, Gauge { per_bucket: 20.0, per_page: 0.5 });
/// # Ok::<(), amiqsovik::Refusal>(())
/// ```
pub fn gauge(store: &[u8]) -> Result<Gauge, Refusal> {
    let mut numbers = [0.0; 2];
    Word(foreign::gauge(store, &mut numbers)).done()?;
    let [per_bucket, per_page] = numbers;
    Ok(Gauge { per_bucket, per_page })
}
