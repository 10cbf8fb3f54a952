//! Two lent slices, a store and its journal, with the calls as methods.

use crate::answer::{Gauge, Place, Planned, Refusal, Standing, Worked};
use crate::matches::{Matches, Reading};
use crate::plan::Plan;
use crate::{calls, changes, journal, plan, BLOCK_SIZE};
use core::fmt;

/// A store and its journal: two lent slices, with the calls as methods. It holds no state but the bytes, and every call
/// on the store judges them anew, but for [`formatted_over`](Store::formatted_over), [`recover`](Store::recover),
/// [`look`](Store::look) and [`do_store`](Store::do_store).
///
/// ```
/// use amiqsovik::{Reading, Store};
/// let (mut bytes, mut journal) = (vec![0; 16 * 512], [0; 8192]);
/// amiqsovik::wipe(&mut journal)?;
/// let mut store = Store::formatted(&mut bytes, &mut journal, 10, 7)?;
/// store.insert(5, Reading::new(7, 1))?;
/// store.insert(5, Reading::new(3, 2))?;
/// store.remove(5, Reading::new(7, 1))?;
/// let mut output = [0; 60];
/// for reading in store.lookup(5, &mut output)? {
///     assert_eq!(reading, Reading { block: 3, offset: 2 });
/// }
/// # Ok::<(), amiqsovik::Refusal>(())
/// ```
pub struct Store<'a> {
    bytes: &'a mut [u8],
    journal: &'a mut [u8],
}

impl<'a> Store<'a> {
    /// The store and its journal as they are; each call judges them.
    #[must_use]
    pub fn new(bytes: &'a mut [u8], journal: &'a mut [u8]) -> Self {
        Store { bytes, journal }
    }

    /// Formats the bytes, with a fill and the store's number, unless they are a store in use or the journal's head is
    /// not wiped; see [`format`](crate::format). A format over a pending change would end the promise of
    /// [`recover`](crate::recover); a new journal is to be wiped first.
    ///
    /// # Errors
    ///
    /// [`JournalLength`](Refusal::JournalLength), [`Pending`](Refusal::Pending), or as [`format`](crate::format) has
    /// them: the first that fits.
    ///
    /// # Examples
    ///
    /// ```
    /// use amiqsovik::{Reading, Refusal, Store};
    /// let (mut bytes, mut journal) = ([0; 16 * 512], [0; 8192]);
    /// assert_eq!(Store::formatted(&mut bytes, &mut journal, 10, 7).err(), Some(Refusal::Pending));
    /// amiqsovik::wipe(&mut journal)?;
    /// Store::formatted(&mut bytes, &mut journal, 10, 7)?.insert(5, Reading::new(7, 1))?;
    /// assert_eq!(Store::formatted(&mut bytes, &mut journal, 10, 7).err(), Some(Refusal::InUse));
    /// # Ok::<(), amiqsovik::Refusal>(())
    /// ```
    pub fn formatted(bytes: &'a mut [u8], journal: &'a mut [u8], fill: u32, number: u32) -> Result<Self, Refusal> {
        wiped(journal)?;
        calls::format(bytes, fill, number)?;
        Ok(Store { bytes, journal })
    }

    /// Formats the bytes, also those of a store in use, whose pairs are lost, unless the journal's head is not wiped;
    /// see [`format_over`](crate::format_over).
    ///
    /// # Errors
    ///
    /// [`JournalLength`](Refusal::JournalLength), [`Pending`](Refusal::Pending), or as
    /// [`format_over`](crate::format_over) has them: the first that fits.
    ///
    /// # Examples
    ///
    /// ```
    /// use amiqsovik::{Reading, Store};
    /// let (mut bytes, mut journal) = ([0; 16 * 512], [0; 8192]);
    /// amiqsovik::wipe(&mut journal)?;
    /// Store::formatted(&mut bytes, &mut journal, 10, 7)?.insert(5, Reading::new(7, 1))?;
    /// assert_eq!(Store::formatted_over(&mut bytes, &mut journal, 10, 7)?.standing()?.count, 0);
    /// # Ok::<(), amiqsovik::Refusal>(())
    /// ```
    pub fn formatted_over(bytes: &'a mut [u8], journal: &'a mut [u8], fill: u32, number: u32) -> Result<Self, Refusal> {
        wiped(journal)?;
        calls::format_over(bytes, fill, number)?;
        Ok(Store { bytes, journal })
    }

    /// Opens bytes that are a sound index, once a change that was cut is mended; see [`recover`](crate::recover) and
    /// [`verify`](crate::verify).
    ///
    /// # Errors
    ///
    /// As [`recover`](crate::recover) has them, which then wrote nothing, or else as [`verify`](crate::verify).
    ///
    /// # Examples
    ///
    /// ```
    /// use amiqsovik::{Refusal, Store};
    /// assert_eq!(Store::opened(&mut [0; 512], &mut [0; 8192]).err(), Some(Refusal::Length));
    /// assert_eq!(Store::opened(&mut [0; 4 * 512], &mut [0; 512]).err(), Some(Refusal::JournalLength));
    /// ```
    pub fn opened(bytes: &'a mut [u8], journal: &'a mut [u8]) -> Result<Self, Refusal> {
        journal::recover(bytes, journal)?;
        calls::verify(bytes)?;
        Ok(Store { bytes, journal })
    }

    /// The store's bytes.
    #[must_use]
    pub fn as_bytes(&self) -> &[u8] {
        self.bytes
    }

    /// The journal's bytes.
    #[must_use]
    pub fn journal(&self) -> &[u8] {
        self.journal
    }

    /// Whether the store is in use; see [`in_use`](crate::in_use).
    ///
    /// # Errors
    ///
    /// As [`in_use`](crate::in_use) has them.
    pub fn in_use(&self) -> Result<bool, Refusal> {
        calls::in_use(self.bytes)
    }

    /// Puts in a pair; see [`insert`](crate::insert).
    ///
    /// # Errors
    ///
    /// As [`insert`](crate::insert) has them.
    pub fn insert(&mut self, hash: u32, reading: Reading) -> Result<(), Refusal> {
        changes::insert(self.bytes, self.journal, hash, reading.block, reading.offset.into())
    }

    /// Takes out a pair; see [`remove`](crate::remove).
    ///
    /// # Errors
    ///
    /// As [`remove`](crate::remove) has them.
    pub fn remove(&mut self, hash: u32, reading: Reading) -> Result<(), Refusal> {
        changes::remove(self.bytes, self.journal, hash, reading.block, reading.offset.into())
    }

    /// The readings held under a hash code; see [`lookup`](crate::lookup).
    ///
    /// # Errors
    ///
    /// As [`lookup`](crate::lookup) has them.
    pub fn lookup<'o>(&self, hash: u32, output: &'o mut [u8]) -> Result<Matches<'o>, Refusal> {
        calls::lookup(self.bytes, hash, output)
    }

    /// Makes steps of splits; see [`work`](crate::work).
    ///
    /// # Errors
    ///
    /// As [`work`](crate::work) has them.
    pub fn work(&mut self, budget: u32) -> Result<Worked, Refusal> {
        changes::work(self.bytes, self.journal, budget)
    }

    /// Makes steps of a squeeze of a bucket; see [`squeeze`](crate::squeeze).
    ///
    /// # Errors
    ///
    /// As [`squeeze`](crate::squeeze) has them.
    pub fn squeeze(&mut self, bucket: u32, budget: u32) -> Result<Worked, Refusal> {
        changes::squeeze(self.bytes, self.journal, bucket, budget)
    }

    /// How the index stands; see [`standing`](crate::standing).
    ///
    /// # Errors
    ///
    /// As [`standing`](crate::standing) has them.
    pub fn standing(&self) -> Result<Standing, Refusal> {
        calls::standing(self.bytes)
    }

    /// How full the index is; see [`gauge`](crate::gauge).
    ///
    /// # Errors
    ///
    /// As [`gauge`](crate::gauge) has them.
    pub fn gauge(&self) -> Result<Gauge, Refusal> {
        calls::gauge(self.bytes)
    }

    /// Mends the store after a cut; see [`recover`](crate::recover).
    ///
    /// # Errors
    ///
    /// As [`recover`](crate::recover) has them.
    pub fn recover(&mut self) -> Result<(), Refusal> {
        journal::recover(self.bytes, self.journal)
    }

    /// A block as it will stand after recovery; see [`look`](crate::look).
    ///
    /// # Errors
    ///
    /// As [`look`](crate::look) has them.
    pub fn look(&self, block: u32) -> Result<&[u8], Refusal> {
        journal::look(self.bytes, self.journal, block)
    }

    /// Whether the journal's head is wiped; see [`is_wiped`](crate::is_wiped).
    ///
    /// # Errors
    ///
    /// As [`is_wiped`](crate::is_wiped) has them.
    pub fn is_wiped(&self) -> Result<bool, Refusal> {
        journal::is_wiped(self.journal)
    }

    /// Works out an insert; see [`plan_insert`](crate::plan_insert).
    ///
    /// # Errors
    ///
    /// As [`insert`](crate::insert) has them.
    pub fn plan_insert(&self, hash: u32, reading: Reading, plan: &mut Plan) -> Result<u32, Refusal> {
        plan::plan_insert(self.bytes, self.journal, hash, reading.block, reading.offset.into(), plan)
    }

    /// Works out a removal; see [`plan_remove`](crate::plan_remove).
    ///
    /// # Errors
    ///
    /// As [`remove`](crate::remove) has them.
    pub fn plan_remove(&self, hash: u32, reading: Reading, plan: &mut Plan) -> Result<u32, Refusal> {
        plan::plan_remove(self.bytes, self.journal, hash, reading.block, reading.offset.into(), plan)
    }

    /// Works out a step of a split; see [`plan_work`](crate::plan_work).
    ///
    /// # Errors
    ///
    /// As [`work`](crate::work) has them.
    pub fn plan_work(&self, plan: &mut Plan) -> Result<Planned, Refusal> {
        plan::plan_work(self.bytes, self.journal, plan)
    }

    /// Works out a step of a squeeze; see [`plan_squeeze`](crate::plan_squeeze).
    ///
    /// # Errors
    ///
    /// As [`squeeze`](crate::squeeze) has them.
    pub fn plan_squeeze(&self, bucket: u32, plan: &mut Plan) -> Result<Planned, Refusal> {
        plan::plan_squeeze(self.bytes, self.journal, bucket, plan)
    }

    /// Makes one block store of a plan; see [`do_store`](crate::do_store).
    ///
    /// # Errors
    ///
    /// As [`do_store`](crate::do_store) has them.
    pub fn do_store(&mut self, plan: &Plan, n: u32) -> Result<Place, Refusal> {
        plan::do_store(self.bytes, self.journal, plan, n)
    }
}

/// Refuses a journal whose head is not wiped.
fn wiped(journal: &[u8]) -> Result<(), Refusal> {
    match journal::is_wiped(journal)? {
        true => Ok(()),
        false => Err(Refusal::Pending),
    }
}

/// The number of blocks, whether the journal has a wiped head, and how the store stands or why not; not their bytes.
///
/// ```
/// let (mut bytes, mut journal) = ([0; 16 * 512], [0; 8192]);
/// let store = amiqsovik::Store::new(&mut bytes, &mut journal);
/// assert_eq!(format!("{store:?}"), "Store { blocks: 16, wiped: false, refusal: Damaged { block: 0 }, .. }");
/// amiqsovik::wipe(&mut journal)?;
/// let store = amiqsovik::Store::formatted(&mut bytes, &mut journal, 10, 7)?;
/// let standing = "Standing { count: 0, buckets: 2, phase: None, slack: 20 }";
/// assert_eq!(format!("{store:?}"), format!("Store {{ blocks: 16, wiped: true, standing: {standing}, .. }}"));
/// # Ok::<(), amiqsovik::Refusal>(())
/// ```
impl fmt::Debug for Store<'_> {
    fn fmt(&self, f: &mut fmt::Formatter<'_>) -> fmt::Result {
        let mut shown = f.debug_struct("Store");
        shown.field("blocks", &(self.bytes.len() / BLOCK_SIZE));
        shown.field("wiped", &self.is_wiped().unwrap_or(false));
        match self.standing() {
            Ok(standing) => shown.field("standing", &standing),
            Err(refusal) => shown.field("refusal", &refusal),
        };
        shown.finish_non_exhaustive()
    }
}
