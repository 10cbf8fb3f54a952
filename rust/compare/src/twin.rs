//! One store and its journal, kept twice: every call is made on both and compared.

use crate::side::{Change, Gauge, Ordinary, Proved, Reply, Side, State, JOURNAL};
use crate::word::places;
use ordinary::journal::Place;

/// What a call is lent.
#[derive(Clone, PartialEq, Eq)]
struct Lent {
    store: Vec<u8>,
    journal: Vec<u8>,
}

/// The same bytes in the hands of both implementations.
#[derive(Clone)]
pub struct Twin {
    proved: Lent,
    ordinary: Lent,
    /// Said when something differs.
    pub label: String,
}

/// A journal whose head is wiped; its other bytes are of no account.
pub fn wiped() -> Vec<u8> {
    let mut journal = vec![0x3C; JOURNAL];
    assert!(Ordinary::wipe(&mut journal).done());
    journal
}

impl Twin {
    pub fn new(bytes: Vec<u8>, label: impl Into<String>) -> Self {
        Twin::beside(bytes, wiped(), label)
    }

    /// A store beside a journal, both of any bytes.
    pub fn beside(store: Vec<u8>, journal: Vec<u8>, label: impl Into<String>) -> Self {
        let lent = Lent { store, journal };
        Twin { proved: lent.clone(), ordinary: lent, label: label.into() }
    }

    pub fn bytes(&self) -> &[u8] {
        &self.proved.store
    }

    pub fn journal(&self) -> &[u8] {
        &self.proved.journal
    }

    /// The bytes of a block of either slice.
    pub fn block(&self, place: Place) -> &[u8] {
        match place {
            Place::Store(at) => crate::seal::block(self.bytes(), at),
            Place::Journal(at) => crate::seal::block(self.journal(), at),
        }
    }

    /// Puts bytes in place of a block of either slice, from outside.
    pub fn put(&mut self, place: Place, bytes: &[u8]) {
        for lent in [&mut self.proved, &mut self.ordinary] {
            let (slice, at) = match place {
                Place::Store(at) => (&mut lent.store, at),
                Place::Journal(at) => (&mut lent.journal, at),
            };
            slice[512 * at..512 * (at + 1)].copy_from_slice(bytes);
        }
    }

    pub fn verify(&self) -> Reply {
        self.read("verify", |lent| Proved::verify(&lent.store), |lent| Ordinary::verify(&lent.store))
    }

    pub fn standing(&self) -> (Reply, State) {
        self.read("standing", |lent| Proved::standing(&lent.store), |lent| Ordinary::standing(&lent.store))
    }

    pub fn gauge(&self) -> (Reply, Gauge) {
        self.read("gauge", |lent| Proved::gauge(&lent.store), |lent| Ordinary::gauge(&lent.store))
    }

    pub fn in_use(&self) -> Reply {
        self.read("in_use", |lent| Proved::in_use(&lent.store), |lent| Ordinary::in_use(&lent.store))
    }

    /// Whether the journal's head is wiped.
    pub fn wiped(&self) -> Reply {
        self.read("wiped", |lent| Proved::wiped(&lent.journal), |lent| Ordinary::wiped(&lent.journal))
    }

    /// Where a block is found as it will stand, and its bytes there.
    pub fn look(&self, block: u32) -> (Reply, &[u8]) {
        let reply = self.read(
            &format!("look {block}"),
            |Lent { store, journal }| Proved::look(store, journal, block),
            |Lent { store, journal }| Ordinary::look(store, journal, block),
        );
        let slice = if reply.stop == 0 { self.bytes() } else { self.journal() };
        (reply, if reply.done() { crate::seal::block(slice, reply.gives as usize) } else { &[] })
    }

    pub fn format(&mut self, fill: u32, number: u32, overwrite: u32) -> Reply {
        self.write(
            &format!("format {fill} {number} {overwrite}"),
            |store, _| Proved::format(store, fill, number, overwrite),
            |store, _| Ordinary::format(store, fill, number, overwrite),
        )
    }

    pub fn insert(&mut self, hash: u32, block: u32, offset: u32) -> Reply {
        self.write(
            &format!("insert {hash} {block} {offset}"),
            |store, journal| Proved::insert(store, journal, hash, block, offset),
            |store, journal| Ordinary::insert(store, journal, hash, block, offset),
        )
    }

    pub fn remove(&mut self, hash: u32, block: u32, offset: u32) -> Reply {
        self.write(
            &format!("remove {hash} {block} {offset}"),
            |store, journal| Proved::remove(store, journal, hash, block, offset),
            |store, journal| Ordinary::remove(store, journal, hash, block, offset),
        )
    }

    pub fn work(&mut self, budget: u32) -> Reply {
        self.steps(
            &format!("work {budget}"),
            |store, journal| Proved::work(store, journal, budget),
            |store, journal| Ordinary::work(store, journal, budget),
        )
    }

    pub fn squeeze(&mut self, bucket: u32, budget: u32) -> Reply {
        self.steps(
            &format!("squeeze {bucket} {budget}"),
            |store, journal| Proved::squeeze(store, journal, bucket, budget),
            |store, journal| Ordinary::squeeze(store, journal, bucket, budget),
        )
    }

    pub fn recover(&mut self) -> Reply {
        self.write("recover", Proved::recover, Ordinary::recover)
    }

    pub fn wipe(&mut self) -> Reply {
        self.write("wipe", |_, journal| Proved::wipe(journal), |_, journal| Ordinary::wipe(journal))
    }

    /// Plans a change over a plan of any bytes and any length, which a refusal and a stop leave as it is.
    pub fn plan(&self, change: Change, plan: &mut [u8]) -> Reply {
        let before = plan.to_vec();
        let call = format!("plan {change:?}, {} bytes", plan.len());
        let (reply, planned) = self.read(
            &call,
            |Lent { store, journal }| {
                let mut plan = before.clone();
                (Proved::plan(store, journal, change, &mut plan), plan)
            },
            |Lent { store, journal }| {
                let mut plan = before.clone();
                (Ordinary::plan(store, journal, change, &mut plan), plan)
            },
        );
        let made = reply.done() && reply.gives > 0;
        assert!(made || planned == before, "{}: {call}: wrote a plan: {reply:?}", self.label);
        plan.copy_from_slice(&planned);
        reply
    }

    pub fn do_store(&mut self, plan: &[u8], n: u32) -> Reply {
        self.write(
            &format!("block store {n}"),
            |store, journal| Proved::do_store(store, journal, plan, n),
            |store, journal| Ordinary::do_store(store, journal, plan, n),
        )
    }

    /// A lookup with an output of `room` bytes, and the matches that it gave.
    pub fn lookup(&self, hash: u32, room: usize) -> (Reply, Vec<(u32, u16)>) {
        let blank: Vec<u8> = (0..room).map(|i| 0xA5 ^ i as u8).collect();
        let call = format!("lookup {hash} {room}");
        let (reply, output) = self.read(
            &call,
            |lent| {
                let mut output = blank.clone();
                (Proved::lookup(&lent.store, hash, &mut output), output)
            },
            |lent| {
                let mut output = blank.clone();
                (Ordinary::lookup(&lent.store, hash, &mut output), output)
            },
        );
        let written = if reply.done() { 6 * reply.gives as usize } else { 0 };
        assert_eq!(output[written..], blank[written..], "{}: {call} wrote past its matches", self.label);
        (reply, places(&output[..written]).collect())
    }

    fn read<T: PartialEq + std::fmt::Debug>(
        &self,
        call: &str,
        proved: impl Fn(&Lent) -> T,
        ordinary: impl Fn(&Lent) -> T,
    ) -> T {
        let answer = proved(&self.proved);
        let other = ordinary(&self.ordinary);
        assert!(answer == other, "{}: {call}: answers differ: {answer:?}, {other:?}", self.label);
        assert!(self.proved == self.ordinary, "{}: {call} changed something", self.label);
        answer
    }

    /// A call that makes steps, or changes nothing.
    fn steps(
        &mut self,
        call: &str,
        proved: impl Fn(&mut [u8], &mut [u8]) -> Reply,
        ordinary: impl Fn(&mut [u8], &mut [u8]) -> Reply,
    ) -> Reply {
        let before = self.proved.clone();
        let answer = self.write(call, proved, ordinary);
        assert!(answer.steps > 0 || before == self.proved, "{}: {call}: no step, but a change", self.label);
        answer
    }

    fn write(
        &mut self,
        call: &str,
        proved: impl Fn(&mut [u8], &mut [u8]) -> Reply,
        ordinary: impl Fn(&mut [u8], &mut [u8]) -> Reply,
    ) -> Reply {
        let before = self.proved.clone();
        let answer = proved(&mut self.proved.store, &mut self.proved.journal);
        let other = ordinary(&mut self.ordinary.store, &mut self.ordinary.journal);
        assert_eq!(answer, other, "{}: {call}: answers differ (proved, ordinary)", self.label);
        for (name, one, two) in [
            ("stores", &self.proved.store, &self.ordinary.store),
            ("journals", &self.proved.journal, &self.ordinary.journal),
        ] {
            if one != two {
                let at = (0..one.len()).find(|&at| one[at] != two[at]);
                let (block, byte) = at.map_or((0, 0), |at| (at / 512, at % 512));
                panic!("{}: {call}: {answer:?}: {name} differ at block {block}, byte {byte}", self.label);
            }
        }
        assert!(answer.done() || before == self.proved, "{}: {call}: refused, but changed something", self.label);
        answer
    }
}
