//! What the benchmark measures: calls on stores, a row each.

use crate::stores::{chain, copying, copying_one_code, crowd, even, half_empty, leaving, longest, thin, wanting};
use crate::stores::{last_code_places, leavers, Order, Split, EACH};

mod bench;

pub use bench::Bench;

/// A call, and what it has to answer.
#[derive(Clone, Copy)]
enum Call {
    Verdict,
    Gauge,
    /// A lookup with so many matches.
    Lookup(u32),
    /// An insert, and the removal of the same pair.
    Pair,
    /// An insert, whose blocks are then put back.
    Insert,
    /// The same, without the journal by the ordinary side.
    Bare,
    /// The block stores of its plan, and nothing else.
    Stores,
    /// A format that is refused, since the store is in use.
    Kept,
    /// A format that overwrites.
    Over,
    /// Work with a budget, that makes so many steps and stops so.
    Work(u32, u32, u8),
    /// The same, sealed once by the ordinary side.
    SealedOnce(u32, u32, u8),
    /// Work that makes the one split that is wanted.
    WholeSplit,
    /// One step of a squeeze.
    SqueezeStep,
    /// A whole squeeze.
    WholeSqueeze,
}

/// A store of `stores`.
#[derive(Clone, Copy)]
enum Kind {
    /// So many buckets.
    Even(u32, Split),
    Chain(u32),
    HalfEmpty,
    Thin,
    Longest,
    /// The same with one entry less, so that there is room for one.
    NearlyLongest,
    Crowd(u32, Order),
    Copying,
    CopyingOneCode,
    Wanting,
    Leaving,
}

/// A row of the tables.
#[derive(Clone)]
pub struct Row {
    pub blocks: u32,
    pub name: String,
    call: Call,
    kind: Kind,
}

impl Row {
    fn new(blocks: u32, name: impl Into<String>, call: Call, kind: Kind) -> Self {
        Row { blocks, name: name.into(), call, kind }
    }

    /// The same work, sealed once.
    fn sealed_once(mut self) -> Self {
        if let Call::Work(budget, steps, stop) = self.call {
            self.call = Call::SealedOnce(budget, steps, stop);
            self.name += ", sealed once";
        }
        self
    }

    /// How often the call is made for its instructions to be counted: often where each time differs.
    pub fn times(&self) -> u32 {
        match self.kind {
            Kind::Even(_, Split::Over) => 8,
            Kind::Wanting | Kind::Even(_, Split::Wanted) | Kind::Leaving | Kind::HalfEmpty | Kind::Thin => 1,
            _ => 2,
        }
    }

    /// Whether the row, written as its N and its name, has these words in it.
    pub fn has(&self, words: &str) -> bool {
        format!("{} {}", self.blocks, self.name).contains(words)
    }

    pub fn store(&self) -> Vec<u8> {
        match self.kind {
            // Of 4 blocks the old bucket has one page, which holds the entries of both.
            Kind::Even(buckets, Split::Copying) if self.blocks == 4 => even(4, buckets, 20, Split::Copying),
            Kind::Even(buckets, split) => even(self.blocks, buckets, EACH, split),
            Kind::Chain(pages) => chain(self.blocks, pages),
            Kind::HalfEmpty => half_empty(self.blocks, self.blocks - 3),
            Kind::Thin => thin(self.blocks, self.blocks - 3),
            Kind::Longest => longest(self.blocks, 0),
            Kind::NearlyLongest => longest(self.blocks, 1),
            Kind::Crowd(matches, order) => crowd(self.blocks, matches, order),
            Kind::Copying => copying(self.blocks),
            Kind::CopyingOneCode => copying_one_code(self.blocks),
            Kind::Wanting => wanting(self.blocks),
            Kind::Leaving => leaving(self.blocks),
        }
    }
}

/// The sizes of the rows on the longest chains.
const SIZES: [u32; 3] = [16, 128, 1024];

/// All rows: calls by N, inserts and their journal, verdicts by the pages of a chain, lookups by matches, jobs, whole
/// splits, squeezes.
pub fn rows() -> Vec<Row> {
    [by_size(), journals(), verdicts(), lookups(), jobs(), splits(), squeezes()].concat()
}

/// Calls on even buckets: half as many as blocks, and, but for the gauge, as many as 1,024 blocks have room for.
fn by_size() -> Vec<Row> {
    let calls = [
        ("verdict", Call::Verdict, Split::Over),
        ("lookup of 4", Call::Lookup(4), Split::Over),
        ("insert and removal", Call::Pair, Split::Over),
        ("work, one step", Call::Work(1, 1, 0), Split::Copying),
        ("gauge", Call::Gauge, Split::Over),
    ];
    let rows = |(name, call, split)| {
        let half = |blocks| Row::new(blocks, name, call, Kind::Even(blocks / 2, split));
        let most = Row::new(1024, format!("{name}, 896 buckets"), call, Kind::Even(896, split));
        [4, 16, 64, 128, 1024].map(half).into_iter().chain((name != "gauge").then_some(most))
    };
    calls.into_iter().flat_map(rows).collect()
}

/// Inserts on even buckets, and the journal's part of them.
fn journals() -> Vec<Row> {
    let calls = [
        ("insert, journalled", Call::Insert),
        ("insert, ordinary without journal", Call::Bare),
        ("insert, its block stores alone", Call::Stores),
    ];
    let rows = |(name, call)| {
        [4, 16, 128, 1024].map(|blocks| Row::new(blocks, name, call, Kind::Even(blocks / 2, Split::Over)))
    };
    calls.into_iter().flat_map(rows).collect()
}

/// Verdicts of chains.
fn verdicts() -> Vec<Row> {
    let chain = |pages| Row::new(128, format!("verdict, chain of {pages}"), Call::Verdict, Kind::Chain(pages));
    let longest = |blocks| Row::new(blocks, "verdict, longest chain", Call::Verdict, Kind::Longest);
    let copying = |blocks| Row::new(blocks, "verdict, long copying", Call::Verdict, Kind::Copying);
    [1, 16, 64, 125].map(chain).into_iter().chain(SIZES.map(longest)).chain(SIZES.map(copying)).collect()
}

/// Lookups by matches, and one on the longest chain.
fn lookups() -> Vec<Row> {
    let lookup = |blocks, name: String, matches, order| {
        Row::new(blocks, name, Call::Lookup(matches), Kind::Crowd(matches, order))
    };
    let interleaved = |(blocks, m)| lookup(blocks, format!("lookup of {m}"), m, Order::Interleaved);
    let in_order = |(blocks, m)| lookup(blocks, format!("lookup of {m}, in order"), m, Order::Ascending);
    let all = |blocks| {
        let matches = (blocks - 3) * EACH;
        lookup(blocks, format!("lookup of all, {matches}"), matches, Order::Ascending)
    };
    let one = |blocks| Row::new(blocks, "lookup of 1, longest chain", Call::Lookup(1), Kind::Longest);
    let copying = |blocks| {
        let held = last_code_places(blocks);
        Row::new(blocks, format!("lookup of {held}, copying"), Call::Lookup(held), Kind::CopyingOneCode)
    };
    let crowds = [1, 40, 640, 2_560, 5_000].map(|matches| (128, matches));
    let ordered = [640, 2_560, 5_000].map(|matches| (128, matches));
    (crowds.into_iter().chain([(16, 520), (1024, 40_840)]).map(interleaved))
        .chain(ordered.into_iter().chain([(1024, 40_840)]).map(in_order))
        .chain([16, 64, 128, 1024].map(all))
        .chain(SIZES.map(one))
        .chain([128, 1024].map(copying))
        .collect()
}

/// Changes of long chains, and formats.
fn jobs() -> Vec<Row> {
    let step = |blocks| Row::new(blocks, "work, one step, long copying", Call::Work(1, 1, 0), Kind::Copying);
    let one = |blocks| Row::new(blocks, "work, one step, copying one code", Call::Work(1, 1, 0), Kind::CopyingOneCode);
    let pair = |blocks| Row::new(blocks, "insert and removal, longest chain", Call::Pair, Kind::NearlyLongest);
    let formats = [("format refused, in use", Call::Kept), ("format over", Call::Over)];
    let formats = formats
        .into_iter()
        .flat_map(|(name, call)| SIZES.map(|blocks| Row::new(blocks, name, call, Kind::Even(blocks / 2, Split::Over))));
    SIZES.map(step).into_iter().chain([128, 1024].map(one)).chain(SIZES.map(pair)).chain(formats).collect()
}

/// Whole splits, each in one call; then the same, sealed once by the ordinary side. Then splits of one of many buckets.
fn splits() -> Vec<Row> {
    let wanted = |blocks| {
        let (name, steps) = (format!("work, whole split of {}", 10 * blocks), 10 * blocks + 3);
        Row::new(blocks, name, Call::Work(65_535, steps, 9), Kind::Wanting)
    };
    // Here more splits are wanted, so the budget ends the call.
    let long = |blocks| {
        let (all, leave) = leavers(blocks);
        let (name, steps) = (format!("work, whole split, {leave} of {all}"), 2 * leave + 3);
        Row::new(blocks, name, Call::Work(steps, steps, 0), Kind::Leaving)
    };
    let even =
        |blocks| Row::new(blocks, "work, whole split, even", Call::WholeSplit, Kind::Even(blocks / 2, Split::Wanted));
    // Bucket 512 needs a new point, of 128 buckets.
    let name = "work, whole split, even, to 513 buckets";
    let phase = Row::new(1024, name, Call::WholeSplit, Kind::Even(513, Split::Wanted));
    let splits = [wanted(16), wanted(64), wanted(128), long(128), wanted(1024), long(1024)];
    let once = splits.clone().map(Row::sealed_once);
    splits.into_iter().chain(once).chain(SIZES.map(even)).chain([phase]).collect()
}

/// Squeezes of the longest chain that there is, half empty and thin: one step, and all in one call.
fn squeezes() -> Vec<Row> {
    let kinds = [("half empty", Kind::HalfEmpty), ("thin", Kind::Thin)];
    let rows = |(name, kind)| {
        let name_of_step = format!("squeeze, one step, {name} chain");
        let step = SIZES.map(|blocks| Row::new(blocks, &name_of_step, Call::SqueezeStep, kind));
        let whole = SIZES.map(|blocks| {
            let name = format!("squeeze, {name} chain of {} to its end", blocks - 3);
            Row::new(blocks, name, Call::WholeSqueeze, kind)
        });
        [step, whole].concat()
    };
    kinds.into_iter().flat_map(rows).collect()
}
