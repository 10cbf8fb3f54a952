//! Replays the files of tests/vectors, whose README.md says how they are written: whole stores, document 02's with
//! their journals, and the answer of every call on each.

use crate::numbered::{numbered, unnumbered};
use crate::seal::{self, check};
use crate::sha256::first8;
use crate::side::{Reply, Side, JOURNAL};
use crate::twin::wiped;
use crate::word::places;

/// A file of tests/vectors.
pub fn file(name: &str) -> String {
    let folder = concat!(env!("CARGO_MANIFEST_DIR"), "/../../tests/vectors");
    std::fs::read_to_string(format!("{folder}/{name}")).unwrap_or_else(|error| panic!("{name}: {error}"))
}

/// How many calls were replayed, gauges aside, and how many of them were refused with 12, and with 14; how many were
/// squeezes, and how many of those were refused with 11 and how many made a step; how many were recoveries, and how many
/// of those changed the store; how many were looks, and how many of those found a block in the journal; how many gauges
/// there were besides, and how many of those showed other numbers than 0.
#[derive(Debug, Default, PartialEq, Eq)]
pub struct Replayed {
    pub calls: u32,
    pub in_use: u32,
    pub pending: u32,
    pub squeezes: u32,
    pub busy: u32,
    pub moved: u32,
    pub recoveries: u32,
    pub mended: u32,
    pub looks: u32,
    pub in_journal: u32,
    pub gauges: u32,
    pub shown: u32,
}

impl Replayed {
    /// Holds what a call wrote to what the file says, and counts the call.
    fn call(&mut self, written: &str, said: &str, label: &str) {
        assert_eq!(written, said, "{label}");
        self.calls += 1;
        self.in_use += u32::from(said.starts_with("12 "));
        self.pending += u32::from(said.starts_with("14 "));
    }

    /// Counts a squeeze, a recovery, a look or a gauge by what the file says.
    fn count(&mut self, kind: &str, said: &[&str], store: &[u8]) {
        match kind {
            "z" => {
                self.squeezes += 1;
                self.busy += u32::from(said[0] == "11");
                self.moved += u32::from(said[2] != "0");
            }
            "R" => {
                self.recoveries += 1;
                self.mended += u32::from(said[1] != first8(store));
            }
            "L" => {
                self.looks += 1;
                self.in_journal += u32::from(said[1].starts_with('j'));
            }
            "g" => {
                self.calls -= 1; // counted apart
                self.gauges += 1;
                self.shown += u32::from(said[2] != "0000000000000000");
            }
            _ => {}
        }
    }
}

/// Replays stores.txt on a side, each store under a number. A format is made twice: overwriting, as the file has it,
/// and not overwriting.
pub fn replay_01<S: Side>(text: &str, number: u32) -> Replayed {
    let mut store = Vec::new();
    let mut used = false;
    let mut replayed = Replayed::default();
    for (line, place) in text.lines().zip(1..) {
        let label = format!("line {place} of stores.txt, under number {number}");
        let (kind, words) = split(line);
        if kind == "S" {
            let bare = unhex(words.first().unwrap_or(&""));
            store = numbered(&bare, number);
            used = false;
            assert!(unnumbered(&store, number) == bare, "{label}: other bytes there and back");
            continue;
        }
        let (taken, said) = words.split_at(arguments(kind, 1));
        let (taken, all) = (numbers(taken), said.join(" "));
        let written = |taken: &[u32]| {
            let (answer, left) = answer::<S>(&store, &wiped(), kind, taken);
            // The journal of a change is no part of document 01.
            with_digests(answer, left.iter().take(1).map(|after| unnumbered(after, number)))
        };
        match (kind, &taken[..]) {
            ("f", &[fill]) => {
                replayed.call(&written(&[fill, number, 1]), &all, &label);
                let kept = format!("12 {}", first8(&unnumbered(&store, number)));
                let wanted = if used && said[0] == "0" { kept } else { all };
                replayed.call(&written(&[fill, number, 0]), &wanted, &label);
            }
            _ => replayed.call(&written(&taken), &all, &label),
        }
        if kind == "s" {
            used = in_use::<S>(&store, said, &label);
        }
    }
    replayed
}

/// Whether a store is in use by what a file says of its standing; in_use says so too.
fn in_use<S: Side>(store: &[u8], said: &[&str], label: &str) -> bool {
    let used = said[0] == "0" && said[2] != "0";
    let wanted = match said[0] {
        "0" if used => 12,
        "1" => 1,
        _ => 0,
    };
    assert_eq!(S::in_use(store), Reply::refused(wanted, 0), "{label}: in_use");
    used
}

/// Replays 02/stores.txt on a side.
pub fn replay_02<S: Side>(text: &str) -> Replayed {
    let (mut store, mut journal) = (Vec::new(), Vec::new());
    let mut replayed = Replayed::default();
    for (line, place) in text.lines().zip(1..) {
        let label = format!("line {place} of 02/stores.txt");
        let (kind, words) = split(line);
        match kind {
            "S" => (store, journal) = (unused(&numbers(&words)), empty_journal()),
            "B" => put_block(&mut store, &words),
            "J" => journal = vec![0; JOURNAL],
            "K" => put_block(&mut journal, &words),
            _ => {
                let (taken, said) = words.split_at(arguments(kind, 3));
                let (answer, left) = answer::<S>(&store, &journal, kind, &numbers(taken));
                replayed.call(&with_digests(answer, left.into_iter()), &said.join(" "), &label);
                replayed.count(kind, said, &store);
                if kind == "s" {
                    in_use::<S>(&store, said, &label);
                }
            }
        }
    }
    replayed
}

/// The first word of a line, and the others.
fn split(line: &str) -> (&str, Vec<&str>) {
    let mut words = line.split_whitespace();
    (words.next().unwrap_or_default(), words.collect())
}

fn numbers(words: &[&str]) -> Vec<u32> {
    words.iter().map(|word| word.parse().expect("a number")).collect()
}

fn unhex(digits: &str) -> Vec<u8> {
    let digit = |c: u8| (c as char).to_digit(16).expect("a hex digit") as u8;
    digits.as_bytes().chunks(2).map(|pair| digit(pair[0]) << 4 | digit(pair[1])).collect()
}

/// How many numbers a line has for its call; the files differ in what a format has.
fn arguments(kind: &str, format: usize) -> usize {
    match kind {
        "V" | "s" | "g" | "R" => 0,
        "w" | "L" => 1,
        "?" | "z" => 2,
        "+" | "-" => 3,
        "f" => format,
        other => panic!("a file has a call {other}"),
    }
}

/// A store of unused blocks under a number.
fn unused(numbers: &[u32]) -> Vec<u8> {
    let &[blocks, number] = numbers else { panic!("S has {numbers:?}") };
    let mut store = vec![0; blocks as usize * 512];
    for (at, block) in store.chunks_exact_mut(512).enumerate() {
        let check = check(number, at, block);
        block[508..].copy_from_slice(&check.to_le_bytes());
    }
    store
}

/// Puts zeros with some bytes in place of a block.
fn put_block(store: &mut [u8], words: &[&str]) {
    let at: usize = words[0].parse().expect("a block");
    let block = &mut store[512 * at..512 * (at + 1)];
    block.fill(0);
    for run in &words[1..] {
        let (from, hex) = run.split_once(':').expect("an offset and bytes");
        let (from, bytes): (usize, _) = (from.parse().expect("an offset"), unhex(hex));
        block[from..from + bytes.len()].copy_from_slice(&bytes);
    }
}

/// A journal of zeros but for its wiped head.
fn empty_journal() -> Vec<u8> {
    let mut journal = wiped();
    journal[512..].fill(0);
    journal
}

/// What a file says of an answer: with the digests of what the call left.
fn with_digests(answer: String, left: impl Iterator<Item = Vec<u8>>) -> String {
    left.fold(answer, |said, bytes| format!("{said} {}", first8(&bytes)))
}

/// Makes a call on copies of store and journal. Gives what a file says of its answer, and what the file has digests of:
/// the store, if the call may change it, and the journal, if it may change that too.
fn answer<S: Side>(store: &[u8], journal: &[u8], kind: &str, numbers: &[u32]) -> (String, Vec<Vec<u8>>) {
    let (mut copy, mut left) = (store.to_vec(), journal.to_vec());
    let said = match (kind, numbers) {
        ("V", []) => return (plain(S::verify(store)), Vec::new()),
        ("s", []) => {
            let (reply, s) = S::standing(store);
            let state = format!("{} {} {} {} {} {}", s.count, s.buckets, s.phase, s.old, s.new, s.slack);
            return (format!("{} {state}", plain(reply)), Vec::new());
        }
        ("g", []) => {
            let (reply, [per_bucket, per_page]) = S::gauge(store);
            return (format!("{} {per_bucket:016x} {per_page:016x}", plain(reply)), Vec::new());
        }
        ("?", &[hash, room]) => return (lookup::<S>(store, hash, room), Vec::new()),
        ("L", &[block]) => return (look::<S>(store, journal, block), Vec::new()),
        ("f", &[fill, number, overwrite]) => {
            let reply = S::format(&mut copy, fill, number, overwrite);
            return (reply.number.to_string(), vec![copy]);
        }
        ("+", &[hash, block, offset]) => plain(S::insert(&mut copy, &mut left, hash, block, offset)),
        ("-", &[hash, block, offset]) => plain(S::remove(&mut copy, &mut left, hash, block, offset)),
        ("w", &[budget]) => steps(S::work(&mut copy, &mut left, budget)),
        ("z", &[bucket, budget]) => steps(S::squeeze(&mut copy, &mut left, bucket, budget)),
        ("R", []) => S::recover(&mut copy, &mut left).number.to_string(),
        other => panic!("a file has a call {other:?}"),
    };
    (said, vec![copy, left])
}

fn steps(reply: Reply) -> String {
    format!("{} {} {}", plain(reply), reply.steps, reply.stop)
}

/// Where the block is found, and the digest of its bytes there, or of none.
fn look<S: Side>(store: &[u8], journal: &[u8], block: u32) -> String {
    let reply = S::look(store, journal, block);
    let (place, slice) = match (reply.done(), reply.stop) {
        (true, 0) => ("s".into(), store),
        (true, _) => (format!("j{}", reply.gives), journal),
        _ => ("-".into(), store),
    };
    let bytes = if reply.done() { seal::block(slice, reply.gives as usize) } else { &[] };
    format!("{} {place} {}", reply.number, first8(bytes))
}

fn plain(reply: Reply) -> String {
    format!("{} {}", reply.number, reply.gives)
}

fn lookup<S: Side>(store: &[u8], hash: u32, room: u32) -> String {
    let mut output = vec![0xEE; room as usize];
    let reply = S::lookup(store, hash, &mut output);
    let matches = if reply.done() { reply.gives as usize } else { 0 };
    let mut said = format!("{} {matches}", plain(reply));
    for (block, offset) in places(&output[..6 * matches]) {
        said += &format!(" {block}/{offset}");
    }
    assert!(output[6 * matches..].iter().all(|&byte| byte == 0xEE), "lookup {hash} {room} wrote past its matches");
    said
}
