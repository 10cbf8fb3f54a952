//! Scripts: one line, one call.

use crate::{calls, journal, Refusal};
use std::fmt::Write;

/// The most blocks of a script's store, and the output bytes that a lookup lends: enough for all that they can hold.
const MOST: u32 = 128;
const OUTPUT: usize = 30_000;
const BLOCK: usize = 512;
const JOURNAL: usize = 16 * BLOCK;

/// What a script lends to its calls: a store, of no bytes before the first format, and a journal of its own.
struct Lent {
    store: Vec<u8>,
    journal: Vec<u8>,
}

impl Lent {
    fn new() -> Self {
        let mut journal = vec![0; JOURNAL];
        journal[..BLOCK].copy_from_slice(&journal::WIPED);
        Lent { store: Vec::new(), journal }
    }
}

/// Runs a script and gives what it writes.
pub fn run(input: &[u8]) -> String {
    let mut lent = Lent::new();
    let mut written = String::new();
    let body = input.strip_suffix(b"\n").unwrap_or(input);
    let lines = body.split(|&byte| byte == b'\n').take(if input.is_empty() { 0 } else { usize::MAX });
    for (line, number) in lines.zip(1..) {
        let shown = match parse(line) {
            None => Err(10),
            Some(call) => answer(&mut lent, call).map_err(Refusal::number),
        };
        let text = shown.unwrap_or_else(|refusal| format!("line {number}: refused {refusal}"));
        written.push_str(&text);
        written.push('\n');
    }
    written
}

enum Call {
    Format(u32, u32, u32, u32),
    Insert(u32, u32, u32),
    Remove(u32, u32, u32),
    Lookup(u32),
    Work(u32),
}

/// The call of a line, if it can be read.
fn parse(line: &[u8]) -> Option<Call> {
    if line.len() > 80 {
        return None;
    }
    let mut words = line.split(|&byte| byte == b' ');
    let letter = words.next()?;
    let numbers = words.map(number).collect::<Option<Vec<u32>>>()?;
    match (letter, numbers[..].as_ref()) {
        (b"f", &[blocks, fill, number, overwrite]) => Some(Call::Format(blocks, fill, number, overwrite)),
        (b"+", &[hash, block, offset]) => Some(Call::Insert(hash, block, offset)),
        (b"-", &[hash, block, offset]) => Some(Call::Remove(hash, block, offset)),
        (b"?", &[hash]) => Some(Call::Lookup(hash)),
        (b"w", &[budget]) => Some(Call::Work(budget)),
        _ => None,
    }
}

/// A decimal number: digits, no leading zero but 0 itself.
fn number(word: &[u8]) -> Option<u32> {
    if word.len() > 1 && word[0] == b'0' || !word.iter().all(u8::is_ascii_digit) {
        return None;
    }
    std::str::from_utf8(word).ok()?.parse().ok()
}

/// Makes a call and says what is written for it.
fn answer(Lent { store, journal }: &mut Lent, call: Call) -> Result<String, Refusal> {
    match call {
        Call::Format(blocks, fill, number, overwrite) => {
            if blocks > MOST {
                return Err(Refusal::Length);
            }
            let mut fresh = vec![0; blocks as usize * BLOCK];
            calls::format(&mut fresh, fill, number, overwrite)?;
            // The fresh store is never in use. The one that stands may be; of length 0, before the first, it is not.
            if overwrite == 0 && calls::in_use(store) == Ok(true) {
                return Err(Refusal::InUse);
            }
            *store = fresh;
            Ok(format!("store {blocks} fill {fill}"))
        }
        Call::Insert(hash, block, offset) => calls::insert(store, journal, hash, block, offset).map(|()| "ok".into()),
        Call::Remove(hash, block, offset) => calls::remove(store, journal, hash, block, offset).map(|()| "ok".into()),
        Call::Lookup(hash) => {
            let mut output = vec![0; OUTPUT];
            let matches = calls::lookup(store, hash, &mut output)?;
            Ok(list(&output, matches as usize))
        }
        Call::Work(budget) => {
            let worked = calls::work(store, journal, budget)?;
            Ok(format!("steps {} stop {}", worked.steps, worked.stop.number()))
        }
    }
}

fn list(output: &[u8], matches: usize) -> String {
    let mut text = format!("{matches}:");
    for place in output.chunks_exact(6).take(matches) {
        let block = u32::from_le_bytes([place[0], place[1], place[2], place[3]]);
        let offset = u16::from_le_bytes([place[4], place[5]]);
        // Writing to a String cannot fail.
        let _ = write!(text, " {block}/{offset}");
    }
    text
}
