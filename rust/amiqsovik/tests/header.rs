//! The package and the headers in include say the same of the version, the sizes and the names.

use amiqsovik::{format_over, wipe, Refusal, Stop};
use amiqsovik::{BLOCK_SIZE, JOURNAL_SIZE, MATCH_SIZE, MAX_BLOCKS, MIN_BLOCKS, PLAN_SIZE};

const HEADER: &str = include_str!("../../../include/amiqsovik.h");
const READERS: &str = include_str!("../../../include/amiqsovik_read.h");

/// What the header defines a name as.
fn defined(name: &str) -> &'static str {
    let rest = HEADER.lines().find_map(|line| line.strip_prefix("#define AMIQSOVIK_")?.strip_prefix(name));
    let value = rest.and_then(|rest| rest.strip_prefix(' ')).expect(name);
    value.split("/*").next().unwrap_or_default().trim()
}

#[test]
fn version() {
    assert_eq!(defined("VERSION_TEXT"), format!("{:?}", env!("CARGO_PKG_VERSION")));
    assert_eq!(defined("VERSION_MAJOR"), env!("CARGO_PKG_VERSION_MAJOR"));
    assert_eq!(defined("VERSION_MINOR"), env!("CARGO_PKG_VERSION_MINOR"));
    assert_eq!(defined("VERSION_PATCH"), env!("CARGO_PKG_VERSION_PATCH"));
}

#[test]
fn sizes() {
    assert_eq!(defined("BLOCK_BYTES"), BLOCK_SIZE.to_string());
    assert_eq!(defined("MATCH_BYTES"), MATCH_SIZE.to_string());
    assert_eq!((defined("RESULT_BYTES"), defined("RESULT_SHORT")), ("28", "255"));
    assert_eq!(defined("MIN_BLOCKS"), MIN_BLOCKS.to_string());
    assert_eq!(defined("MAX_BLOCKS"), MAX_BLOCKS.to_string());
    assert_eq!(defined("JOURNAL_BYTES"), JOURNAL_SIZE.to_string());
    assert_eq!(defined("PLAN_BYTES"), PLAN_SIZE.to_string());
    assert_eq!((defined("PART_STORE"), defined("PART_JOURNAL")), ("0", "1"));
}

/// The archive takes just these numbers of blocks.
#[test]
fn fewest_and_most_blocks() {
    let format = |blocks| format_over(&mut vec![0; blocks * BLOCK_SIZE], 1, 0);
    assert_eq!([MIN_BLOCKS, MAX_BLOCKS].map(format), [Ok(()); 2]);
    assert_eq!([0, MIN_BLOCKS - 1, MAX_BLOCKS + 1, 2 * MAX_BLOCKS].map(format), [Err(Refusal::Length); 4]);
}

/// And journals of just this length.
#[test]
fn bytes_of_a_journal() {
    let wipe = |bytes| wipe(&mut vec![0; bytes]);
    assert_eq!(wipe(JOURNAL_SIZE), Ok(()));
    let others = [0, JOURNAL_SIZE - 1, JOURNAL_SIZE + 1, JOURNAL_SIZE - BLOCK_SIZE, JOURNAL_SIZE + BLOCK_SIZE];
    assert_eq!(others.map(wipe), [Err(Refusal::JournalLength); 5]);
}

#[test]
fn numbers_and_names() {
    let refusals = [
        ("LENGTH", Refusal::Length),
        ("NUMBER", Refusal::Number),
        ("DAMAGED", Refusal::Damaged { block: 1 }),
        ("NOT_AN_INDEX", Refusal::NotAnIndex { rule: 1 }),
        ("HELD_ALREADY", Refusal::HeldAlready),
        ("NOT_HELD", Refusal::NotHeld),
        ("NO_ROOM", Refusal::NoRoom),
        ("OUTPUT_SHORT", Refusal::OutputShort { matches: 1 }),
        ("BUSY", Refusal::Busy),
        ("IN_USE", Refusal::InUse),
        ("JOURNAL_LENGTH", Refusal::JournalLength),
        ("PENDING", Refusal::Pending),
    ];
    for (name, refusal) in refusals {
        assert_eq!(defined(name), refusal.number().to_string(), "{name}");
        let case = format!("case AMIQSOVIK_{name}: return {:?};", refusal.name());
        assert!(READERS.contains(&case), "the readers lack `{case}`");
    }
    for (name, stop) in [("STOP_SPENT", Stop::Spent), ("STOP_NO_ROOM", Stop::NoRoom), ("STOP_IDLE", Stop::Idle)] {
        assert_eq!(defined(name), stop.number().to_string(), "{name}");
    }
}
