//! What the archive answers, taken apart: the word of each call, and the bytes that standing writes.

use crate::answer::{Part, Phase, Place, Planned, Refusal, Standing, Stop, Worked};

/// The bytes that standing writes.
pub const RESULT_SIZE: usize = 28;

/// The word that a call answers.
#[derive(Clone, Copy)]
pub struct Word(pub u64);

impl Word {
    /// Bits 32..63: what the answer gives besides.
    pub fn gives(self) -> u32 {
        (self.0 >> 32) as u32
    }

    /// Bits 16..31: the steps of work or a squeeze.
    pub fn steps(self) -> u32 {
        (self.0 >> 16) as u32 & 0xFFFF
    }

    /// Bits 8..15: the stop of work or a squeeze, or a part.
    fn second(self) -> u8 {
        (self.0 >> 8) as u8
    }

    /// The stop of work or a squeeze.
    pub fn stop(self) -> Stop {
        match self.second() {
            0 => Stop::Spent,
            7 => Stop::NoRoom,
            9 => Stop::Idle,
            number => Stop::Unknown { number },
        }
    }

    /// What work or a squeeze did.
    pub fn worked(self) -> Worked {
        Worked { steps: self.steps(), stop: self.stop() }
    }

    /// What planning a step came to: no change is made in no block stores.
    pub fn planned(self) -> Planned {
        match self.gives() {
            0 => Planned::Stopped(self.stop()),
            stores => Planned::Stores(stores),
        }
    }

    /// The block that was looked at or written.
    pub fn place(self) -> Place {
        let part = match self.second() {
            0 => Part::Store,
            1 => Part::Journal,
            number => Part::Unknown { number },
        };
        Place { part, block: self.gives() }
    }

    /// Bits 0..7: done, or the refusal.
    pub fn done(self) -> Result<Self, Refusal> {
        let gives = self.gives();
        Err(match self.0 as u8 {
            0 => return Ok(self),
            1 => Refusal::Length,
            2 => Refusal::Number,
            3 => Refusal::Damaged { block: gives },
            4 => Refusal::NotAnIndex { rule: gives },
            5 => Refusal::HeldAlready,
            6 => Refusal::NotHeld,
            7 => Refusal::NoRoom,
            8 => Refusal::OutputShort { matches: gives },
            11 => Refusal::Busy,
            12 => Refusal::InUse,
            13 => Refusal::JournalLength,
            14 => Refusal::Pending,
            number => Refusal::Unknown { number, gives },
        })
    }
}

/// The bytes of a standing: count, buckets, phase, old and new bucket, 32 bits each, and the slack, 64 bits.
pub fn standing(result: &[u8; RESULT_SIZE]) -> Standing {
    let (numbers, slack) = result.split_at(20);
    let number = |i: usize| u32::from_le_bytes(core::array::from_fn(|k| numbers[4 * i + k]));
    let (old, new) = (number(3), number(4));
    let phase = match number(2) {
        0 => Phase::None,
        1 => Phase::Copying { old, new },
        2 => Phase::Clearing { old, new },
        number => Phase::Unknown { number, old, new },
    };
    let slack = i64::from_le_bytes(core::array::from_fn(|k| slack[k]));
    Standing { count: number(0), buckets: number(1), phase, slack }
}

#[cfg(test)]
mod tests {
    use super::*;

    /// Document 01's table with 11 to 14, and what a word with each number becomes. 9, 10 and 255 are none of the
    /// wrapper's.
    #[test]
    fn refusals_by_number() {
        let names =
            ["length", "number", "damaged", "not an index", "held already", "not held", "no room", "output short"];
        for number in 1..=255u8 {
            let refusal = Word(77 << 32 | u64::from(number)).done().err().expect("a refusal");
            let other = match number {
                11 => "busy",
                12 => "in use",
                13 => "journal length",
                14 => "pending",
                _ => "unknown",
            };
            let name = names.get(usize::from(number) - 1).copied().unwrap_or(other);
            let gives = if [1, 2, 5, 6, 7, 11, 12, 13, 14].contains(&number) { 0 } else { 77 };
            assert_eq!((refusal.number(), refusal.gives(), refusal.name()), (number, gives, name));
        }
        assert_eq!(Word(15).done().err(), Some(Refusal::Unknown { number: 15, gives: 0 }));
        assert_eq!(Word(77 << 32).done().map(Word::gives), Ok(77));
    }

    #[test]
    fn stops_by_number() {
        for number in 0..=255u8 {
            let word = Word(0x1234 << 16 | u64::from(number) << 8);
            assert_eq!((word.stop().number(), word.steps()), (number, 0x1234));
            assert_eq!(word.worked(), Worked { steps: 0x1234, stop: word.stop() });
            assert_eq!(matches!(word.stop(), Stop::Unknown { .. }), ![0, 7, 9].contains(&number));
        }
    }

    #[test]
    fn parts_and_plans() {
        let word = |second: u64, gives: u64| Word(gives << 32 | second << 8);
        assert_eq!(word(0, 1023).place(), Place { part: Part::Store, block: 1023 });
        assert_eq!(word(1, 15).place(), Place { part: Part::Journal, block: 15 });
        assert_eq!(word(2, 15).place().part, Part::Unknown { number: 2 });
        assert_eq!(word(0, 19).planned(), Planned::Stores(19));
        assert_eq!([7, 9].map(|stop| word(stop, 0).planned()), [Stop::NoRoom, Stop::Idle].map(Planned::Stopped));
    }

    #[test]
    fn phases_by_number() {
        let mut result = [0; RESULT_SIZE];
        (result[0], result[5], result[12], result[16]) = (9, 1, 4, 12);
        result[20..].copy_from_slice(&(-6i64).to_le_bytes());
        let (old, new) = (4, 12);
        let phases = [Phase::None, Phase::Copying { old, new }, Phase::Clearing { old, new }];
        for number in 0..=255u8 {
            result[8] = number;
            let unknown = Phase::Unknown { number: number.into(), old, new };
            let phase = *phases.get(usize::from(number)).unwrap_or(&unknown);
            assert_eq!(standing(&result), Standing { count: 9, buckets: 256, phase, slack: -6 });
        }
    }
}
