//! The matches of a lookup.

use core::fmt;
use core::iter::FusedIterator;

/// The bytes that a match takes in the output.
pub const MATCH_SIZE: usize = 6;

/// The place of a reading.
#[derive(Debug, Clone, Copy, PartialEq, Eq, PartialOrd, Ord, Hash)]
pub struct Reading {
    /// The reading's block; never 4294967295.
    pub block: u32,
    /// The reading's offset in its block; never 0.
    pub offset: u16,
}

impl Reading {
    /// The reading at an offset of a block.
    #[must_use]
    pub const fn new(block: u32, offset: u16) -> Self {
        Reading { block, offset }
    }
}

/// An iterator over the readings that a lookup wrote to its output, ascending by block, then offset.
#[derive(Clone)]
pub struct Matches<'o> {
    rest: &'o [u8],
}

impl<'o> Matches<'o> {
    /// The first `number` matches of an output, or all that it has room for.
    pub(crate) fn new(output: &'o [u8], number: u32) -> Self {
        let room = output.len() / MATCH_SIZE;
        Matches { rest: &output[..room.min(number as usize) * MATCH_SIZE] }
    }

    /// The matches that are still to come, as they lie in the output: block (32 bits) and offset (16 bits),
    /// little-endian.
    #[must_use]
    pub fn as_bytes(&self) -> &'o [u8] {
        self.rest
    }
}

/// The readings that are still to come.
impl fmt::Debug for Matches<'_> {
    fn fmt(&self, f: &mut fmt::Formatter<'_>) -> fmt::Result {
        f.debug_list().entries(self.clone()).finish()
    }
}

impl Iterator for Matches<'_> {
    type Item = Reading;

    fn next(&mut self) -> Option<Reading> {
        let (&[a, b, c, d, e, f], rest) = self.rest.split_first_chunk::<MATCH_SIZE>()?;
        self.rest = rest;
        Some(Reading { block: u32::from_le_bytes([a, b, c, d]), offset: u16::from_le_bytes([e, f]) })
    }

    fn size_hint(&self) -> (usize, Option<usize>) {
        let left = self.rest.len() / MATCH_SIZE;
        (left, Some(left))
    }
}

impl ExactSizeIterator for Matches<'_> {}
impl FusedIterator for Matches<'_> {}

#[cfg(test)]
mod tests {
    use super::*;

    #[test]
    fn no_more_than_the_output_has_room_for() {
        let output = [7; 4 * MATCH_SIZE + 5];
        for (number, wanted) in [(0, 0), (3, 3), (4, 4), (5, 4), (u32::MAX, 4)] {
            assert_eq!(Matches::new(&output, number).len(), wanted);
        }
    }
}
