//! Numbers as they stand in stores and outputs: little-endian.

/// The word of four bytes at `at`.
pub fn word(bytes: &[u8], at: usize) -> u32 {
    u32::from_le_bytes(std::array::from_fn(|i| bytes[at + i]))
}

/// The places that a lookup wrote, of six bytes each.
pub fn places(output: &[u8]) -> impl Iterator<Item = (u32, u16)> + '_ {
    output.chunks_exact(6).map(|place| (word(place, 0), u16::from_le_bytes([place[4], place[5]])))
}
