//! The check of a block: CRC-32C of RFC 3720, a byte at a time, over the store's number, the block's and its bytes.

const POLYNOMIAL: u32 = 0x82F6_3B78;

/// What eight single-bit steps make of each byte.
static TABLE: [u32; 256] = table();

const fn table() -> [u32; 256] {
    let mut table = [0; 256];
    let mut byte = 0;
    while byte < 256 {
        let mut crc = byte as u32;
        let mut bit = 0;
        while bit < 8 {
            crc = (crc >> 1) ^ (POLYNOMIAL & (crc & 1).wrapping_neg());
            bit += 1;
        }
        table[byte] = crc;
        byte += 1;
    }
    table
}

/// What eight single-bit steps make of the state.
fn shift_byte(crc: u32) -> u32 {
    (crc >> 8) ^ TABLE[usize::from(crc as u8)]
}

/// The state after the four bytes of a number: they go into it at once, and are worked off a byte at a time.
fn put_number(crc: u32, number: u32) -> u32 {
    (0..4).fold(crc ^ number, |state, _| shift_byte(state))
}

/// The state after some bytes, four at a time.
fn put_bytes(crc: u32, bytes: &[u8]) -> u32 {
    let mut fours = bytes.chunks_exact(4);
    let four = |four: &[u8]| u32::from_le_bytes([four[0], four[1], four[2], four[3]]);
    let crc = fours.by_ref().fold(crc, |crc, bytes| put_number(crc, four(bytes)));
    fours.remainder().iter().fold(crc, |crc, &byte| shift_byte(crc ^ u32::from(byte)))
}

/// CRC-32C of some bytes.
pub fn crc32c(bytes: &[u8]) -> u32 {
    !put_bytes(!0, bytes)
}

/// The check of the bytes of block `at` of the store with this number. Inlined where the number of bytes is known, it
/// takes one instruction in sixteen less.
#[inline]
pub fn check(number: u32, at: u32, bytes: &[u8]) -> u32 {
    !put_bytes(put_number(put_number(!0, number), at), bytes)
}

#[cfg(test)]
mod tests {
    use super::{check, crc32c};

    #[test]
    fn examples_of_rfc_3720() {
        let text = include_str!("../../../tests/vectors/rfc3720-crc32c.txt");
        let mut seen = 0;
        for line in text.lines().filter(|line| !line.starts_with('#')) {
            let (hex, check) = line.split_once(' ').expect("bytes and a check");
            let bytes: Vec<u8> =
                (0..hex.len() / 2).map(|i| u8::from_str_radix(&hex[2 * i..2 * i + 2], 16).expect("hex")).collect();
            assert_eq!(crc32c(&bytes), u32::from_str_radix(check, 16).expect("hex"), "{line}");
            seen += 1;
        }
        assert_eq!(seen, 6);
    }

    #[test]
    fn every_length_as_bit_by_bit() {
        let bit = |crc: u32| if crc % 2 == 1 { (crc >> 1) ^ super::POLYNOMIAL } else { crc >> 1 };
        let byte = |crc: u32, byte: &u8| (0..8).fold(crc ^ u32::from(*byte), |crc, _| bit(crc));
        let bytes: Vec<u8> = (0..2048u32).map(|i| (i.wrapping_mul(0x9E37_79B9) >> 24) as u8).collect();
        for len in (0..64).chain([508, 512, 2047, 2048]) {
            assert_eq!(crc32c(&bytes[..len]), !bytes[..len].iter().fold(!0, byte), "{len} bytes");
        }
    }

    #[test]
    fn numbers_come_first() {
        let bytes: Vec<u8> = (0..508u32).map(|i| (i.wrapping_mul(0x9E37_79B9) >> 24) as u8).collect();
        for (number, at) in [(0, 0), (7, 0), (0, 7), (0x0102_0304, 127), (u32::MAX, u32::MAX)] {
            let covered = [&u32::to_le_bytes(number)[..], &u32::to_le_bytes(at), &bytes].concat();
            assert_eq!(check(number, at, &bytes), crc32c(&covered), "store {number}, block {at}");
        }
        // 516 zeros.
        assert_eq!(check(0, 0, &[0; 508]), 0xB84E_1C9B);
    }
}
