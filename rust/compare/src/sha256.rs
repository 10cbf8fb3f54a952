//! SHA-256, for the digests in tests/vectors.

/// The first 32 bits of the cube roots' fractions of the first 64 primes, and of the square roots' of the first 8.
fn constants() -> ([u32; 64], [u32; 8]) {
    let primes: Vec<u32> = (2u32..).filter(|n| (2..*n).all(|d| n % d != 0)).take(64).collect();
    let fraction = |root: f64| ((root - root.floor()) * 4_294_967_296.0) as u32;
    let k = std::array::from_fn(|i| fraction(f64::from(primes[i]).cbrt()));
    let h = std::array::from_fn(|i| fraction(f64::from(primes[i]).sqrt()));
    (k, h)
}

/// The digest's first 8 hex digits.
pub fn first8(message: &[u8]) -> String {
    let (k, mut h) = constants();
    let mut padded = message.to_vec();
    padded.push(0x80);
    while padded.len() % 64 != 56 {
        padded.push(0);
    }
    padded.extend_from_slice(&(8 * message.len() as u64).to_be_bytes());
    for chunk in padded.chunks_exact(64) {
        compress(&mut h, &k, chunk);
    }
    format!("{:08x}", h[0])
}

fn schedule(chunk: &[u8]) -> [u32; 64] {
    let mut w = [0u32; 64];
    for (word, bytes) in w.iter_mut().zip(chunk.chunks_exact(4)) {
        *word = u32::from_be_bytes([bytes[0], bytes[1], bytes[2], bytes[3]]);
    }
    for i in 16..64 {
        let (a, b) = (w[i - 15], w[i - 2]);
        let s0 = a.rotate_right(7) ^ a.rotate_right(18) ^ (a >> 3);
        let s1 = b.rotate_right(17) ^ b.rotate_right(19) ^ (b >> 10);
        w[i] = w[i - 16].wrapping_add(s0).wrapping_add(w[i - 7]).wrapping_add(s1);
    }
    w
}

fn compress(state: &mut [u32; 8], k: &[u32; 64], chunk: &[u8]) {
    let [mut a, mut b, mut c, mut d, mut e, mut f, mut g, mut h] = *state;
    for (w, k) in schedule(chunk).into_iter().zip(k) {
        let s1 = e.rotate_right(6) ^ e.rotate_right(11) ^ e.rotate_right(25);
        let t1 = h.wrapping_add(s1).wrapping_add((e & f) ^ (!e & g)).wrapping_add(*k).wrapping_add(w);
        let s0 = a.rotate_right(2) ^ a.rotate_right(13) ^ a.rotate_right(22);
        let t2 = s0.wrapping_add((a & b) ^ (a & c) ^ (b & c));
        (h, g, f, e, d, c, b, a) = (g, f, e, d.wrapping_add(t1), c, b, a, t1.wrapping_add(t2));
    }
    for (word, add) in state.iter_mut().zip([a, b, c, d, e, f, g, h]) {
        *word = word.wrapping_add(add);
    }
}

#[test]
fn examples_of_fips_180() {
    assert_eq!(first8(b""), "e3b0c442");
    assert_eq!(first8(b"abc"), "ba7816bf");
    assert_eq!(first8(&[b'a'; 1_000_000]), "cdc76e5c");
}
