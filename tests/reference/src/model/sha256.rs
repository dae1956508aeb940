//! SHA-256 as FIPS 180-4 has it. Its constants are worked out from the primes, as sections 4.2.2 and 5.3.3 define them.

use crate::model::answer::{require, Answer};
use crate::model::primes::is_prime;

/// The longest message, in bytes, that the operation takes.
const LONGEST: usize = 65_536;

const INITIAL: [u32; 8] = root_fractions(2);
const ROUND: [u32; 64] = root_fractions(3);

/// The first 32 bits of the fractional parts of the roots of the first N primes: square roots for degree 2, cube
/// roots for degree 3.
const fn root_fractions<const N: usize>(degree: u32) -> [u32; N] {
    let mut fractions = [0; N];
    let mut found = 0;
    let mut candidate = 2;
    while found < N {
        if is_prime(candidate) {
            fractions[found] = root((candidate as u128) << (32 * degree), degree) as u32;
            found += 1;
        }
        candidate += 1;
    }
    fractions
}

/// The largest number whose power of that degree is at most `power`, found bit by bit from 2^35 down.
const fn root(power: u128, degree: u32) -> u128 {
    let mut root: u128 = 0;
    let mut bit: u128 = 1 << 35;
    while bit > 0 {
        if (root + bit).pow(degree) <= power {
            root += bit;
        }
        bit /= 2;
    }
    root
}

/// The operation: 3 over 65,536 bytes.
pub fn digest(message: &[u8]) -> Answer<[u8; 32]> {
    require(message.len() <= LONGEST, 3)?;
    Ok(sha256(message))
}

/// The digest of a message of any length.
pub fn sha256(message: &[u8]) -> [u8; 32] {
    let mut state = INITIAL;
    let blocks = message.chunks_exact(64);
    let (end, size) = padded(blocks.remainder(), message.len());
    for block in blocks.chain(end[..size].chunks_exact(64)) {
        state = compress(state, &schedule(block));
    }
    let mut digest = [0; 32];
    for (bytes, word) in digest.chunks_exact_mut(4).zip(state) {
        bytes.copy_from_slice(&word.to_be_bytes());
    }
    digest
}

/// Section 5.1.1: behind what is left of the message a one bit, zero bits up to 64 below a whole block, and the
/// message's length in bits. That is one block or two: their bytes, and how many of them count.
fn padded(rest: &[u8], length: usize) -> ([u8; 128], usize) {
    let size = if rest.len() < 56 { 64 } else { 128 };
    let mut bytes = [0; 128];
    bytes[..rest.len()].copy_from_slice(rest);
    bytes[rest.len()] = 0x80;
    bytes[size - 8..size].copy_from_slice(&(8 * length as u64).to_be_bytes());
    (bytes, size)
}

/// Section 6.2.2, step 1: the message schedule of a block.
fn schedule(block: &[u8]) -> [u32; 64] {
    let mut w = [0; 64];
    for (t, bytes) in block.chunks_exact(4).enumerate() {
        w[t] = u32::from_be_bytes([bytes[0], bytes[1], bytes[2], bytes[3]]);
    }
    for t in 16..64 {
        let x = w[t - 15];
        let y = w[t - 2];
        let small0 = x.rotate_right(7) ^ x.rotate_right(18) ^ (x >> 3);
        let small1 = y.rotate_right(17) ^ y.rotate_right(19) ^ (y >> 10);
        w[t] = small1
            .wrapping_add(w[t - 7])
            .wrapping_add(small0)
            .wrapping_add(w[t - 16]);
    }
    w
}

/// Section 6.2.2, steps 2 to 4: the 64 rounds of a block, and the sum with the state before.
fn compress(before: [u32; 8], w: &[u32; 64]) -> [u32; 8] {
    let [mut a, mut b, mut c, mut d, mut e, mut f, mut g, mut h] = before;
    for t in 0..64 {
        let large1 = e.rotate_right(6) ^ e.rotate_right(11) ^ e.rotate_right(25);
        let choice = (e & f) ^ (!e & g);
        let t1 = h
            .wrapping_add(large1)
            .wrapping_add(choice)
            .wrapping_add(ROUND[t])
            .wrapping_add(w[t]);
        let large0 = a.rotate_right(2) ^ a.rotate_right(13) ^ a.rotate_right(22);
        let majority = (a & b) ^ (a & c) ^ (b & c);
        let t2 = large0.wrapping_add(majority);
        (h, g, f, e) = (g, f, e, d.wrapping_add(t1));
        (d, c, b, a) = (c, b, a, t1.wrapping_add(t2));
    }
    let mut after = [a, b, c, d, e, f, g, h];
    for (word, old) in after.iter_mut().zip(before) {
        *word = word.wrapping_add(old);
    }
    after
}

/// NIST's example messages: of 24, 0, 448 and 896 bits.
pub const EXAMPLES: [&[u8]; 4] = [
    b"abc",
    b"",
    b"abcdbcdecdefdefgefghfghighijhijkijkljklmklmnlmnomnopnopq",
    b"abcdefghbcdefghicdefghijdefghijkefghijklfghijklmghijklmn\
      hijklmnoijklmnopjklmnopqklmnopqrlmnopqrsmnopqrstnopqrstu",
];

#[cfg(test)]
mod tests {
    use super::*;
    use crate::model::record::hex;

    #[test]
    fn constants_at_the_ends() {
        assert_eq!((INITIAL[0], INITIAL[7]), (0x6a09e667, 0x5be0cd19));
        assert_eq!((ROUND[0], ROUND[63]), (0x428a2f98, 0xc67178f2));
    }

    #[test]
    fn published_examples() {
        let digests = [
            "ba7816bf8f01cfea414140de5dae2223b00361a396177a9cb410ff61f20015ad",
            "e3b0c44298fc1c149afbf4c8996fb92427ae41e4649b934ca495991b7852b855",
            "248d6a61d20638b8e5c026930c3e6039a33ce45964ff2167f6ecedd419db06c1",
            "cf5b16a778af8380036ce59e7b0492370b249b11e8f07a51afac45037afee9d1",
        ];
        for (message, digest) in EXAMPLES.iter().zip(digests) {
            assert_eq!(hex(&sha256(message)), digest);
        }
    }

    #[test]
    fn a_million_times_a() {
        let digest = "cdc76e5c9914fb9281a1c7e284d73e67f1809a48a497200e046d39ccc7112cd0";
        assert_eq!(hex(&sha256(&[b'a'; 1_000_000])), digest);
    }

    #[test]
    fn the_longest_message() {
        assert!(digest(&[0; 65_536]).is_ok());
        assert_eq!(digest(&[0; 65_537]), Err(3));
    }
}
