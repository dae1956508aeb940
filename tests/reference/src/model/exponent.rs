//! The exponent that a digest gives in a round.

use crate::model::round::Round;

/// The digest's first 8 bytes, or all of them under the new rule, as one number modulo q. A remainder has at most 32 bits,
/// so that it has room in 64 with the next word behind it.
pub fn of_digest(round: &Round, digest: &[u8; 32]) -> u32 {
    let q = u64::from(round.group.q);
    let [a, b, c, d, e, f, g, h, rest @ ..] = *digest;
    let mut remainder = u64::from_be_bytes([a, b, c, d, e, f, g, h]) % q;
    if round.takes_whole() {
        for word in rest.chunks_exact(4) {
            let word = u32::from_be_bytes([word[0], word[1], word[2], word[3]]);
            remainder = (remainder << 32 | u64::from(word)) % q;
        }
    }
    remainder as u32
}

#[cfg(test)]
mod tests {
    use super::*;
    use crate::model::round::Figures;
    use crate::model::sha256::sha256;
    use crate::numbers::Numbers;

    /// The round 1 of a group, under the old rule or the new one.
    fn round(number: u32, is_new: bool) -> Round {
        let figures = Figures::of(number, 4, 2).with_round(1);
        figures.with_first(is_new.into()).round().unwrap()
    }

    /// The remainder of a long division, bit by bit.
    fn divided(bytes: &[u8], q: u32) -> u32 {
        let mut remainder = 0;
        for k in 0..8 * bytes.len() {
            let bit = bytes[k / 8] >> (7 - k % 8) & 1;
            remainder = 2 * remainder + u64::from(bit);
            if remainder >= q.into() {
                remainder -= u64::from(q);
            }
        }
        remainder as u32
    }

    /// Digests, and bytes at the ends of their range.
    fn digests() -> Vec<[u8; 32]> {
        let mut numbers = Numbers::new(52);
        let mut digests: Vec<[u8; 32]> = (0..2000).map(|_| sha256(&numbers.bytes(9))).collect();
        digests.extend([[0; 32], [255; 32]]);
        for k in 0..32 {
            let mut digest = [0; 32];
            digest[k] = 1;
            digests.push(digest);
            digest[k..].fill(255);
            digests.push(digest);
        }
        digests
    }

    #[test]
    fn as_by_long_division() {
        for number in 1..=3 {
            let [old, new] = [false, true].map(|is_new| round(number, is_new));
            let q = new.group.q;
            for digest in digests() {
                assert_eq!(of_digest(&old, &digest), divided(&digest[..8], q));
                assert_eq!(of_digest(&new, &digest), divided(&digest, q));
            }
        }
    }

    /// Each byte of the digest counts under the new rule, and the first 8 alone before it.
    #[test]
    fn the_bytes_that_count() {
        for number in 1..=3 {
            for (is_new, count) in [(false, 8), (true, 32)] {
                let round = round(number, is_new);
                let digest = sha256(b"");
                let counts = |k: &usize| {
                    let mut other = digest;
                    other[*k] ^= 1;
                    of_digest(&round, &other) != of_digest(&round, &digest)
                };
                assert!((0..32).filter(counts).eq(0..count));
            }
        }
    }

    /// The q of group 3, once and with the largest remainder behind it.
    #[test]
    fn remainders_at_the_ends() {
        let new = round(3, true);
        let q = new.group.q;
        let mut digest = [0; 32];
        digest[28..].copy_from_slice(&(q - 1).to_be_bytes());
        assert_eq!(of_digest(&new, &digest), q - 1);
        digest[28..].copy_from_slice(&q.to_be_bytes());
        assert_eq!(of_digest(&new, &digest), 0);
        digest[..4].copy_from_slice(&q.to_be_bytes());
        digest[28..].copy_from_slice(&(q - 1).to_be_bytes());
        assert_eq!(of_digest(&new, &digest), q - 1);
    }
}
