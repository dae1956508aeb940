//! Arithmetic modulo a number: modulo p for elements, modulo q for exponents.

/// The difference of two residues, from 0 to the modulus - 1.
pub fn difference(a: u32, b: u32, modulus: u32) -> u32 {
    if a < b {
        a + (modulus - b)
    } else {
        a - b
    }
}

pub fn product(a: u32, b: u32, modulus: u32) -> u32 {
    (u64::from(a) * u64::from(b) % u64::from(modulus)) as u32
}

/// 1 at exponent 0, and otherwise from the power at half the exponent.
pub fn power(base: u32, exponent: u32, modulus: u32) -> u32 {
    if exponent == 0 {
        return 1;
    }
    let half = power(base, exponent / 2, modulus);
    let even = product(half, half, modulus);
    if exponent % 2 == 1 {
        product(even, base, modulus)
    } else {
        even
    }
}

/// The inverse of a residue other than 0 modulo a prime, by Euclid's algorithm: a times s is the remainder `old`, and
/// a times t the remainder `new`.
pub fn inverse(a: u32, modulus: u32) -> u32 {
    let (mut old, mut new) = (i64::from(modulus), i64::from(a));
    let (mut s, mut t) = (0, 1);
    while new != 0 {
        let quotient = old / new;
        (old, new) = (new, old - quotient * new);
        (s, t) = (t, s - quotient * t);
    }
    s.rem_euclid(modulus.into()) as u32
}

/// The value at x of the polynomial with these coefficients, the constant first.
pub fn value_at(coefficients: &[u32], x: u32, modulus: u32) -> u32 {
    let (x, modulus) = (u64::from(x), u64::from(modulus));
    let mut value = 0;
    for &coefficient in coefficients.iter().rev() {
        value = (value * x + u64::from(coefficient)) % modulus;
    }
    value as u32
}

#[cfg(test)]
mod tests {
    use super::*;

    const P: u32 = 4_294_967_087;
    const Q: u32 = 2_147_483_543;

    #[test]
    fn a_power_is_a_repeated_product() {
        for (base, modulus) in [(9, 2039), (3_000_000_000, P)] {
            let mut repeated = 1;
            for exponent in 0..2039 {
                assert_eq!(power(base, exponent, modulus), repeated);
                repeated = product(repeated, base, modulus);
            }
        }
    }

    #[test]
    fn products_of_large_figures() {
        assert_eq!(product(P - 1, P - 1, P), 1);
        assert_eq!(power(P - 1, Q, P), P - 1);
    }

    #[test]
    fn a_difference_below_zero() {
        assert_eq!(difference(1, 3, 11), 9);
        assert_eq!(difference(3, 3, 11), 0);
        assert_eq!(difference(0, P - 1, P), 1);
    }

    #[test]
    fn a_residue_times_its_inverse_is_1() {
        for a in 1..1019 {
            assert_eq!(product(a, inverse(a, 1019), 1019), 1);
        }
        for a in [1, 2, 3, 65_536, Q / 2, Q - 2, Q - 1] {
            assert_eq!(product(a, inverse(a, Q), Q), 1);
        }
        assert_eq!(product(P - 2, inverse(P - 2, P), P), 1);
    }

    #[test]
    fn a_value_is_the_sum_over_the_powers() {
        assert_eq!(value_at(&[], 7, 11), 0);
        assert_eq!(value_at(&[3, 5], 2, 11), 2);
        assert_eq!(value_at(&[3, 0, 2, 1], 4, 1019), 3 + 2 * 16 + 64);
    }
}
