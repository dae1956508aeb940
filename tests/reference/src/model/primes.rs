//! Primes by trial division.

pub const fn is_prime(n: u64) -> bool {
    let mut divisor = 2;
    while divisor * divisor <= n {
        if n.is_multiple_of(divisor) {
            return false;
        }
        divisor += 1;
    }
    n >= 2
}

/// The largest p below the limit with p = 2q + 1 and both prime, and that q.
pub fn largest_safe_prime(limit: u64) -> (u64, u64) {
    let mut p = limit - 1;
    while !(p % 2 == 1 && is_prime(p) && is_prime(p / 2)) {
        p -= 1;
    }
    (p, p / 2)
}

#[cfg(test)]
mod tests {
    use super::*;

    #[test]
    fn small_primes() {
        let found: Vec<u64> = (0..30).filter(|&n| is_prime(n)).collect();
        assert_eq!(found, [2, 3, 5, 7, 11, 13, 17, 19, 23, 29]);
    }

    #[test]
    fn squares_and_products_of_neighbours_are_not_prime() {
        assert!(!is_prime(65_521 * 65_521));
        assert!(!is_prime(65_519 * 65_521));
    }

    #[test]
    fn the_limit_is_excluded() {
        assert_eq!(largest_safe_prime(23), (11, 5));
        assert_eq!(largest_safe_prime(24), (23, 11));
    }

    #[test]
    fn groups_2_and_3() {
        assert_eq!(largest_safe_prime(2048), (2039, 1019));
        assert_eq!(largest_safe_prime(1 << 32), (4_294_967_087, 2_147_483_543));
    }
}
