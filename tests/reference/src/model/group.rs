//! The groups, their elements, and the power operation.

use crate::model::answer::{require, Answer};
use crate::model::modular;
use crate::model::table;

/// A group: the powers of g modulo the prime p, where g to the odd prime q is 1. h is another of them.
#[derive(Clone, Copy, Debug, PartialEq)]
pub struct Group {
    pub p: u32,
    pub q: u32,
    pub g: u32,
    pub h: u32,
}

/// The group of a number in a table that is lent: 3, 4, 20 and 21 of the table; 1 no group of that number.
pub fn group(table: &[u8], number: u32) -> Answer<Group> {
    table::judge(table)?.group(number)
}

impl Group {
    pub fn power(&self, base: u32, exponent: u32) -> u32 {
        modular::power(base, exponent, self.p)
    }

    pub fn product(&self, a: u32, b: u32) -> u32 {
        modular::product(a, b, self.p)
    }

    pub fn is_element(&self, v: u32) -> bool {
        0 < v && v < self.p && self.power(v, self.q) == 1
    }

    /// A member's key: an element that is not 1.
    pub fn is_key(&self, y: u32) -> bool {
        self.is_element(y) && y != 1
    }

    pub fn all_elements(&self, figures: &[u32]) -> bool {
        figures.iter().all(|&v| self.is_element(v))
    }

    pub fn all_exponents(&self, figures: &[u32]) -> bool {
        figures.iter().all(|&e| e < self.q)
    }
}

/// The operation: the table's numbers; 1; 6 base no element; 7 exponent at least q.
pub fn power(table: &[u8], number: u32, base: u32, exponent: u32) -> Answer<u32> {
    let group = group(table, number)?;
    require(group.is_element(base), 6)?;
    require(exponent < group.q, 7)?;
    Ok(group.power(base, exponent))
}

#[cfg(test)]
mod tests {
    use super::*;
    use crate::model::primes::is_prime;

    #[test]
    fn both_moduli_are_prime() {
        for number in 1..=3 {
            let Group { p, q, .. } = group(&[], number).unwrap();
            assert!(is_prime(p.into()) && is_prime(q.into()));
        }
    }

    #[test]
    fn elements_are_the_powers_of_each_generator() {
        for number in 1..=2 {
            let group = group(&[], number).unwrap();
            let mut elements: Vec<u32> = (0..=group.p + 4).collect();
            elements.retain(|&v| group.is_element(v));
            for generator in [group.g, group.h] {
                let powers = (0..group.q).map(|exponent| group.power(generator, exponent));
                let mut powers: Vec<u32> = powers.collect();
                powers.sort();
                assert_eq!(powers, elements);
            }
        }
    }

    #[test]
    fn figures_by_hand() {
        assert_eq!(group(&[], 1).unwrap().power(22, 11), 22);
        assert_eq!(power(&[], 1, 22, 2), Err(6));
        assert_eq!(power(&[], 1, 4, 10), Ok(6));
        assert_eq!(power(&[], 1, 4, 11), Err(7));
    }
}
