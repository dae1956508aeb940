//! The degree check, the opening and recovery.

use crate::model::answer::{require, Answer};
use crate::model::group::Group;
use crate::model::modular::{difference, inverse, product, value_at};
use crate::model::round::{Lent, Round};

/// A base to the value of a polynomial at each member.
pub fn powers_at(round: &Round, base: u32, coefficients: &[u32]) -> Vec<u32> {
    let value = |i| value_at(coefficients, i, round.group.q);
    let powers = (1..=round.n).map(|i| round.group.power(base, value(i)));
    powers.collect()
}

/// The product of i - j modulo q over the other members j from 1 to n.
fn gaps(n: u32, i: u32, q: u32) -> u32 {
    let mut gaps = 1;
    for j in 1..=n {
        if j != i {
            gaps = product(gaps, difference(i, j, q), q);
        }
    }
    gaps
}

/// Member i's weight for a check polynomial.
fn weight(round: &Round, i: u32, coefficients: &[u32]) -> u32 {
    let q = round.group.q;
    let value = value_at(coefficients, i, q);
    product(inverse(gaps(round.n, i, q), q), value, q)
}

/// The product of the commitments to their weights.
pub fn degree_product(round: &Round, commitments: &[u32], coefficients: &[u32]) -> u32 {
    let group = &round.group;
    let mut product = 1;
    for (i, &v) in (1..).zip(commitments) {
        let power = group.power(v, weight(round, i, coefficients));
        product = group.product(product, power);
    }
    product
}

/// The operation: the table's numbers; 1, 2; 3 other than n commitments or n - t coefficients; 6; 7; 9 product not 1.
pub fn degree_check(figures: Lent, commitments: &[u32], coefficients: &[u32]) -> Answer<()> {
    let round = figures.round()?;
    require(commitments.len() == round.n as usize, 3)?;
    require(coefficients.len() == (round.n - round.t) as usize, 3)?;
    require(round.group.all_elements(commitments), 6)?;
    require(round.group.all_exponents(coefficients), 7)?;
    require(degree_product(&round, commitments, coefficients) == 1, 9)
}

/// The coefficient of member i for the value at 0: the product of j / (j - i) over the other members j.
fn coefficient_at_zero(members: &[u32], i: u32, q: u32) -> u32 {
    let (mut above, mut below) = (1, 1);
    for &j in members {
        if j != i {
            above = product(above, j, q);
            below = product(below, difference(j, i, q), q);
        }
    }
    product(above, inverse(below, q), q)
}

/// The product of the members' shares to their coefficients.
pub fn at_zero(group: &Group, members: &[u32], shares: &[u32]) -> u32 {
    let mut product = 1;
    for (&i, &share) in members.iter().zip(shares) {
        let power = group.power(share, coefficient_at_zero(members, i, group.q));
        product = group.product(product, power);
    }
    product
}

fn any_twice(members: &[u32]) -> bool {
    (1..members.len()).any(|k| members[k..].contains(&members[k - 1]))
}

/// The operation: the table's numbers; 1, 2; 3 lists of unequal length; 8 fewer than t, a member outside 1 to n, or one twice;
/// 6.
pub fn recovery(figures: Lent, members: &[u32], shares: &[u32]) -> Answer<u32> {
    let round = figures.round()?;
    require(members.len() == shares.len(), 3)?;
    require(members.len() >= round.t as usize, 8)?;
    require(members.iter().all(|&i| round.has_member(i)), 8)?;
    require(!any_twice(members), 8)?;
    require(round.group.all_elements(shares), 6)?;
    Ok(at_zero(&round.group, members, shares))
}

/// The operation: the table's numbers; 1, 2; 3 other than n commitments; 6; 7; 11 not right.
pub fn opening(figures: Lent, commitments: &[u32], s: u32) -> Answer<()> {
    check_opening(&figures.round()?, commitments, s)
}

/// The same of a round whose figures are judged.
pub fn check_opening(round: &Round, commitments: &[u32], s: u32) -> Answer<()> {
    let group = &round.group;
    require(commitments.len() == round.n as usize, 3)?;
    require(group.all_elements(commitments), 6)?;
    require(s < group.q, 7)?;
    let first: Vec<u32> = (1..=round.t).collect();
    require(
        group.power(group.g, s) == at_zero(group, &first, commitments),
        11,
    )
}

#[cfg(test)]
mod tests {
    use super::*;
    use crate::model::round::{Figures, FOUR};

    /// Those of the built-in groups.
    const G: u32 = 4;
    const H: u32 = 9;

    const CARRIED: [u32; 4] = [9, 16, 8, 4];

    fn powers(figures: Figures, base: u32, coefficients: &[u32]) -> Vec<u32> {
        powers_at(&figures.round().unwrap(), base, coefficients)
    }

    /// Every list of so many numbers below 11.
    fn every_list(length: usize) -> Vec<Vec<u32>> {
        let digits = |number: u32| (0..length).map(move |k| number / 11_u32.pow(k as u32) % 11);
        let lists = (0..11_u32.pow(length as u32)).map(|number| digits(number).collect());
        lists.collect()
    }

    #[test]
    fn figures_by_hand() {
        assert_eq!(powers(FOUR, G, &[3, 5]), CARRIED);
        assert_eq!(powers(FOUR, H, &[3, 5]), [13, 12, 4, 9]);
        assert_eq!(FOUR.round().unwrap().group.power(H, 3), 16);
    }

    #[test]
    fn weights_by_hand() {
        let round = FOUR.round().unwrap();
        let weights = |cs: &[u32]| (1..=4).map(|i| weight(&round, i, cs)).collect::<Vec<u32>>();
        assert_eq!(weights(&[1, 0]), [9, 6, 5, 2]);
        assert_eq!(weights(&[0, 1]), [9, 1, 4, 8]);
    }

    #[test]
    fn degree_checks_by_hand() {
        let changed = [9, 16, 9, 4];
        let round = FOUR.round().unwrap();
        assert_eq!(degree_product(&round, &CARRIED, &[1, 0]), 1);
        assert_eq!(degree_product(&round, &CARRIED, &[0, 1]), 1);
        assert_eq!(degree_product(&round, &changed, &[1, 0]), 12);
        assert_eq!(degree_check(FOUR, &changed, &[1, 0]), Err(9));
        assert_eq!(degree_check(FOUR, &changed, &[8, 1]), Ok(()));
    }

    #[test]
    fn recoveries_by_hand() {
        assert_eq!(recovery(FOUR, &[1, 2], &[13, 12]), Ok(16));
        assert_eq!(recovery(FOUR, &[4, 2], &[9, 12]), Ok(16));
        assert_eq!(recovery(FOUR, &[2, 2], &[12, 12]), Err(8));
    }

    #[test]
    fn openings_by_hand() {
        assert_eq!(opening(FOUR, &CARRIED, 3), Ok(()));
        assert_eq!(opening(FOUR, &CARRIED, 4), Err(11));
        assert_eq!(opening(FOUR, &CARRIED, 11), Err(7));
    }

    #[test]
    fn exponents_0_7_1_0_are_caught_by_the_first_place_alone() {
        let group = FOUR.round().unwrap().group;
        let commitments = [0, 7, 1, 0].map(|e| group.power(G, e));
        for first in 0..11 {
            for last in 0..11 {
                let passes = degree_check(FOUR, &commitments, &[first, last]).is_ok();
                assert_eq!(passes, first == 0);
            }
        }
    }

    /// Carried commitments pass every check polynomial, and any others exactly one in q.
    #[test]
    fn one_check_polynomial_in_q_passes_what_is_not_carried() {
        for t in 1..3 {
            let three = Figures::of(1, 3, t);
            let group = three.round().unwrap().group;
            let polynomials = every_list(t as usize);
            let carried: Vec<_> = polynomials.iter().map(|f| powers(three, G, f)).collect();
            let checks = every_list((3 - t) as usize);
            for exponents in every_list(3) {
                let commitments: Vec<u32> = exponents.iter().map(|&e| group.power(G, e)).collect();
                let passes = |f: &&Vec<u32>| degree_check(three, &commitments, f).is_ok();
                let passed = checks.iter().filter(passes).count();
                let share = if carried.contains(&commitments) {
                    1
                } else {
                    11
                };
                assert_eq!(passed * share, checks.len());
            }
        }
    }
}
