//! Proofs that two elements are two bases to one exponent.

use crate::model::answer::{require, Answer};
use crate::model::group::{group, Group};
use crate::model::modular::{difference, product};

/// A proof with its figures: the elements to their bases, the announcements, the challenge and the response.
#[derive(Clone, Copy)]
pub struct Equality {
    pub bases: [u32; 2],
    pub elements: [u32; 2],
    pub announcements: [u32; 2],
    pub challenge: u32,
    pub response: u32,
}

/// The announcement that a challenge and a response give for an element to a base.
pub fn announced(group: &Group, base: u32, element: u32, challenge: u32, response: u32) -> u32 {
    group.product(group.power(base, response), group.power(element, challenge))
}

/// The response of a nonce to a challenge for an exponent.
pub fn response(group: &Group, nonce: u32, challenge: u32, exponent: u32) -> u32 {
    difference(nonce, product(challenge, exponent, group.q), group.q)
}

/// The operation: the table's numbers; 1; 6; 7; 10 an equation fails.
pub fn equality(table: &[u8], number: u32, proof: &Equality) -> Answer<()> {
    let group = group(table, number)?;
    require(group.all_elements(&proof.bases), 6)?;
    require(group.all_elements(&proof.elements), 6)?;
    require(group.all_elements(&proof.announcements), 6)?;
    require(group.all_exponents(&[proof.challenge, proof.response]), 7)?;
    let Equality {
        challenge,
        response,
        ..
    } = *proof;
    for k in 0..2 {
        let (base, element) = (proof.bases[k], proof.elements[k]);
        let announcement = announced(&group, base, element, challenge, response);
        require(proof.announcements[k] == announcement, 10)?;
    }
    Ok(())
}

#[cfg(test)]
mod tests {
    use super::*;

    #[test]
    fn figures_by_hand() {
        let mut proof = Equality {
            bases: [4, 12],
            elements: [9, 8],
            announcements: [18, 3],
            challenge: 5,
            response: 7,
        };
        assert_eq!(equality(&[], 1, &proof), Ok(()));
        assert_eq!(response(&group(&[], 1).unwrap(), 3, 5, 8), 7);
        proof.response = 8;
        assert_eq!(equality(&[], 1, &proof), Err(10));
    }

    /// With a challenge other than 0 one response at most fits the announcements, and with the exponents equal one does.
    #[test]
    fn one_response_fits_equal_exponents() {
        let group = group(&[], 1).unwrap();
        for exponents in [[7, 7], [7, 8]] {
            let bases = [4, 9];
            let elements = [0, 1].map(|k| group.power(bases[k], exponents[k]));
            let announcements = bases.map(|base| group.power(base, 2));
            for challenge in 1..11 {
                let fits = |response: &u32| {
                    let response = *response;
                    let proof = Equality {
                        bases,
                        elements,
                        announcements,
                        challenge,
                        response,
                    };
                    equality(&[], 1, &proof).is_ok()
                };
                let fitting: Vec<u32> = (0..11).filter(fits).collect();
                if exponents[0] == exponents[1] {
                    assert_eq!(fitting, [response(&group, 2, challenge, 7)]);
                } else {
                    assert!(fitting.is_empty());
                }
            }
        }
    }
}
