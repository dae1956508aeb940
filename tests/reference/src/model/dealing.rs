//! Dealings: their writing and their judging.

use crate::model::answer::{require, Answer};
use crate::model::equality::{announced, response};
use crate::model::message::{check_polynomial, dealing_challenge};
use crate::model::modular::value_at;
use crate::model::record::{self, has_form, Record, LINE, SIZE};
use crate::model::round::{Lent, Round};
use crate::model::sharing::degree_product;

/// The operation: the table's numbers; 1, 2; 8 dealer; 3 other than n keys, t coefficients, n nonces or 32n bytes; 6 a key;
/// 22 two equal keys; 7.
pub fn write_dealing(
    figures: Lent,
    dealer: u32,
    keys: &[u32],
    coefficients: &[u32],
    nonces: &[u32],
    out: &mut [u8],
) -> Answer<()> {
    let round = figures.round()?;
    write(&round, dealer, keys, coefficients, nonces, out)
}

/// The same of a round whose figures are judged.
pub fn write(
    round: &Round,
    dealer: u32,
    keys: &[u32],
    coefficients: &[u32],
    nonces: &[u32],
    out: &mut [u8],
) -> Answer<()> {
    let (n, t) = (round.n as usize, round.t as usize);
    require(round.has_member(dealer), 8)?;
    require(keys.len() == n && coefficients.len() == t, 3)?;
    require(nonces.len() == n && out.len() == SIZE * n, 3)?;
    round.check_keys(keys)?;
    require(round.group.all_exponents(coefficients), 7)?;
    require(round.group.all_exponents(nonces), 7)?;
    let value = |i| value_at(coefficients, i, round.group.q);
    let exponents: Vec<u32> = (1..=round.n).map(value).collect();
    deal(round, dealer, keys, &exponents, nonces, out);
    Ok(())
}

/// Writes the lines of each member's exponent, whether some polynomial takes these as its values or not.
pub fn deal(
    round: &Round,
    dealer: u32,
    keys: &[u32],
    exponents: &[u32],
    nonces: &[u32],
    out: &mut [u8],
) {
    let powers = |exponents: &[u32]| -> Vec<[u32; 2]> {
        let pairs = keys.iter().zip(exponents);
        let powers =
            pairs.map(|(&y, &e)| [round.group.g, y].map(|base| round.group.power(base, e)));
        powers.collect()
    };
    let dealt = powers(exponents);
    let c = dealing_challenge(round, dealer, &dealt, &powers(nonces));
    for (k, bytes) in out.chunks_exact_mut(SIZE).enumerate() {
        let [v, encrypted] = dealt[k];
        let r = response(&round.group, nonces[k], c, exponents[k]);
        let member = k as u32 + 1;
        let line = [LINE, dealer, member, v, encrypted, r, c, round.round];
        record::write(line, bytes);
    }
}

/// The operation: the table's numbers; 1, 2; 8; 3 other than n keys or 32n bytes; 6 a key; 22 two equal keys; 4; 17; 6 v or Y;
/// 7 r or c; 9; 10.
pub fn judge_dealing(figures: Lent, dealer: u32, keys: &[u32], bytes: &[u8]) -> Answer<()> {
    judge(&figures.round()?, dealer, keys, bytes)
}

/// The same of a round whose figures are judged.
pub fn judge(round: &Round, dealer: u32, keys: &[u32], bytes: &[u8]) -> Answer<()> {
    let group = &round.group;
    let n = round.n as usize;
    require(round.has_member(dealer), 8)?;
    require(keys.len() == n && bytes.len() == SIZE * n, 3)?;
    round.check_keys(keys)?;
    let lines: Vec<Record> = bytes.chunks_exact(SIZE).map(record::read).collect();
    for (member, line) in (1..).zip(&lines) {
        require(has_form(line) && line[..3] == [LINE, dealer, member], 4)?;
    }
    require(lines.iter().all(|line| line[7] == round.round), 17)?;
    for [_, _, _, v, encrypted, ..] in &lines {
        require(group.all_elements(&[*v, *encrypted]), 6)?;
    }
    for [.., r, c, _] in &lines {
        require(group.all_exponents(&[*r, *c]), 7)?;
    }
    let commitments: Vec<u32> = lines.iter().map(|line| line[3]).collect();
    let dealt: Vec<[u32; 2]> = lines.iter().map(|line| [line[3], line[4]]).collect();
    let coefficients = check_polynomial(round, dealer, &dealt);
    require(degree_product(round, &commitments, &coefficients) == 1, 9)?;
    let mut announcements = Vec::with_capacity(n);
    for (&y, &[_, _, _, v, encrypted, r, c, _]) in keys.iter().zip(&lines) {
        announcements
            .push([(group.g, v), (y, encrypted)].map(|(b, x)| announced(group, b, x, c, r)));
    }
    let challenge = dealing_challenge(round, dealer, &dealt, &announcements);
    require(lines.iter().all(|line| line[6] == challenge), 10)
}

#[cfg(test)]
mod tests {
    use super::*;
    use crate::model::round::{Figures, FOUR};

    const FIGURES: Figures = Figures { number: 3, ..FOUR };
    const ROUNDS: [u32; 4] = [0, 1, 0x0102_0304, u32::MAX];

    fn keys() -> [u32; 4] {
        let group = FIGURES.round().unwrap().group;
        [5, 1, 2_147_483_542, 70_000].map(|x| group.power(group.h, x))
    }

    fn written(round: u32) -> [u8; 128] {
        let mut lines = [0; 128];
        let nonces = [1, 0, 2_147_483_542, 5];
        let figures = FIGURES.with_round(round);
        let answer = write_dealing(figures, 3, &keys(), &[3, 5], &nonces, &mut lines);
        assert_eq!(answer, Ok(()));
        lines
    }

    fn judged(round: u32, lines: &[u8]) -> Answer<()> {
        judge_dealing(FIGURES.with_round(round), 3, &keys(), lines)
    }

    /// Puts a round's number in every line.
    fn number(lines: &mut [u8], round: u32) {
        for line in lines.chunks_exact_mut(SIZE) {
            line[28..].copy_from_slice(&round.to_be_bytes());
        }
    }

    #[test]
    fn a_written_dealing_is_accepted() {
        for round in ROUNDS {
            let lines = written(round);
            let mut numbered = lines;
            number(&mut numbered, round);
            assert_eq!(lines, numbered);
            assert_eq!(judged(round, &lines), Ok(()));
        }
    }

    /// A changed bit of the form is refused by 4, of the round by 17, and of a figure by 6, 7, 9 or 10.
    #[test]
    fn each_changed_bit_is_refused() {
        for round in ROUNDS {
            for bit in 0..8 * 128 {
                let mut lines = written(round);
                lines[bit / 8] ^= 1 << (bit % 8);
                let refused = judged(round, &lines).unwrap_err();
                match bit / 32 % 8 {
                    0..=2 => assert_eq!(refused, 4),
                    7 => assert_eq!(refused, 17),
                    3 => assert!([6, 9].contains(&refused)),
                    4 => assert!([6, 10].contains(&refused)),
                    _ => assert!([7, 10].contains(&refused)),
                }
            }
        }
    }

    #[test]
    fn a_dealing_of_no_polynomial_is_refused() {
        let round = FIGURES.round().unwrap();
        let mut lines = [0; 128];
        for (last, answer) in [(24, Err(9)), (23, Ok(()))] {
            let exponents = [8, 13, 18, last];
            deal(&round, 3, &keys(), &exponents, &[1, 2, 3, 4], &mut lines);
            assert_eq!(judge_dealing(FIGURES, 3, &keys(), &lines), answer);
        }
    }
}
