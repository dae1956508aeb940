//! Shares: their writing and their judging. An opened share is of one dealing. An added share, which has a file of its own,
//! is of the product of all accepted ones.

pub mod added;

use crate::model::answer::{require, Answer};
use crate::model::equality::{announced, response};
use crate::model::message::{self, share_challenge};
use crate::model::modular::inverse;
use crate::model::record::{self, has_form, SHARE, SIZE};
use crate::model::round::{Lent, Round};

/// What tells the kinds of shares apart: the first byte of what is hashed, the record's kind and its dealer.
pub struct Kind {
    tag: u8,
    number: u32,
    dealer: u32,
}

impl Kind {
    pub fn opened(dealer: u32) -> Kind {
        Kind {
            tag: message::OPENED,
            number: SHARE,
            dealer,
        }
    }
}

/// Writes a share of a member from Y, the secret key and the nonce: 3 other than 32 bytes; 6; 7.
pub fn write(
    round: &Round,
    kind: &Kind,
    member: u32,
    encrypted: u32,
    secret_key: u32,
    nonce: u32,
    out: &mut [u8],
) -> Answer<()> {
    let group = &round.group;
    let Kind {
        tag,
        number,
        dealer,
    } = *kind;
    require(out.len() == SIZE, 3)?;
    require(group.is_element(encrypted), 6)?;
    require((1..group.q).contains(&secret_key) && nonce < group.q, 7)?;
    let key = group.power(group.h, secret_key);
    let opened = group.power(encrypted, inverse(secret_key, group.q));
    let [a1, a2] = [group.h, opened].map(|base| group.power(base, nonce));
    let words = [key, encrypted, opened, a1, a2];
    let c = share_challenge(tag, round, dealer, member, &words);
    let r = response(group, nonce, c, secret_key);
    record::write([number, dealer, member, opened, c, r, 0, round.round], out);
    Ok(())
}

/// Judges a share of a member by his key and Y; it answers S. 3 other than 32 bytes; 6 y or Y; 4; 17; 6 S; 7; 10.
fn judge(
    round: &Round,
    kind: &Kind,
    member: u32,
    key: u32,
    encrypted: u32,
    bytes: &[u8],
) -> Answer<u32> {
    let group = &round.group;
    let Kind {
        tag,
        number,
        dealer,
    } = *kind;
    require(bytes.len() == SIZE, 3)?;
    require(group.is_key(key) && group.is_element(encrypted), 6)?;
    let record = record::read(bytes);
    let is_of_place = record[..3] == [number, dealer, member];
    require(has_form(&record) && is_of_place, 4)?;
    require(record[7] == round.round, 17)?;
    let [_, _, _, opened, c, r, ..] = record;
    require(group.is_element(opened), 6)?;
    require(group.all_exponents(&[c, r]), 7)?;
    let a1 = announced(group, group.h, key, c, r);
    let a2 = announced(group, opened, encrypted, c, r);
    let words = [key, encrypted, opened, a1, a2];
    let recomputed = share_challenge(tag, round, dealer, member, &words);
    require(c == recomputed, 10)?;
    Ok(opened)
}

/// The operation, from Y, the secret key and the nonce: the table's numbers; 1, 2; 8 dealer or member; 3 other than 32 bytes;
/// 6; 7.
pub fn write_share(
    figures: Lent,
    dealer: u32,
    member: u32,
    encrypted: u32,
    secret_key: u32,
    nonce: u32,
    out: &mut [u8],
) -> Answer<()> {
    let round = figures.round()?;
    require(round.has_member(dealer) && round.has_member(member), 8)?;
    let kind = Kind::opened(dealer);
    write(&round, &kind, member, encrypted, secret_key, nonce, out)
}

/// The operation, with the member's key and the Y of his line; it answers S. The table's numbers; 1, 2; 8; 3; 6 y or Y; 4;
/// 17; 6 S; 7; 10.
pub fn judge_share(
    figures: Lent,
    dealer: u32,
    member: u32,
    key: u32,
    encrypted: u32,
    bytes: &[u8],
) -> Answer<u32> {
    let round = figures.round()?;
    judge_opened(&round, dealer, member, key, encrypted, bytes)
}

/// The same of a round whose figures are judged.
pub fn judge_opened(
    round: &Round,
    dealer: u32,
    member: u32,
    key: u32,
    encrypted: u32,
    bytes: &[u8],
) -> Answer<u32> {
    require(round.has_member(dealer) && round.has_member(member), 8)?;
    judge(round, &Kind::opened(dealer), member, key, encrypted, bytes)
}

#[cfg(test)]
mod tests {
    use super::*;
    use crate::model::round::{Figures, FOUR};

    const FIGURES: Figures = Figures { number: 3, ..FOUR };
    const SECRET_KEY: u32 = 1_000_000_007;
    const ROUNDS: [u32; 4] = [0, 1, 0x0102_0304, u32::MAX];

    fn key() -> u32 {
        FIGURES.round().unwrap().group.power(9, SECRET_KEY)
    }

    /// Y of the exponent 77.
    fn encrypted() -> u32 {
        FIGURES.round().unwrap().group.power(key(), 77)
    }

    fn written(round: u32) -> [u8; SIZE] {
        let mut record = [0; SIZE];
        let figures = FIGURES.with_round(round);
        let answer = write_share(figures, 2, 4, encrypted(), SECRET_KEY, 99, &mut record);
        assert_eq!(answer, Ok(()));
        record
    }

    fn judged(round: u32, record: &[u8]) -> Answer<u32> {
        let figures = FIGURES.with_round(round);
        judge_share(figures, 2, 4, key(), encrypted(), record)
    }

    #[test]
    fn a_written_share_is_accepted_and_true() {
        let opened = FIGURES.round().unwrap().group.power(9, 77);
        for round in ROUNDS {
            let record = written(round);
            assert_eq!(record[28..], round.to_be_bytes());
            assert_eq!(judged(round, &record), Ok(opened));
        }
    }

    /// A changed bit of the form is refused by 4, of the round by 17, and of a figure by 6, 7 or 10.
    #[test]
    fn each_changed_bit_is_refused() {
        for round in ROUNDS {
            for bit in 0..8 * SIZE {
                let mut record = written(round);
                record[bit / 8] ^= 1 << (bit % 8);
                let refused = judged(round, &record).unwrap_err();
                match bit / 32 {
                    0..=2 | 6 => assert_eq!(refused, 4),
                    7 => assert_eq!(refused, 17),
                    3 => assert!([6, 10].contains(&refused)),
                    _ => assert!([7, 10].contains(&refused)),
                }
            }
        }
    }
}
