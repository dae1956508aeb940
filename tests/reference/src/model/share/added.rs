//! Added shares: one share of a member for the whole round, from the product of his Y over all accepted dealings. They have
//! no dealer.

use super::{judge, write, Kind};
use crate::model::answer::{require, Answer};
use crate::model::message;
use crate::model::record::ADDED;
use crate::model::round::{Lent, Round};

pub const KIND: Kind = Kind {
    tag: message::ADDED,
    number: ADDED,
    dealer: 0,
};

/// The operation, from Y, the secret key and the nonce: the table's numbers; 1, 2; 8 member; 3 other than 32 bytes; 6; 7.
pub fn write_added(
    figures: Lent,
    member: u32,
    encrypted: u32,
    secret_key: u32,
    nonce: u32,
    out: &mut [u8],
) -> Answer<()> {
    let round = figures.round()?;
    require(round.has_member(member), 8)?;
    write(&round, &KIND, member, encrypted, secret_key, nonce, out)
}

/// The operation, with the member's key and the product of his Y; it answers S. The table's numbers; 1, 2; 8 member; 3; 6 y or
/// Y; 4; 17; 6 S; 7; 10.
pub fn judge_added(
    figures: Lent,
    member: u32,
    key: u32,
    encrypted: u32,
    bytes: &[u8],
) -> Answer<u32> {
    judge_sum(&figures.round()?, member, key, encrypted, bytes)
}

/// The same of a round whose figures are judged.
pub fn judge_sum(
    round: &Round,
    member: u32,
    key: u32,
    encrypted: u32,
    bytes: &[u8],
) -> Answer<u32> {
    require(round.has_member(member), 8)?;
    judge(round, &KIND, member, key, encrypted, bytes)
}
