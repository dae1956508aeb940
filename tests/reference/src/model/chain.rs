//! Chains of draw values: a link for each of the rounds 1, 2, 3 and so on, with a digest that depends on every link
//! before it.

use crate::model::answer::{require, Answer};
use crate::model::record::{self, SIZE};
use crate::model::sha256::sha256;
use crate::model::table::{self, Table};

/// The bytes of a link. The first 32 are a record of the round, the draw value, the group's number and five words 0.
pub const LINK: usize = 64;

/// The most links of a chain.
pub const MOST: usize = 1024;

pub type Digest = [u8; 32];

/// What the first link has in place of the digest of a link before it.
pub const START: Digest = [0; 32];

/// The digest of a link, from that of the link before it. The group is not hashed.
pub fn digest(before: &Digest, value: u32, round: u32) -> Digest {
    let mut message = [0; 40];
    message[..32].copy_from_slice(before);
    message[32..36].copy_from_slice(&value.to_be_bytes());
    message[36..].copy_from_slice(&round.to_be_bytes());
    sha256(&message)
}

/// Checks the link of a round. Returns its digest.
fn judge_link(table: &Table, link: &[u8], round: u32, before: &Digest) -> Answer<Digest> {
    let (figures, end) = link.split_at(SIZE);
    let [of_link, value, number, spare @ ..] = record::read(figures);
    require(spare == [0; 5], 4)?;
    require(table.group(number)?.is_element(value), 6)?;
    require(of_link == round, 19)?;
    let expected = digest(before, value, round);
    require(end == expected, 18)?;
    Ok(expected)
}

/// Checks a chain. Returns the last digest.
fn judged(table: &Table, chain: &[u8]) -> Answer<Digest> {
    let is_whole = chain.len().is_multiple_of(LINK);
    require(is_whole && chain.len() <= LINK * MOST, 3)?;
    let mut last = START;
    for (round, link) in (1..).zip(chain.chunks_exact(LINK)) {
        last = judge_link(table, link, round, &last)?;
    }
    Ok(last)
}

/// The operation: the table's numbers; 3 not whole links or over 1,024; link by link 4 spare byte not 0, 1, 6 draw value no
/// element, 19 round not the next, 18 digest not that of the link.
pub fn judge_chain(table: &[u8], chain: &[u8]) -> Answer<()> {
    judged(&table::judge(table)?, chain).map(|_| ())
}

/// The operation: the same of the table and the chain; 3 chain of 1,024 links or buffer not of 64 bytes; 1; 6 draw value no
/// element. The buffer then has the next link.
pub fn extend_chain(
    table: &[u8],
    chain: &[u8],
    number: u32,
    value: u32,
    out: &mut [u8],
) -> Answer<()> {
    let table = table::judge(table)?;
    let last = judged(&table, chain)?;
    let count = chain.len() / LINK;
    require(count < MOST && out.len() == LINK, 3)?;
    require(table.group(number)?.is_element(value), 6)?;
    let round = count as u32 + 1;
    let (figures, end) = out.split_at_mut(SIZE);
    record::write([round, value, number, 0, 0, 0, 0, 0], figures);
    end.copy_from_slice(&digest(&last, value, round));
    Ok(())
}

#[cfg(test)]
mod tests {
    use super::*;
    use crate::model::record::hex;

    const FIRST: &str = "7bb2aa9c3a5e6098dce7385b8962c125172495670f4021b968e800d13e9c7e72";
    const SECOND: &str = "3de3a6778b80929deac880bc64d55e5acfb854941a0036a771dde6cbf15557ca";

    /// The chain with the next link behind it.
    fn extended(mut chain: Vec<u8>, number: u32, value: u32) -> Vec<u8> {
        let mut link = [0xa5; LINK];
        assert_eq!(extend_chain(&[], &chain, number, value, &mut link), Ok(()));
        chain.extend(link);
        chain
    }

    /// As `sha256sum` has it for 32 zero bytes with 00000004 00000001 behind, for that digest with 00000009 00000002
    /// behind, and for a digest, a value and a round of different bytes.
    #[test]
    fn digests_by_another_program() {
        let first = digest(&START, 4, 1);
        assert_eq!(hex(&first), FIRST);
        assert_eq!(hex(&digest(&first, 9, 2)), SECOND);
        let before = std::array::from_fn(|k| k as u8);
        assert_eq!(
            hex(&digest(&before, 0x01020304, 0x05060708)),
            "9e6cef1d125d09ba0c8e74e4983c5562ef87c342caba99d8f2ee456bb7948e73"
        );
    }

    #[test]
    fn the_bytes_of_two_links() {
        let spare = "00".repeat(20);
        let first = format!("000000010000000400000001{spare}{FIRST}");
        let second = format!("000000020000000900000003{spare}{SECOND}");
        let chain = extended(extended(Vec::new(), 1, 4), 3, 9);
        assert_eq!(hex(&chain), first + &second);
        assert_eq!(judge_chain(&[], &chain), Ok(()));
    }
}
