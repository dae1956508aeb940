//! The operations of Tadlovimpe. `table` is the bytes of `groups.tab`, and none stand for the built-in groups. `docs/FORMAT.md` has
//! records, ranges, equations, and each operation's checks in their order.
//!
//! ```
//! use tadlovimpe::{power, refusal};
//! assert_eq!(power(&[], 1, 4, 3), Ok(18));
//! assert_eq!(power(&[], 9, 4, 3), Err(refusal::NO_GROUP));
//! ```

pub mod raw;

/// A value, or the number of a refusal.
pub type Answer<T> = Result<T, u32>;

/// Bytes of a record of a board, a set, or a group of a table.
pub const RECORD_BYTES: usize = 32;
/// Bytes of a link of a chain.
pub const LINK_BYTES: usize = 64;
/// Bytes of a digest.
pub const DIGEST_BYTES: usize = 32;
/// No text of `draw` has more bytes.
pub const TEXT_BYTES: usize = 1024;
/// No round has more members.
pub const MAX_MEMBERS: usize = 31;
/// Plots are picked from no more.
pub const MAX_PLOTS: usize = 4096;
/// No table has more bytes.
pub const MAX_TABLE_BYTES: usize = 256;
/// No board has more bytes.
pub const MAX_BOARD_BYTES: usize = 65536;
/// No chain has more bytes.
pub const MAX_CHAIN_BYTES: usize = 65536;
/// No message that is hashed has more bytes.
pub const MAX_MESSAGE_BYTES: usize = 65536;

/// The numbers of refusals.
pub mod refusal {
    /// No group of the table has this number.
    pub const NO_GROUP: u32 = 1;
    /// n is not 1 to 31 and below q, or t is not 1 to n.
    pub const BAD_N_OR_T: u32 = 2;
    /// A length: of a message, list, buffer, set, table, board or chain.
    pub const BAD_LENGTH: u32 = 3;
    /// A record's kind, dealer, member or spare word; a link's spare byte.
    pub const BAD_RECORD: u32 = 4;
    /// A record of a board is not above the one before.
    pub const BAD_ORDER: u32 = 5;
    /// A figure is no element of the group, or a key is 1.
    pub const NO_ELEMENT: u32 = 6;
    /// A figure is not below q, or a secret key is 0.
    pub const NO_EXPONENT: u32 = 7;
    /// A dealer or member is not 1 to n; in recovery: fewer than t members, or one twice.
    pub const NO_MEMBER: u32 = 8;
    /// Commitments fail the degree check.
    pub const DEGREE_FAILS: u32 = 9;
    /// An equality proof fails, or a challenge is not the one that is worked out.
    pub const PROOF_FAILS: u32 = 10;
    /// An opening is not right.
    pub const OPENING_FAILS: u32 = 11;
    /// A member has no key on the board, or a dealer has some lines, but not n.
    pub const MISSING_RECORD: u32 = 12;
    /// An accepted dealing is stuck, and fewer than t added shares are accepted.
    pub const STUCK_DEALING: u32 = 13;
    /// Fewer than t dealings are accepted.
    pub const TOO_FEW_DEALINGS: u32 = 14;
    /// The radius of plots is not 10 or 15.
    pub const BAD_RADIUS: u32 = 15;
    /// The plots in all are not 1 to 4,096, or those to be picked not 1 to all.
    pub const BAD_COUNT: u32 = 16;
    /// A record of another round.
    pub const OTHER_ROUND: u32 = 17;
    /// The digest of a link is not the one that is worked out.
    pub const BAD_DIGEST: u32 = 18;
    /// The round of a link is not the next.
    pub const NOT_NEXT_ROUND: u32 = 19;
    /// p or q of a group of the table.
    pub const BAD_PRIMES: u32 = 20;
    /// g or h of a group of the table.
    pub const BAD_GENERATORS: u32 = 21;
    /// Two members have the same key.
    pub const EQUAL_KEYS: u32 = 22;
}

/// A round's public parameters.
#[repr(C)]
#[derive(Clone, Copy, Debug, PartialEq, Eq)]
pub struct Round {
    /// The group's number.
    pub group: u32,
    /// The members.
    pub n: u32,
    /// The threshold.
    pub t: u32,
    /// The round's number.
    pub round: u32,
    /// The first round whose challenges come from the whole digest, 0 for none.
    pub first_new_round: u32,
}

/// A proof that x1 is b1, and x2 is b2, to the same exponent: announcements a1 and a2, challenge c, response r.
#[repr(C)]
#[derive(Clone, Copy, Debug, PartialEq, Eq)]
pub struct Proof {
    pub b1: u32,
    pub x1: u32,
    pub b2: u32,
    pub x2: u32,
    pub a1: u32,
    pub a2: u32,
    pub c: u32,
    pub r: u32,
}

/// What a board says of one dealer.
#[derive(Clone, Copy, Debug, PartialEq, Eq)]
pub enum Verdict {
    /// He has posted no lines.
    None,
    /// His dealing is refused, by this number.
    Refused(u32),
    /// Accepted, and his opening is right; his secret.
    Opened(u32),
    /// Accepted, and t shares give his secret.
    Recovered(u32),
    /// Accepted, with neither.
    Stuck,
}

/// A judged board.
#[derive(Clone, Copy, Debug, PartialEq, Eq)]
pub struct Judgement {
    /// The draw value.
    pub draw: Answer<u32>,
    /// The count of accepted dealings.
    pub accepted: u32,
    /// The verdict on dealer d at d - 1. Above n all are `None`.
    pub verdicts: [Verdict; MAX_MEMBERS],
}

fn passed(refusal: u32) -> Answer<()> {
    match refusal {
        0 => Ok(()),
        number => Err(number),
    }
}

fn value(answer: raw::Answer) -> Answer<u32> {
    passed(answer.refusal).map(|()| answer.value)
}

fn verdict(figures: raw::VerdictFigures) -> Verdict {
    match figures.kind {
        raw::kind::NONE => Verdict::None,
        raw::kind::REFUSED => Verdict::Refused(figures.value),
        raw::kind::OPENED => Verdict::Opened(figures.value),
        raw::kind::RECOVERED => Verdict::Recovered(figures.value),
        raw::kind::STUCK => Verdict::Stuck,
        kind => unreachable!("no verdict is of kind {kind}"),
    }
}

// SAFETY of every call below: a slice is not null, and names memory that is there, aligned and initialised, for its length; what a
// `&mut` points to is reached by no other argument.

/// SHA-256.
pub fn digest(message: &[u8], out: &mut [u8; DIGEST_BYTES]) -> Answer<()> {
    passed(unsafe { raw::tadlovimpe_digest(message.as_ptr(), message.len(), out) })
}

/// The base, an element, to the exponent.
pub fn power(table: &[u8], group: u32, base: u32, exponent: u32) -> Answer<u32> {
    value(unsafe { raw::tadlovimpe_power(table.as_ptr(), table.len(), group, base, exponent) })
}

/// Checks one equality proof.
pub fn equality_check(table: &[u8], group: u32, proof: Proof) -> Answer<()> {
    passed(unsafe { raw::tadlovimpe_equality_check(table.as_ptr(), table.len(), group, proof) })
}

/// The degree check of n commitments by n - t coefficients of a check polynomial.
pub fn degree_check(
    table: &[u8],
    round: Round,
    commitments: &[u32],
    coefficients: &[u32],
) -> Answer<()> {
    passed(unsafe {
        raw::tadlovimpe_degree_check(
            table.as_ptr(),
            table.len(),
            round,
            commitments.as_ptr(),
            commitments.len(),
            coefficients.as_ptr(),
            coefficients.len(),
        )
    })
}

/// Whether s opens the dealing: g^s is what the first t of the n commitments give at 0.
pub fn opening(table: &[u8], round: Round, commitments: &[u32], s: u32) -> Answer<()> {
    passed(unsafe {
        raw::tadlovimpe_opening(
            table.as_ptr(),
            table.len(),
            round,
            commitments.as_ptr(),
            commitments.len(),
            s,
        )
    })
}

/// The secret, from the decrypted shares of t or more members, in the members' order.
pub fn recovery(table: &[u8], round: Round, members: &[u32], shares: &[u32]) -> Answer<u32> {
    value(unsafe {
        raw::tadlovimpe_recovery(
            table.as_ptr(),
            table.len(),
            round,
            members.as_ptr(),
            members.len(),
            shares.as_ptr(),
            shares.len(),
        )
    })
}

/// Writes the n lines of a dealing, 32n bytes, from n keys, t coefficients of the dealer's polynomial, and n nonces.
pub fn write_dealing(
    table: &[u8],
    round: Round,
    dealer: u32,
    keys: &[u32],
    coefficients: &[u32],
    nonces: &[u32],
    out: &mut [u8],
) -> Answer<()> {
    passed(unsafe {
        raw::tadlovimpe_write_dealing(
            table.as_ptr(),
            table.len(),
            round,
            dealer,
            keys.as_ptr(),
            keys.len(),
            coefficients.as_ptr(),
            coefficients.len(),
            nonces.as_ptr(),
            nonces.len(),
            out.as_mut_ptr(),
            out.len(),
        )
    })
}

/// Judges the n lines of a dealing.
pub fn judge_dealing(
    table: &[u8],
    round: Round,
    dealer: u32,
    keys: &[u32],
    lines: &[u8],
) -> Answer<()> {
    passed(unsafe {
        raw::tadlovimpe_judge_dealing(
            table.as_ptr(),
            table.len(),
            round,
            dealer,
            keys.as_ptr(),
            keys.len(),
            lines.as_ptr(),
            lines.len(),
        )
    })
}

/// Writes the record of a member's decrypted share for the dealer, 32 bytes, from the encrypted share of his line.
#[allow(clippy::too_many_arguments)]
pub fn write_share(
    table: &[u8],
    round: Round,
    dealer: u32,
    member: u32,
    encrypted: u32,
    secret_key: u32,
    nonce: u32,
    out: &mut [u8],
) -> Answer<()> {
    passed(unsafe {
        raw::tadlovimpe_write_share(
            table.as_ptr(),
            table.len(),
            round,
            dealer,
            member,
            encrypted,
            secret_key,
            nonce,
            out.as_mut_ptr(),
            out.len(),
        )
    })
}

/// Judges the record of a member's decrypted share, and answers the share.
pub fn judge_share(
    table: &[u8],
    round: Round,
    dealer: u32,
    member: u32,
    key: u32,
    encrypted: u32,
    share: &[u8],
) -> Answer<u32> {
    value(unsafe {
        raw::tadlovimpe_judge_share(
            table.as_ptr(),
            table.len(),
            round,
            dealer,
            member,
            key,
            encrypted,
            share.as_ptr(),
            share.len(),
        )
    })
}

/// Writes the record of an added share, 32 bytes. Its encrypted share is the product of those of the member's lines in all accepted
/// dealings.
pub fn write_added(
    table: &[u8],
    round: Round,
    member: u32,
    encrypted: u32,
    secret_key: u32,
    nonce: u32,
    out: &mut [u8],
) -> Answer<()> {
    passed(unsafe {
        raw::tadlovimpe_write_added(
            table.as_ptr(),
            table.len(),
            round,
            member,
            encrypted,
            secret_key,
            nonce,
            out.as_mut_ptr(),
            out.len(),
        )
    })
}

/// Judges the record of an added share, and answers the decrypted share.
pub fn judge_added(
    table: &[u8],
    round: Round,
    member: u32,
    key: u32,
    encrypted: u32,
    share: &[u8],
) -> Answer<u32> {
    value(unsafe {
        raw::tadlovimpe_judge_added(
            table.as_ptr(),
            table.len(),
            round,
            member,
            key,
            encrypted,
            share.as_ptr(),
            share.len(),
        )
    })
}

/// Checks the dealer's number, and the board's length, form, round and order.
pub fn lines_check(table: &[u8], round: Round, dealer: u32, board: &[u8]) -> Answer<()> {
    passed(unsafe {
        raw::tadlovimpe_lines_check(
            table.as_ptr(),
            table.len(),
            round,
            dealer,
            board.as_ptr(),
            board.len(),
        )
    })
}

/// The lines of the dealer, as a part of the board.
pub fn dealer_lines<'a>(
    table: &[u8],
    round: Round,
    dealer: u32,
    board: &'a [u8],
) -> Answer<&'a [u8]> {
    let part = unsafe {
        raw::tadlovimpe_dealer_lines(
            table.as_ptr(),
            table.len(),
            round,
            dealer,
            board.as_ptr(),
            board.len(),
        )
    };
    passed(part.refusal).map(|()| &board[part.start..][..part.length])
}

/// Judges a board. On a refusal before the verdicts all of them are `None`, and the count is 0; 13 and 14 keep both.
pub fn judge_board(table: &[u8], round: Round, board: &[u8]) -> Judgement {
    let answer = unsafe {
        raw::tadlovimpe_judge_board(
            table.as_ptr(),
            table.len(),
            round,
            board.as_ptr(),
            board.len(),
        )
    };
    Judgement {
        draw: passed(answer.refusal).map(|()| answer.value),
        accepted: answer.accepted,
        verdicts: answer.verdicts.map(verdict),
    }
}

/// What `draw` prints for the bytes of its files.
pub fn draw_text(table: &[u8], set: &[u8], board: &[u8]) -> String {
    let mut out = [0; TEXT_BYTES];
    let length = unsafe {
        raw::tadlovimpe_draw_text(
            table.as_ptr(),
            table.len(),
            set.as_ptr(),
            set.len(),
            board.as_ptr(),
            board.len(),
            &mut out,
        )
    };
    String::from_utf8_lossy(&out[..length]).into_owned()
}

/// Picks `count` plots out of 1 to `total` by the draw value, in their order; `out` is `count` long.
pub fn pick_plots(
    table: &[u8],
    group: u32,
    value: u32,
    radius: u32,
    total: u32,
    count: u32,
    out: &mut [u32],
) -> Answer<()> {
    passed(unsafe {
        raw::tadlovimpe_pick_plots(
            table.as_ptr(),
            table.len(),
            group,
            value,
            radius,
            total,
            count,
            out.as_mut_ptr(),
            out.len(),
        )
    })
}

/// Judges a chain of draw values.
pub fn judge_chain(table: &[u8], chain: &[u8]) -> Answer<()> {
    passed(unsafe {
        raw::tadlovimpe_judge_chain(table.as_ptr(), table.len(), chain.as_ptr(), chain.len())
    })
}

/// Writes the link that the draw value adds to the chain, 64 bytes, to be put behind it.
pub fn extend_chain(
    table: &[u8],
    chain: &[u8],
    group: u32,
    value: u32,
    out: &mut [u8],
) -> Answer<()> {
    passed(unsafe {
        raw::tadlovimpe_extend_chain(
            table.as_ptr(),
            table.len(),
            chain.as_ptr(),
            chain.len(),
            group,
            value,
            out.as_mut_ptr(),
            out.len(),
        )
    })
}

#[cfg(test)]
mod tests {
    use super::{passed, raw::VerdictFigures, value, verdict, Verdict};

    #[test]
    fn figures_are_read() {
        let verdicts = [0, 1, 2, 3, 4].map(|kind| verdict(VerdictFigures { kind, value: 9 }));
        let wanted = [
            Verdict::None,
            Verdict::Refused(9),
            Verdict::Opened(9),
            Verdict::Recovered(9),
            Verdict::Stuck,
        ];
        assert_eq!(verdicts, wanted);
        assert_eq!((passed(0), passed(3)), (Ok(()), Err(3)));
        let answers =
            [(0, 5), (3, 0)].map(|(refusal, v)| value(super::raw::Answer { refusal, value: v }));
        assert_eq!(answers, [Ok(5), Err(3)]);
    }
}
