//! The hashed messages, and the exponents that their digests give.

use crate::model::exponent::of_digest;
use crate::model::round::Round;
use crate::model::sha256::sha256;

const DEALING: u8 = 0x44;
const COEFFICIENT: u8 = 0x50;

/// The first byte of what is hashed for an opened share, and for an added one.
pub const OPENED: u8 = 0x53;
pub const ADDED: u8 = 0x41;

/// The exponent that a message gives in its round.
fn exponent(round: &Round, message: &[u8]) -> u32 {
    of_digest(round, &sha256(message))
}

/// The longest head.
const HEAD: usize = 9;

/// The first bytes of every message, with room for so many behind them. The round's number has no bytes in round 0, so
/// that what was written before rounds had numbers stays right.
fn head(tag: u8, round: &Round, dealer: u32, behind: usize) -> Vec<u8> {
    let mut message = Vec::with_capacity(HEAD + behind);
    message.push(tag);
    message.extend([round.number, round.n, round.t].map(|number| number as u8));
    if round.round != 0 {
        extend(&mut message, &[round.round]);
    }
    message.push(dealer as u8);
    message
}

fn extend(message: &mut Vec<u8>, words: &[u32]) {
    for word in words {
        message.extend(word.to_be_bytes());
    }
}

/// What is hashed for a dealing: v and Y, and a1 and a2, of each line.
pub fn dealing_message(
    round: &Round,
    dealer: u32,
    dealt: &[[u32; 2]],
    announced: &[[u32; 2]],
) -> Vec<u8> {
    let mut message = head(DEALING, round, dealer, 16 * dealt.len());
    for (dealt, announced) in dealt.iter().zip(announced) {
        extend(&mut message, dealt);
        extend(&mut message, announced);
    }
    message
}

/// The challenge of a dealing.
pub fn dealing_challenge(
    round: &Round,
    dealer: u32,
    dealt: &[[u32; 2]],
    announced: &[[u32; 2]],
) -> u32 {
    exponent(round, &dealing_message(round, dealer, dealt, announced))
}

/// What is hashed for a share, opened or added: the member, y, Y, S, a1 and a2. An added one has dealer 0.
pub fn share_message(
    tag: u8,
    round: &Round,
    dealer: u32,
    member: u32,
    words: &[u32; 5],
) -> Vec<u8> {
    let mut message = head(tag, round, dealer, 1 + 20);
    message.push(member as u8);
    extend(&mut message, words);
    message
}

/// The challenge of a share.
pub fn share_challenge(tag: u8, round: &Round, dealer: u32, member: u32, words: &[u32; 5]) -> u32 {
    exponent(round, &share_message(tag, round, dealer, member, words))
}

/// What is hashed for the first coefficient, from v and Y of each line, and where its place stands.
pub fn first_coefficient(round: &Round, dealer: u32, dealt: &[[u32; 2]]) -> (Vec<u8>, usize) {
    let mut message = head(COEFFICIENT, round, dealer, 1 + 8 * dealt.len());
    let place = message.len();
    message.push(0);
    for words in dealt {
        extend(&mut message, words);
    }
    (message, place)
}

/// The judge's own check polynomial. The messages of its coefficients differ by the place alone.
pub fn check_polynomial(round: &Round, dealer: u32, dealt: &[[u32; 2]]) -> Vec<u32> {
    let (mut message, place) = first_coefficient(round, dealer, dealt);
    let mut coefficients = Vec::with_capacity((round.n - round.t) as usize);
    for k in 0..round.n - round.t {
        message[place] = k as u8;
        coefficients.push(exponent(round, &message));
    }
    coefficients
}

#[cfg(test)]
mod tests {
    use super::*;
    use crate::model::round::{Figures, FOUR};

    const DEALER: u32 = 3;
    const MEMBER: u32 = 2;
    const WORDS: [u32; 5] = [10, 20, 30, 40, 50];

    fn round(n: u32, t: u32, number: u32) -> Round {
        Figures::of(3, n, t).with_round(number).round().unwrap()
    }

    /// What is hashed for a dealing, a share and a coefficient, with figures that are nowhere the same.
    fn messages(n: u32, number: u32) -> [Vec<u8>; 3] {
        let round = round(n, 1, number);
        let dealt: Vec<[u32; 2]> = (1..=n).map(|i| [i, 256 * i]).collect();
        let announced: Vec<[u32; 2]> = (1..=n).map(|i| [1000 + i, 70_000 + i]).collect();
        [
            dealing_message(&round, DEALER, &dealt, &announced),
            share_message(OPENED, &round, DEALER, MEMBER, &WORDS),
            first_coefficient(&round, DEALER, &dealt).0,
        ]
    }

    #[test]
    fn lengths() {
        for number in [1, 256, u32::MAX] {
            assert_eq!(messages(31, number).map(|m| m.len()), [505, 30, 258]);
            assert_eq!(messages(1, number).map(|m| m.len()), [25, 30, 18]);
        }
        assert_eq!(messages(31, 0).map(|m| m.len()), [501, 26, 254]);
        assert_eq!(messages(1, 0).map(|m| m.len()), [21, 26, 14]);
    }

    /// Without the four bytes behind t a message is that of round 0.
    #[test]
    fn the_number_stands_behind_t() {
        for n in [1, 4, 31] {
            for (mut message, before) in messages(n, 0x0102_0304).into_iter().zip(messages(n, 0)) {
                assert_eq!(message[1..9], [3, n as u8, 1, 1, 2, 3, 4, DEALER as u8]);
                message.drain(4..8);
                assert_eq!(message, before);
            }
        }
    }

    /// An added share's message is an opened one's of dealer 0, but for the first byte.
    #[test]
    fn an_added_share() {
        for number in [0, 1, 0x0102_0304, u32::MAX] {
            let round = round(4, 2, number);
            let [opened, added] =
                [OPENED, ADDED].map(|tag| share_message(tag, &round, 0, MEMBER, &WORDS));
            assert_eq!((opened[0], added[0]), (0x53, 0x41));
            assert_eq!(opened[1..], added[1..]);
        }
        let added = share_message(ADDED, &round(4, 2, 0x0102_0304), 0, MEMBER, &[1; 5]);
        assert_eq!(added[..10], [0x41, 3, 4, 2, 1, 2, 3, 4, 0, 2]);
        assert_eq!(added[10..], [0, 0, 0, 1].repeat(5));
        let added = share_message(ADDED, &round(4, 2, 0), 0, MEMBER, &[1; 5]);
        assert_eq!(added[..6], [0x41, 3, 4, 2, 0, 2]);
    }

    /// As `sha256sum` has their digests.
    #[test]
    fn exponents_by_another_program() {
        let numbered = round(4, 2, 0x0102_0304);
        let of_share = |round: &Round| share_challenge(OPENED, round, DEALER, MEMBER, &WORDS);
        assert_eq!(of_share(&numbered), 508_200_328);
        assert_eq!(of_share(&round(4, 2, 0)), 1_418_902_816);
        let of_added = |round: &Round| share_challenge(ADDED, round, 0, MEMBER, &WORDS);
        assert_eq!(of_added(&numbered), 845_876_573);
        assert_eq!(of_added(&round(4, 2, 0)), 737_644_794);
        let dealt = [[1, 2], [3, 4], [5, 6], [7, 8]];
        let polynomial = check_polynomial(&numbered, DEALER, &dealt);
        assert_eq!(polynomial, [1_778_503_140, 1_645_183_574]);
        let two = round(2, 1, 0x0102_0304);
        let challenge = dealing_challenge(&two, 2, &dealt[..2], &dealt[2..]);
        assert_eq!(challenge, 858_714_260);
    }

    /// The exponents of the same messages in a round under the new rule: both shares', two coefficients and a dealing's. As
    /// `sha256sum` has their digests, and `bc` the remainders of these.
    #[test]
    fn whole_exponents_by_another_program() {
        let dealt = [[1, 2], [3, 4], [5, 6], [7, 8]];
        for (number, of_added, expected) in [
            (1, 8, [10, 8, 2, 1]),
            (2, 298, [436, 723, 564, 509]),
            (
                3,
                1_368_401_224,
                [1_794_559_105, 831_746_684, 871_252_326, 1_608_404_453],
            ),
        ] {
            let whole = |n, t| {
                let figures = Figures::of(number, n, t).with_round(0x0102_0304);
                figures.with_first(0x0102_0304).round().unwrap()
            };
            let (four, two) = (whole(4, 2), whole(2, 1));
            let share = share_challenge(OPENED, &four, DEALER, MEMBER, &WORDS);
            let added = share_challenge(ADDED, &four, 0, MEMBER, &WORDS);
            assert_eq!(added, of_added);
            let polynomial = check_polynomial(&four, DEALER, &dealt);
            let challenge = dealing_challenge(&two, 2, &dealt[..2], &dealt[2..]);
            assert_eq!([share, polynomial[0], polynomial[1], challenge], expected);
        }
    }

    /// The first round is not hashed.
    #[test]
    fn the_first_round_has_no_bytes() {
        let [none, same] = [0, 7].map(|first| {
            let figures = Figures::of(3, 4, 2).with_round(7).with_first(first);
            share_message(OPENED, &figures.round().unwrap(), DEALER, MEMBER, &WORDS)
        });
        assert_eq!(none, same);
    }

    /// Each byte of the number counts.
    #[test]
    fn another_round_has_another_challenge() {
        let challenge = |number| {
            let round = Figures { number: 3, ..FOUR }.with_round(number).round();
            share_challenge(OPENED, &round.unwrap(), DEALER, MEMBER, &WORDS)
        };
        let numbers = [0, 1, 2, 256, 0x0001_0000, 0x0100_0000, u32::MAX];
        let mut challenges = numbers.map(challenge).to_vec();
        challenges.sort();
        challenges.dedup();
        assert_eq!(challenges.len(), numbers.len());
    }
}
