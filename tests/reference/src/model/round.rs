//! Rounds: a group, the number of members, the threshold, the round's number and that of the first round under the new rule.

use crate::model::answer::{require, Answer};
use crate::model::group::Group;
use crate::model::table::{self, Table};

/// The most members that a round may have.
const MOST: u32 = 31;

/// The figures of a round as they are lent, with the table of groups.
#[derive(Clone, Copy)]
pub struct Lent<'a> {
    pub table: &'a [u8],
    pub number: u32,
    pub n: u32,
    pub t: u32,
    pub round: u32,
    pub first: u32,
}

/// Figures whose table stays to the program's end, as cases have them.
pub type Figures = Lent<'static>;

/// The round of the figures by hand.
pub const FOUR: Figures = Figures::of(1, 4, 2);

/// A round whose figures are proper.
#[derive(Clone, Copy)]
pub struct Round {
    pub number: u32,
    pub group: Group,
    pub n: u32,
    pub t: u32,
    pub round: u32,
    /// The first round in which an exponent is taken from the whole digest, 0 for none.
    pub first: u32,
}

impl<'a> Lent<'a> {
    /// The figures of round 0 of a built-in group, with no round under the new rule.
    pub const fn of(number: u32, n: u32, t: u32) -> Lent<'a> {
        let (round, first) = (0, 0);
        Lent {
            table: &[],
            number,
            n,
            t,
            round,
            first,
        }
    }

    /// The same figures with another table.
    pub fn with_table(self, table: &'a [u8]) -> Lent<'a> {
        Lent { table, ..self }
    }

    /// The same figures in another round.
    pub fn with_round(self, round: u32) -> Lent<'a> {
        Lent { round, ..self }
    }

    /// The same figures with another first round under the new rule.
    pub fn with_first(self, first: u32) -> Lent<'a> {
        Lent { first, ..self }
    }

    /// The checks by which every operation begins: the table's numbers; 1 no group of that number; 2 n or t outside its range.
    /// Any number is a round's, and the first round's.
    pub fn round(self) -> Answer<Round> {
        self.round_of(&table::judge(self.table)?)
    }

    /// The same with the table judged before.
    pub fn round_of(self, table: &Table) -> Answer<Round> {
        let Lent {
            number,
            n,
            t,
            round,
            first,
            ..
        } = self;
        let group = table.group(number)?;
        require((1..=MOST).contains(&n) && n < group.q, 2)?;
        require((1..=n).contains(&t), 2)?;
        Ok(Round {
            number,
            group,
            n,
            t,
            round,
            first,
        })
    }
}

impl Round {
    /// Whether the number is that of a member, who may also deal.
    pub fn has_member(&self, number: u32) -> bool {
        (1..=self.n).contains(&number)
    }

    /// The checks of a list of keys, each over all of them: 6 one that is no element, or is 1; 22 two that are equal.
    pub fn check_keys(&self, keys: &[u32]) -> Answer<()> {
        require(keys.iter().all(|&y| self.group.is_key(y)), 6)?;
        require(are_distinct(keys), 22)
    }

    /// Whether an exponent is taken from the whole digest. Round 0 is before every first round.
    pub fn takes_whole(&self) -> bool {
        self.first != 0 && self.round >= self.first
    }
}

/// Whether no two of the figures are equal.
fn are_distinct(figures: &[u32]) -> bool {
    (1..figures.len()).all(|k| !figures[..k].contains(&figures[k]))
}

#[cfg(test)]
mod tests {
    use super::*;

    fn refusal(number: u32, n: u32, t: u32) -> Option<u32> {
        Figures::of(number, n, t).round().err()
    }

    #[test]
    fn any_number_is_a_rounds() {
        for number in [0, 1, 256, u32::MAX] {
            let round = FOUR.with_round(number).round().unwrap();
            assert_eq!((round.round, round.first), (number, 0));
            let round = FOUR.with_first(number).round().unwrap();
            assert_eq!((round.round, round.first), (0, number));
        }
    }

    fn takes_whole(round: u32, first: u32) -> bool {
        let figures = FOUR.with_round(round).with_first(first);
        figures.round().unwrap().takes_whole()
    }

    #[test]
    fn the_rule_is_new_from_the_first_round_on() {
        for first in [1, 2, 256, 0x0102_0304, u32::MAX] {
            assert!(!takes_whole(0, first));
            assert!(!takes_whole(first - 1, first));
            assert!(takes_whole(first, first));
            assert!(takes_whole(first.saturating_add(1), first));
            assert!(takes_whole(u32::MAX, first));
            assert!(!takes_whole(first, 0));
        }
        assert!(!takes_whole(0, 0));
    }

    #[test]
    fn ranges() {
        assert_eq!(refusal(1, 10, 10), None);
        assert_eq!(refusal(1, 11, 10), Some(2));
        assert_eq!(refusal(2, 31, 1), None);
        assert_eq!(refusal(3, 32, 1), Some(2));
        assert_eq!(refusal(3, 0, 0), Some(2));
        assert_eq!(refusal(3, 4, 0), Some(2));
        assert_eq!(refusal(3, 4, 5), Some(2));
    }

    fn checked(keys: &[u32]) -> Option<u32> {
        FOUR.round().unwrap().check_keys(keys).err()
    }

    /// Every two of the keys of group 1, and in the place of one of them each figure up to p + 1.
    #[test]
    fn keys_of_group_1() {
        let all = [2, 3, 4, 6, 8, 9, 12, 13, 16, 18];
        assert_eq!(checked(&all), None);
        for k in 0..10 {
            for figure in 0..=24 {
                let mut keys = all;
                keys[k] = figure;
                let expected = match all.iter().position(|&y| y == figure) {
                    None => Some(6),
                    Some(place) => (place != k).then_some(22),
                };
                assert_eq!(checked(&keys), expected, "{k} {figure}");
            }
        }
    }
}
