//! The draw value of a board on which some dealing is stuck: by added shares, each of which stands for all accepted dealings.

use super::{Board, Verdict};
use crate::model::answer::{require, Answer};
use crate::model::record::{self, ADDED, LINE, SIZE};
use crate::model::share::added::judge_sum;
use crate::model::sharing::at_zero;

impl Board<'_> {
    /// What the t lowest members with accepted added shares give: 13 fewer.
    pub fn draw_of_added(&self, verdicts: &[Verdict]) -> Answer<u32> {
        let products = self.products(verdicts);
        let (members, shares) = self.lowest([ADDED, 0], |member, posted| {
            let k = member as usize - 1;
            judge_sum(&self.round, member, self.keys[k], products[k], posted)
        });
        require(members.len() == self.round.t as usize, 13)?;
        Ok(at_zero(&self.round.group, &members, &shares))
    }

    /// The product of each member's Y over all accepted dealings, whether their secrets are known or not.
    fn products(&self, verdicts: &[Verdict]) -> Vec<u32> {
        let mut products = vec![1; self.keys.len()];
        for record in self.bytes.chunks_exact(SIZE).map(record::read) {
            let [kind, dealer, member, _, encrypted, ..] = record;
            if kind == LINE && verdicts[dealer as usize - 1].is_accepted() {
                let product = &mut products[member as usize - 1];
                *product = self.round.group.product(*product, encrypted);
            }
        }
        products
    }
}

#[cfg(test)]
mod tests {
    use crate::model::board::{judge_board, Judged, Secret, Verdict};
    use crate::model::modular::value_at;
    use crate::model::record::{self, Record, ADDED, LINE, OPENING, SHARE};
    use crate::model::round::{Figures, FOUR};
    use crate::posting::Members;

    const FIGURES: Figures = Figures { number: 3, ..FOUR };

    /// The secrets of the dealings of `everything`.
    const SECRETS: [u32; 4] = [7, 100, 0, 2_147_483_542];

    fn members() -> Members {
        Members::new(FIGURES.round().unwrap(), &[5, 1, 2_147_483_542, 70_000])
    }

    /// Keys, each dealer's lines, opening and shares, and the added shares of these dealings.
    fn everything() -> Vec<Record> {
        let members = members();
        let mut records = members.key_records();
        for (dealer, s) in (1..).zip(SECRETS) {
            let values = [1, 2, 3, 4].map(|i| value_at(&[s, 12_345], i, members.round.group.q));
            let lines = members.lines(dealer, &values, &[4, 3, 2, 1]);
            records.extend(lines.iter().map(|line| members.share(line, 9)));
            records.extend(lines);
            records.push(members.opening(dealer, s));
        }
        post_added(&mut records, |_| true);
        records
    }

    /// Puts added shares over some dealers' dealings in the place of those that are posted.
    fn post_added(records: &mut Vec<Record>, is_one: impl Fn(u32) -> bool) {
        let members = members();
        records.retain(|r| r[0] != ADDED);
        let lines = records.iter().filter(|r| r[0] == LINE && is_one(r[1]));
        let lines: Vec<Record> = lines.copied().collect();
        let products = members.products(&lines);
        records.extend((1..).zip(products).map(|(i, y)| members.added(i, y, 9)));
        records.sort();
    }

    fn judged(records: &[Record]) -> Judged {
        judge_board(FIGURES, &record::bytes(records.iter().copied())).expect("a proper board")
    }

    /// Without the openings and the shares of some dealers, who are stuck then.
    fn stuck(is_stuck: impl Fn(u32) -> bool) -> Vec<Record> {
        let mut records = everything();
        records.retain(|r| ![OPENING, SHARE].contains(&r[0]) || !is_stuck(r[1]));
        records
    }

    /// The product of the secrets of some dealings.
    fn draw_of(dealers: &[usize]) -> u32 {
        let group = FIGURES.round().unwrap().group;
        let secrets = dealers.iter().map(|d| group.power(group.h, SECRETS[d - 1]));
        secrets.fold(1, |draw, secret| group.product(draw, secret))
    }

    #[test]
    fn one_draw_value_whatever_is_stuck() {
        let draw = draw_of(&[1, 2, 3, 4]);
        assert_eq!(judged(&everything()).draw, Ok(draw));
        for set in 0..16 {
            let is_stuck = |dealer: u32| set >> (dealer - 1) & 1 == 1;
            let judged = judged(&stuck(is_stuck));
            for (dealer, verdict) in (1..).zip(&judged.verdicts) {
                let expected = Verdict::Accepted(Secret::Stuck);
                assert_eq!(*verdict == expected, is_stuck(dealer));
            }
            assert_eq!((judged.accepted, judged.draw), (4, Ok(draw)));
        }
    }

    #[test]
    fn the_lowest_members_with_accepted_shares_serve() {
        let mut records = stuck(|dealer| dealer == 2);
        let group = members().round.group;
        for member in [1, 3] {
            let share = records.iter_mut().find(|r| r[..3] == [ADDED, 0, member]);
            let opened = &mut share.unwrap()[3];
            *opened = group.product(*opened, group.g);
        }
        assert_eq!(judged(&records).draw, Ok(draw_of(&[1, 2, 3, 4])));
        records.retain(|r| r[..3] != [ADDED, 0, 4]);
        assert_eq!(judged(&records).draw, Err(13));
    }
}
