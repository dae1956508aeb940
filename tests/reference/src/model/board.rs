//! The board: the form and order of its records, the keys, a dealer's lines, the verdicts and the draw value.

mod added;

use crate::model::answer::{require, Answer};
use crate::model::dealing;
use crate::model::record::{self, has_form, Record, ADDED, KEY, LINE, OPENING, SHARE, SIZE};
use crate::model::round::{Lent, Round};
use crate::model::share::judge_opened;
use crate::model::sharing::{at_zero, check_opening};

/// The most records that a board may have.
const MOST: usize = 2048;

/// How the secret of an accepted dealing came, with the secret h^s.
#[derive(Clone, Copy, Debug, PartialEq)]
pub enum Secret {
    Opened(u32),
    Recovered(u32),
    Stuck,
}

#[derive(Clone, Copy, Debug, PartialEq)]
pub enum Verdict {
    None,
    Refused(u32),
    Accepted(Secret),
}

impl Verdict {
    fn is_accepted(&self) -> bool {
        matches!(self, Verdict::Accepted(_))
    }
}

/// What is judged of a board: the verdict on each dealer from 1 to n, the count of accepted dealings, and the draw value.
pub struct Judged {
    pub verdicts: Vec<Verdict>,
    pub accepted: usize,
    pub draw: Answer<u32>,
}

/// A board that nothing refuses before verdicts.
struct Board<'a> {
    round: Round,
    keys: Vec<u32>,
    bytes: &'a [u8],
}

/// A record's kind, dealer and member, by which records ascend.
fn place(bytes: &[u8]) -> [u32; 3] {
    let [kind, dealer, member, ..] = record::read(bytes);
    [kind, dealer, member]
}

/// Whether the record is one of the table, for n members.
fn is_of_table(n: u32, record: &Record) -> bool {
    let is_member = |number| (1..=n).contains(&number);
    let [kind, dealer, member, ..] = *record;
    let in_range = match kind {
        KEY | ADDED => dealer == 0 && is_member(member),
        OPENING => is_member(dealer) && member == 0,
        _ => is_member(dealer) && is_member(member),
    };
    in_range && has_form(record)
}

/// 3 not whole records or too many; record by record 4 none of the table, then 17 of another round, and then 5 not above
/// the one before.
fn check_form(round: &Round, bytes: &[u8]) -> Answer<()> {
    require(bytes.len().is_multiple_of(SIZE), 3)?;
    require(bytes.len() / SIZE <= MOST, 3)?;
    // Every record of the table is above this.
    let mut before = [0; 3];
    for record in bytes.chunks_exact(SIZE).map(record::read) {
        require(is_of_table(round.n, &record), 4)?;
        require(record[7] == round.round, 17)?;
        let [kind, dealer, member, ..] = record;
        let place = [kind, dealer, member];
        require(place > before, 5)?;
        before = place;
    }
    Ok(())
}

/// The part of a board of proper form that holds a dealer's lines.
fn lines_of(bytes: &[u8], dealer: u32) -> &[u8] {
    let all = bytes.len() / SIZE;
    let is_line = |k: &usize| place(&bytes[SIZE * k..])[..2] == [LINE, dealer];
    let start = (0..all).find(is_line).unwrap_or(all);
    let end = (start..all).find(|k| !is_line(k)).unwrap_or(all);
    &bytes[SIZE * start..SIZE * end]
}

/// The operation that gives the number for a dealer's lines: the table's numbers; 1, 2; 8; then 3, 4, 17 and 5 as for the
/// board.
pub fn lines_check(figures: Lent, dealer: u32, bytes: &[u8]) -> Answer<()> {
    let round = figures.round()?;
    require(round.has_member(dealer), 8)?;
    check_form(&round, bytes)
}

/// The operation that gives a dealer's lines, none where the check refuses.
pub fn dealer_lines<'a>(figures: Lent, dealer: u32, bytes: &'a [u8]) -> &'a [u8] {
    match lines_check(figures, dealer, bytes) {
        Ok(()) => lines_of(bytes, dealer),
        Err(_) => &[],
    }
}

/// The members' keys of a board of proper form: 12 a key missing; 6 a bad key; 22 two equal ones.
fn keys(round: &Round, bytes: &[u8]) -> Answer<Vec<u32>> {
    let records = bytes.chunks_exact(SIZE).map(record::read);
    let keys: Vec<u32> = records.filter(|r| r[0] == KEY).map(|r| r[3]).collect();
    // Their members ascend strictly from 1 to n, so that n of them are one for each.
    require(keys.len() == round.n as usize, 12)?;
    round.check_keys(&keys)?;
    Ok(keys)
}

/// The operation: the table's numbers; 1, 2; 3; record by record 4, 17 and 5; 12; 6; 22. Where these refuse nothing it
/// answers what it judges.
pub fn judge_board(figures: Lent, bytes: &[u8]) -> Answer<Judged> {
    judge(figures.round()?, bytes)
}

/// The same of a round whose figures are judged.
pub fn judge(round: Round, bytes: &[u8]) -> Answer<Judged> {
    check_form(&round, bytes)?;
    let board = Board {
        keys: keys(&round, bytes)?,
        round,
        bytes,
    };
    let dealers = 1..=board.round.n;
    let verdicts: Vec<Verdict> = dealers.map(|dealer| board.verdict(dealer)).collect();
    let accepted = verdicts.iter().filter(|v| v.is_accepted()).count();
    Ok(Judged {
        draw: board.draw(&verdicts, accepted),
        verdicts,
        accepted,
    })
}

impl Board<'_> {
    /// None without lines; 12 with some but not n; else what the judge of dealings answers.
    fn verdict(&self, dealer: u32) -> Verdict {
        let lines = lines_of(self.bytes, dealer);
        if lines.is_empty() {
            return Verdict::None;
        }
        if lines.len() / SIZE != self.round.n as usize {
            return Verdict::Refused(12);
        }
        match dealing::judge(&self.round, dealer, &self.keys, lines) {
            Err(number) => Verdict::Refused(number),
            Ok(()) => Verdict::Accepted(self.secret(dealer, lines)),
        }
    }

    /// A right opening counts first, otherwise the t lowest members with accepted shares; fewer are stuck.
    fn secret(&self, dealer: u32, lines: &[u8]) -> Secret {
        if let Some(s) = self.right_opening(dealer, lines) {
            return Secret::Opened(self.round.group.power(self.round.group.h, s));
        }
        let (members, shares) = self.lowest_shares(dealer, lines);
        if members.len() < self.round.t as usize {
            return Secret::Stuck;
        }
        Secret::Recovered(at_zero(&self.round.group, &members, &shares))
    }

    fn right_opening(&self, dealer: u32, lines: &[u8]) -> Option<u32> {
        let mut records = self.bytes.chunks_exact(SIZE);
        let posted = records.find(|record| place(record) == [OPENING, dealer, 0])?;
        let [_, _, _, s, ..] = record::read(posted);
        let commitments: Vec<u32> = lines
            .chunks_exact(SIZE)
            .map(|line| record::read(line)[3])
            .collect();
        check_opening(&self.round, &commitments, s).ok().map(|()| s)
    }

    /// The first t accepted shares of a dealing, which are those of the lowest members: these and the shares.
    fn lowest_shares(&self, dealer: u32, lines: &[u8]) -> (Vec<u32>, Vec<u32>) {
        self.lowest([SHARE, dealer], |member, posted| {
            let k = member as usize - 1;
            let encrypted = record::read(&lines[SIZE * k..])[4];
            judge_opened(&self.round, dealer, member, self.keys[k], encrypted, posted)
        })
    }

    /// The first t records of a kind and a dealer that are accepted by a judge, which is handed the member and the record:
    /// the members and the shares. A bad one is ignored.
    fn lowest(
        &self,
        kind_and_dealer: [u32; 2],
        judge: impl Fn(u32, &[u8]) -> Answer<u32>,
    ) -> (Vec<u32>, Vec<u32>) {
        let t = self.round.t as usize;
        let (mut members, mut shares) = (Vec::with_capacity(t), Vec::with_capacity(t));
        for posted in self.bytes.chunks_exact(SIZE) {
            if members.len() == t {
                break;
            }
            let [kind, dealer, member] = place(posted);
            if [kind, dealer] != kind_and_dealer {
                continue;
            }
            if let Ok(share) = judge(member, posted) {
                members.push(member);
                shares.push(share);
            }
        }
        (members, shares)
    }

    /// 14 fewer than t accepted. Where a dealing is stuck the added shares decide, and otherwise the value is the product of
    /// the secrets of all accepted dealings.
    fn draw(&self, verdicts: &[Verdict], accepted: usize) -> Answer<u32> {
        require(accepted >= self.round.t as usize, 14)?;
        let mut draw = 1;
        for verdict in verdicts {
            match *verdict {
                Verdict::None | Verdict::Refused(_) => {}
                Verdict::Accepted(Secret::Stuck) => return self.draw_of_added(verdicts),
                Verdict::Accepted(Secret::Opened(secret) | Secret::Recovered(secret)) => {
                    draw = self.round.group.product(draw, secret);
                }
            }
        }
        Ok(draw)
    }
}

#[cfg(test)]
mod tests {
    use super::*;
    use crate::model::modular::value_at;
    use crate::model::round::{Figures, FOUR};
    use crate::posting::Members;

    const FIGURES: Figures = Figures { number: 3, ..FOUR };

    /// The secrets of the dealings of `everything`.
    const SECRETS: [u32; 4] = [7, 100, 0, 2_147_483_542];

    /// Keys, and each dealer's lines, opening and shares.
    fn everything() -> Vec<Record> {
        everything_of(FIGURES)
    }

    fn everything_of(figures: Figures) -> Vec<Record> {
        let members = Members::new(figures.round().unwrap(), &[5, 1, 2_147_483_542, 70_000]);
        let mut records = members.key_records();
        for (dealer, s) in (1..).zip(SECRETS) {
            let values = [1, 2, 3, 4].map(|i| value_at(&[s, 12_345], i, members.round.group.q));
            let lines = members.lines(dealer, &values, &[4, 3, 2, 1]);
            records.extend(lines.iter().map(|line| members.share(line, 9)));
            records.extend(lines);
            records.push(members.opening(dealer, s));
        }
        records.sort();
        records
    }

    fn judged(records: &[Record]) -> Judged {
        judge_board(FIGURES, &record::bytes(records.iter().copied())).expect("a proper board")
    }

    fn without(is_removed: impl Fn(&Record) -> bool) -> Vec<Record> {
        let mut records = everything();
        records.retain(|record| !is_removed(record));
        records
    }

    fn secret(dealer: usize) -> u32 {
        let group = FIGURES.round().unwrap().group;
        group.power(group.h, SECRETS[dealer - 1])
    }

    #[test]
    fn openings_and_shares_give_one_draw_value() {
        let group = FIGURES.round().unwrap().group;
        let draw = (1..=4).fold(1, |draw, dealer| group.product(draw, secret(dealer)));
        let opened = judged(&everything());
        let recovered = judged(&without(|r| r[0] == OPENING));
        for dealer in 1..=4 {
            let (one, other) = (
                Secret::Opened(secret(dealer)),
                Secret::Recovered(secret(dealer)),
            );
            assert_eq!(opened.verdicts[dealer - 1], Verdict::Accepted(one));
            assert_eq!(recovered.verdicts[dealer - 1], Verdict::Accepted(other));
        }
        assert_eq!((opened.accepted, opened.draw), (4, Ok(draw)));
        assert_eq!((recovered.accepted, recovered.draw), (4, Ok(draw)));
    }

    #[test]
    fn the_lowest_members_with_accepted_shares_serve() {
        let mut records = without(|r| r[0] == OPENING);
        for member in [1, 3] {
            let is_it = |r: &&mut Record| r[..3] == [SHARE, 2, member];
            let share = records.iter_mut().find(is_it).unwrap();
            share[5] ^= 1;
        }
        let recovered = Verdict::Accepted(Secret::Recovered(secret(2)));
        assert_eq!(judged(&records).verdicts[1], recovered);
        records.retain(|r| r[..3] != [SHARE, 2, 4]);
        let judged = judged(&records);
        assert_eq!(judged.verdicts[1], Verdict::Accepted(Secret::Stuck));
        assert_eq!((judged.accepted, judged.draw), (4, Err(13)));
    }

    #[test]
    fn a_dealers_lines_as_they_lie() {
        let board = record::bytes(everything());
        let lines = dealer_lines(FIGURES, 3, &board);
        assert_eq!(lines.as_ptr(), board[SIZE * 12..].as_ptr());
        assert_eq!(lines.len(), SIZE * 4);
        let left = record::bytes(without(|r| r[0] == LINE && r[1] == 3));
        assert!(dealer_lines(FIGURES, 3, &left).is_empty());
        assert!(dealer_lines(FIGURES, 3, &board[1..]).is_empty());
        assert_eq!(lines_check(FIGURES, 5, &board[1..]), Err(8));
        assert_eq!(lines_check(FIGURES, 3, &board[1..]), Err(3));
    }
}
