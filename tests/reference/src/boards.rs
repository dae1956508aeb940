//! Boards: what members post in a round, and changes of it.

use crate::model::modular::value_at;
use crate::model::record::{self, Record, LINE};
use crate::model::round::Round;
use crate::posting::Members;
use crate::source::Source;

/// The most records of a board.
pub const MOST: usize = 2048;

/// A board of a round: keys, most dealers' lines, some openings, shares and added shares, some of them wrong, in the order of a board.
pub fn records(source: &mut Source, round: &Round) -> Vec<Record> {
    let (n, t, group) = (round.n, round.t, round.group);
    let members = Members::new(*round, &source.secret_keys(round));
    let mut records = members.key_records();
    let [shares, openings] = [0; 2].map(|_| source.below(4));
    for dealer in 1..=n {
        if source.once_in(8) {
            continue;
        }
        let polynomial = source.list(t as usize, group.q);
        let mut exponents: Vec<u32> = (1..=n).map(|i| value_at(&polynomial, i, group.q)).collect();
        if source.once_in(12) {
            let k = source.index(n as usize);
            exponents[k] = source.below(group.q);
        }
        let lines = members.lines(dealer, &exponents, &source.list(n as usize, group.q));
        for line in &lines {
            if source.below(4) < shares {
                records.push(members.share(line, source.below(group.q)));
            }
        }
        if source.below(4) < openings {
            let s = if source.once_in(8) {
                source.below(group.q)
            } else {
                polynomial[0]
            };
            records.push(members.opening(dealer, s));
        }
        records.extend(lines);
    }
    if source.once_in(2) {
        records.extend(added(source, &members, &records));
    }
    records.sort_by_key(|r| [r[0], r[1], r[2]]);
    records
}

/// Added shares of most members, seldom with a dealing left out of them.
fn added(source: &mut Source, members: &Members, records: &[Record]) -> Vec<Record> {
    let left_out = if source.once_in(4) {
        source.below(members.round.n + 1)
    } else {
        0
    };
    let is_added = |r: &&Record| r[0] == LINE && r[1] != left_out;
    let lines: Vec<Record> = records.iter().filter(is_added).copied().collect();
    let mut added = Vec::new();
    for (i, product) in (1..).zip(members.products(&lines)) {
        if !source.once_in(6) {
            added.push(members.added(i, product, source.below(members.round.group.q)));
        }
    }
    added
}

/// The bytes of a board, with none, one or two changes, and seldom with as many records as a board may have.
pub fn board(source: &mut Source, round: &Round) -> Vec<u8> {
    let mut records = records(source, round);
    if source.once_in(256) {
        let count = MOST - 1 + source.index(3);
        records.resize(count, *records.last().expect("a key"));
        source.note(format!("board: {count} records"));
    }
    let mut bytes = record::bytes(records);
    for _ in 0..source.below(4).saturating_sub(1) {
        source.change_records(&round.group, "board", &mut bytes);
    }
    bytes
}
