//! The table of groups: a round's own, or the built-in one in the place of no bytes.

use crate::model::answer::{require, Answer};
use crate::model::group::Group;
use crate::model::modular::power;
use crate::model::record::{self, Record, SIZE};

/// The first word of a record of the table.
pub const GROUP: u32 = 7;

/// The most groups of a table.
pub const MOST: usize = 8;

/// The generators of every built-in group.
pub const G: u32 = 4;
pub const H: u32 = 9;

/// The groups that no bytes stand for, from number 1 on.
pub const BUILT_IN: [Group; 3] = [safe(11), safe(1019), safe(2_147_483_543)];

/// The built-in group of a q, with p = 2q + 1.
const fn safe(q: u32) -> Group {
    Group {
        p: 2 * q + 1,
        q,
        g: G,
        h: H,
    }
}

/// A table that nothing refuses.
#[derive(Clone, Copy)]
pub struct Table<'a>(&'a [u8]);

/// The record of a group.
pub fn record_of(number: u32, group: &Group) -> Record {
    [GROUP, number, group.p, group.q, group.g, group.h, 0, 0]
}

/// The bytes of a table of these groups.
pub fn bytes(groups: &[Group]) -> Vec<u8> {
    let numbered = (1..).zip(groups);
    record::bytes(numbered.map(|(number, group)| record_of(number, group)))
}

fn group_of(record: &[u8]) -> Group {
    let [_, _, p, q, g, h, ..] = record::read(record);
    Group { p, q, g, h }
}

/// By trial division. A divisor is compared with the quotient, since its square may have more than 32 bits.
fn is_prime(m: u32) -> bool {
    if m < 2 {
        return false;
    }
    if m.is_multiple_of(2) {
        return m == 2;
    }
    let mut d = 3;
    while d <= m / d {
        if m.is_multiple_of(d) {
            return false;
        }
        d += 2;
    }
    true
}

/// 20 p or q; 21 g or h.
fn check_group(&Group { p, q, g, h }: &Group) -> Answer<()> {
    require(q != 2 && is_prime(q), 20)?;
    require(is_prime(p) && (p - 1).is_multiple_of(q), 20)?;
    let is_generator = |v| 2 <= v && v < p && power(v, q, p) == 1;
    require(is_generator(g) && is_generator(h) && g != h, 21)
}

/// The checks by which every operation that is lent a table begins: 3 not whole records or over 8; 4 a record of another
/// shape; record by record 20 and 21.
pub fn judge(bytes: &[u8]) -> Answer<Table<'_>> {
    let is_whole = bytes.len().is_multiple_of(SIZE);
    require(is_whole && bytes.len() <= SIZE * MOST, 3)?;
    let records = bytes.chunks_exact(SIZE);
    for (number, record) in (1..).zip(records.clone()) {
        let [kind, of_record, _, _, _, _, spare @ ..] = record::read(record);
        require([kind, of_record] == [GROUP, number] && spare == [0; 2], 4)?;
    }
    for record in records {
        check_group(&group_of(record))?;
    }
    Ok(Table(bytes))
}

impl Table<'_> {
    /// The group of a number: 1 there is none.
    pub fn group(&self, number: u32) -> Answer<Group> {
        let place = (number as usize).checked_sub(1).ok_or(1u32)?;
        if self.0.is_empty() {
            return BUILT_IN.get(place).copied().ok_or(1);
        }
        let mut records = self.0.chunks_exact(SIZE);
        records.nth(place).map(group_of).ok_or(1)
    }
}

#[cfg(test)]
mod tests {
    use super::*;
    use crate::model::primes;

    /// Of order 5 modulo 31, of order 7 modulo 43, and of order 3 modulo 7.
    const SMALL: [Group; 3] = [of(31, 5, 2, 4), of(43, 7, 4, 11), of(7, 3, 2, 4)];

    const fn of(p: u32, q: u32, g: u32, h: u32) -> Group {
        Group { p, q, g, h }
    }

    fn refusal(group: Group) -> Option<u32> {
        judge(&bytes(&[group])).err()
    }

    #[test]
    fn primes_as_by_the_other_division() {
        let near = (u32::MAX - 2000..=u32::MAX).chain(65_521 * 65_521 - 500..65_521 * 65_521 + 500);
        for m in (0..5000).chain(near).chain([65_535 * 65_535]) {
            assert_eq!(is_prime(m), primes::is_prime(m.into()), "{m}");
        }
    }

    #[test]
    fn moduli() {
        for (p, q) in [(0, 3), (1, 3), (2, 3), (3, 2), (23, 2), (5, 2), (19, 9)] {
            assert_eq!(refusal(of(p, q, 2, 4)), Some(20), "{p} {q}");
        }
        for (p, q) in [(31, 7), (5, 5), (5, 11), (561, 5), (15, 7), (7, 0), (7, 1)] {
            assert_eq!(refusal(of(p, q, 2, 4)), Some(20), "{p} {q}");
        }
    }

    /// 5 is a square modulo 31 and no element of the group of order 5.
    #[test]
    fn generators() {
        for (g, h) in [(2, 2), (1, 2), (2, 1), (0, 2), (2, 0), (33, 4), (2, 35)] {
            assert_eq!(refusal(of(31, 5, g, h)), Some(21), "{g} {h}");
        }
        for (g, h) in [(5, 2), (2, 5), (30, 2), (2, 30), (3, 2), (31, 2), (2, 31)] {
            assert_eq!(refusal(of(31, 5, g, h)), Some(21), "{g} {h}");
        }
        for (g, h) in [(2, 4), (8, 16), (16, 2)] {
            assert_eq!(refusal(of(31, 5, g, h)), None);
        }
        assert!(!judge(&bytes(&SMALL))
            .unwrap()
            .group(1)
            .unwrap()
            .is_element(5));
    }
}
