//! Cases by hand, of what has to be aimed at: the papers' figures, equal ranks, the largest boards and chains, a fault in the last line of
//! the most members, primes near 2^32, FIPS 180-4's examples and the forged boards.

mod boards;
mod dealings;
pub mod tables;

use crate::case::{Case, Figure};
use crate::generate::linked;
use crate::model::chain::MOST;
use crate::model::plots;
use crate::model::sha256::EXAMPLES;
use crate::numbers::Numbers;
use crate::operations::Operation;
use crate::source::filled;
use crate::ties::{NEAR, OF_GROUP_2, OF_GROUP_3};
use std::collections::BTreeSet;
use Figure::{Bytes, Word, Words};

#[derive(Clone)]
pub struct Aimed {
    pub operation: &'static Operation,
    pub label: String,
    pub case: Case,
}

impl Aimed {
    pub fn new(name: &str, label: impl Into<String>, case: Case) -> Aimed {
        Aimed {
            operation: Operation::named(name).expect("an operation"),
            label: label.into(),
            case,
        }
    }
}

/// The figures of a built-in group's round, and what stands behind them.
fn over_round([number, n, t]: [u32; 3], behind: Vec<Figure>) -> Case {
    let words = [number, n, t, 0, 0].map(Word).to_vec();
    [vec![Bytes(Vec::new())], words, behind].concat()
}

pub fn all() -> Vec<Aimed> {
    let parts = [
        digests(),
        degree_checks(),
        openings(),
        powers(),
        plots(),
        chains(),
        tables::all(),
        dealings::all(),
        boards::all(),
    ];
    parts.into_iter().flatten().collect()
}

/// FIPS 180-4's examples, NIST's further ones, and every length about the end of a block and of the longest message.
fn digests() -> Vec<Aimed> {
    let digest = |label: String, message: Vec<u8>| {
        Aimed::new("digest", label, vec![Bytes(message), Bytes(filled(32))])
    };
    let mut cases = Vec::new();
    for (k, message) in EXAMPLES.iter().enumerate() {
        cases.push(digest(format!("example {}", k + 1), message.to_vec()));
    }
    for (byte, count) in [
        (0xbd, 1),
        (0, 55),
        (0, 56),
        (0, 57),
        (0, 64),
        (0, 1000),
        (0x41, 1000),
        (0x55, 1005),
    ] {
        cases.push(digest(
            format!("{count} times {byte:02x}"),
            vec![byte; count],
        ));
    }
    let mut numbers = Numbers::new(1);
    let ends = [
        183, 184, 32_768, 65_527, 65_528, 65_535, 65_536, 65_537, 65_568,
    ];
    for length in (0..=130).chain(ends) {
        cases.push(digest(format!("{length} bytes"), numbers.bytes(length)));
    }
    cases
}

/// The scope paper's round: group 1, n = 4, t = 2. Its polynomial is 3 + 5 times the member number.
const FOUR: [u32; 3] = [1, 4, 2];

/// The commitments to that polynomial.
const CARRIED: [u32; 4] = [9, 16, 8, 4];

/// The scope paper's degree checks.
fn degree_checks() -> Vec<Aimed> {
    let (changed, first_place) = ([9, 16, 9, 4], [1, 8, 4, 1]);
    let cases = [
        ("check polynomial 1", CARRIED, [1, 0]),
        ("the member number itself", CARRIED, [0, 1]),
        ("third v changed to 9, check polynomial 1", changed, [1, 0]),
        (
            "third v changed to 9, check polynomial 8 + member number",
            changed,
            [8, 1],
        ),
        ("exponents 0, 7, 1, 0, first place", first_place, [1, 0]),
        ("exponents 0, 7, 1, 0, last place", first_place, [0, 1]),
    ];
    let aimed = cases.map(|(label, v, d)| {
        let lists = vec![Words(v.to_vec()), Words(d.to_vec())];
        Aimed::new("degree_check", label, over_round(FOUR, lists))
    });
    aimed.to_vec()
}

/// The scope paper's openings and recoveries, and the most members of group 1.
fn openings() -> Vec<Aimed> {
    let mut cases = Vec::new();
    for s in [3, 4, 10, 11] {
        let figures = vec![Words(CARRIED.to_vec()), Word(s)];
        cases.push(Aimed::new(
            "opening",
            format!("s = {s}"),
            over_round(FOUR, figures),
        ));
    }
    for (label, members, shares) in [
        ("members 1, 2", [1, 2], [13, 12]),
        ("members 4, 2", [4, 2], [9, 12]),
        ("member 2 twice", [2, 2], [12, 12]),
    ] {
        let lists = vec![Words(members.to_vec()), Words(shares.to_vec())];
        cases.push(Aimed::new("recovery", label, over_round(FOUR, lists)));
    }
    for n in [10, 11] {
        let figures = vec![Words(vec![1; n]), Word(0)];
        let case = over_round([1, n as u32, 2], figures);
        cases.push(Aimed::new("opening", format!("n = {n}"), case));
    }
    cases
}

/// The scope paper's equality proof and powers.
fn powers() -> Vec<Aimed> {
    let mut cases = Vec::new();
    for r in [7, 8] {
        let words = [1, 4, 9, 12, 8, 18, 3, 5, r].map(Word).to_vec();
        let case = [vec![Bytes(Vec::new())], words].concat();
        cases.push(Aimed::new(
            "equality_check",
            format!("y = 12, r = {r}"),
            case,
        ));
    }
    for (base, exponent) in [(4, 10), (4, 11), (22, 2), (22, 11), (4, 0), (1, 10)] {
        let case = vec![Bytes(Vec::new()), Word(1), Word(base), Word(exponent)];
        cases.push(Aimed::new("power", format!("{base} to {exponent}"), case));
    }
    cases
}

/// Every tie with a list that ends before it, between the two and behind it, and one that is nearly a tie.
fn plots() -> Vec<Aimed> {
    let mut cases = Vec::new();
    let ties = OF_GROUP_2.iter().map(|tie| (2, tie));
    for (group, &(value, radius, [lower, higher])) in
        ties.chain(OF_GROUP_3.iter().chain([&NEAR]).map(|tie| (3, tie)))
    {
        for total in BTreeSet::from([higher, 4096]) {
            let rank = plots::rank(value, radius, lower);
            let before = (1..=total)
                .filter(|&plot| plots::rank(value, radius, plot) < rank)
                .count() as u32;
            for count in [before, before + 1, before + 2]
                .into_iter()
                .filter(|k| (1..=total).contains(k))
            {
                let words = [group, value, radius.into(), total, count]
                    .map(Word)
                    .to_vec();
                let out = Words((0..count).map(|k| 7 * k).collect());
                let label = format!("plots {lower} and {higher}, {count} of {total}");
                cases.push(Aimed::new(
                    "pick_plots",
                    label,
                    [vec![Bytes(Vec::new())], words, vec![out]].concat(),
                ));
            }
        }
    }
    cases
}

/// Chains of as many links as there may be, one fewer and one more; and one with a fault in its last link.
fn chains() -> Vec<Aimed> {
    let mut cases = Vec::new();
    let mut add = |label: String, bytes: Vec<u8>| {
        let judged = vec![Bytes(Vec::new()), Bytes(bytes)];
        cases.push(Aimed::new("judge_chain", label.clone(), judged.clone()));
        let link = vec![Word(3), Word(9), Bytes(filled(64))];
        cases.push(Aimed::new("extend_chain", label, [judged, link].concat()));
    };
    let squares = |count: usize| linked((1..=count as u32).map(|root| [3, root * root]));
    for count in [0, 1, 2, MOST - 2, MOST - 1, MOST, MOST + 1] {
        add(format!("{count} links"), squares(count));
    }
    for (byte, what) in [
        (0, "round"),
        (7, "value"),
        (11, "group"),
        (12, "spare"),
        (31, "spare"),
        (32, "digest"),
        (63, "digest"),
    ] {
        for count in [3, MOST - 1, MOST] {
            let mut bytes = squares(count);
            let start = bytes.len() - 64;
            bytes[start + byte] ^= 0x80;
            add(
                format!("{what} of the last of {count} links changed, byte {byte}"),
                bytes,
            );
        }
    }
    cases
}

#[cfg(test)]
mod tests {
    use super::*;

    #[test]
    fn a_name_for_each() {
        let mut names = BTreeSet::new();
        for Aimed {
            operation, label, ..
        } in all()
        {
            assert!(
                names.insert((operation.name, label.clone())),
                "{} {label}",
                operation.name
            );
        }
    }

    /// What the scope paper says of its figures.
    #[test]
    fn the_papers_answers() {
        let expected = [
            0, 0, 9, 0, 9, 0, 0, 11, 11, 7, 0, 0, 8, 0, 2, 0, 10, 0, 7, 6, 6, 0, 0,
        ];
        let cases = [degree_checks(), openings(), powers()].concat();
        let answers = cases
            .iter()
            .map(|aimed| (aimed.operation.model)(&aimed.case).refusal);
        assert_eq!(answers.collect::<Vec<u32>>(), expected);
    }
}
