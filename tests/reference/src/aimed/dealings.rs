//! Dealings and shares of the most members, with a fault in the last line alone.

use super::{over_round, Aimed};
use crate::case::Figure::{self, Bytes, Word, Words};
use crate::model::modular::value_at;
use crate::model::record::{self, Record, SIZE};
use crate::model::round::Lent;
use crate::posting::Members;
use crate::source::filled;

const N: u32 = 31;

/// The most members of a built-in group.
pub fn members(number: u32, t: u32) -> Members {
    let round = Lent::of(number, N, t).round().expect("a proper round");
    let keys: Vec<u32> = (1..=N)
        .map(|i| (i * 1_000_003) % (round.group.q - 1) + 1)
        .collect();
    Members::new(round, &keys)
}

/// The coefficients of a dealer's polynomial.
pub fn polynomial(members: &Members, dealer: u32) -> Vec<u32> {
    let q = members.round.group.q;
    (0..members.round.t)
        .map(|k| (k * 70_001 + dealer * 12_347) % q)
        .collect()
}

pub fn nonces(members: &Members) -> Vec<u32> {
    (1..=N)
        .map(|i| (i * 99_991) % members.round.group.q)
        .collect()
}

pub fn lines(members: &Members, dealer: u32) -> Vec<Record> {
    let f = polynomial(members, dealer);
    let values: Vec<u32> = (1..=N)
        .map(|i| value_at(&f, i, members.round.group.q))
        .collect();
    members.lines(dealer, &values, &nonces(members))
}

fn judged(members: &Members, label: String, keys: &[u32], lines: &[Record]) -> Aimed {
    let round = &members.round;
    let figures = vec![
        Word(N),
        Words(keys.to_vec()),
        Bytes(record::bytes(lines.iter().copied())),
    ];
    Aimed::new(
        "judge_dealing",
        label,
        over_round([round.number, N, round.t], figures),
    )
}

fn written(members: &Members, label: String, keys: &[u32], f: &[u32], nonces: &[u32]) -> Aimed {
    let round = &members.round;
    let lists = [keys, f, nonces].map(|list| Words(list.to_vec())).to_vec();
    let out = Bytes(filled(SIZE * N as usize));
    let figures = [vec![Word(N)], lists, vec![out]].concat();
    Aimed::new(
        "write_dealing",
        label,
        over_round([round.number, N, round.t], figures),
    )
}

/// A dealing as it should be; and with each word of its last line changed, or its last key.
fn judgings(members: &Members, lines: &[Record], at: &str) -> Vec<Aimed> {
    let (keys, group) = (&members.keys, &members.round.group);
    let mut cases = vec![judged(members, at.to_string(), keys, lines)];
    for word in 0..8 {
        let next = lines[30][word].wrapping_add(1);
        for (what, to) in [("+ 1", next), ("p - 1", group.p - 1), ("q", group.q)] {
            let mut changed = lines.to_vec();
            changed[30][word] = to;
            let label = format!("{at}, word {word} of line 31: {what}");
            cases.push(judged(members, label, keys, &changed));
        }
    }
    for (what, keys) in last_keys(members) {
        cases.push(judged(
            members,
            format!("{at}, key 31: {what}"),
            &keys,
            lines,
        ));
    }
    cases
}

/// Lists of keys of which the last is none, or another member's.
fn last_keys(members: &Members) -> [(&'static str, Vec<u32>); 4] {
    let (keys, p) = (&members.keys, members.round.group.p);
    let last = [
        ("1", 1),
        ("p - 1", p - 1),
        ("as key 1", keys[0]),
        ("as key 30", keys[29]),
    ];
    last.map(|(what, key)| (what, [&keys[..30], &[key]].concat()))
}

/// The same dealing written, and with the last figure of each list wrong.
fn writings(members: &Members, at: &str) -> Vec<Aimed> {
    let (f, ws) = (polynomial(members, N), nonces(members));
    let mut cases = vec![written(members, at.to_string(), &members.keys, &f, &ws)];
    for (what, keys) in last_keys(members) {
        cases.push(written(
            members,
            format!("{at}, key 31: {what}"),
            &keys,
            &f,
            &ws,
        ));
    }
    for list in 0..2 {
        let mut lists = [f.clone(), ws.clone()];
        *lists[list].last_mut().expect("some") = members.round.group.q;
        let label = format!("{at}, last of list {}: q", list + 1);
        cases.push(written(members, label, &members.keys, &lists[0], &lists[1]));
    }
    cases
}

/// The share of the last member, written and judged, opened or added: a dealer stands before the figures of an opened one.
fn shares(members: &Members, line: &Record, at: &str, is_opened: bool) -> Vec<Aimed> {
    let round = [members.round.number, N, members.round.t];
    let (key, encrypted) = (members.keys[30], line[4]);
    let (x, nonce) = (members.secret_keys[30], 12_345 % members.round.group.q);
    let (names, posted) = if is_opened {
        (["write_share", "judge_share"], members.share(line, nonce))
    } else {
        (
            ["write_added", "judge_added"],
            members.added(N, encrypted, nonce),
        )
    };
    let figures = |behind: Vec<Figure>| {
        let numbers = vec![Word(N); 1 + usize::from(is_opened)];
        over_round(round, [numbers, behind].concat())
    };
    let writing = vec![Word(encrypted), Word(x), Word(nonce), Bytes(filled(SIZE))];
    let judging = |record| {
        figures(vec![
            Word(key),
            Word(encrypted),
            Bytes(record::bytes([record])),
        ])
    };
    let mut cases = vec![
        Aimed::new(names[0], at, figures(writing)),
        Aimed::new(names[1], at, judging(posted)),
    ];
    for word in 0..8 {
        let mut changed = posted;
        changed[word] = changed[word].wrapping_add(1);
        cases.push(Aimed::new(
            names[1],
            format!("{at}, word {word} + 1"),
            judging(changed),
        ));
    }
    cases
}

pub fn all() -> Vec<Aimed> {
    let mut cases = Vec::new();
    for (number, t) in [(2, 16), (3, 1), (3, 16), (3, 30), (3, 31)] {
        let members = members(number, t);
        let lines = lines(&members, N);
        let at = format!("group {number}, n 31, t {t}");
        cases.extend(judgings(&members, &lines, &at));
        cases.extend(writings(&members, &at));
        cases.extend(shares(&members, &lines[30], &at, true));
        cases.extend(shares(&members, &lines[30], &at, false));
    }
    cases
}
