//! A case of each operation, of which everything is drawn at once.

use crate::boards::board;
use crate::case::{Case, Figure};
use crate::model::chain;
use crate::model::draw::set_record;
use crate::model::equality::announced;
use crate::model::group::{self, Group};
use crate::model::modular::value_at;
use crate::model::record::{self, SIZE};
use crate::model::round::Round;
use crate::model::sharing::powers_at;
use crate::posting::Members;
use crate::source::{filled, Figures, Source};
use crate::ties::{OF_GROUP_2, OF_GROUP_3};
use Figure::{Bytes, Word, Words};

/// The first figures of an operation over a round.
fn round_figures(figures: &Figures) -> Case {
    let Figures {
        number,
        n,
        t,
        round,
        first,
        ..
    } = *figures;
    let words = [number, n, t, round, first].map(Word);
    [vec![Bytes(figures.table.clone())], words.to_vec()].concat()
}

fn over_round(figures: &Figures, behind: Vec<Figure>) -> Case {
    [round_figures(figures), behind].concat()
}

pub fn digest(source: &mut Source) -> Case {
    let ends = [0, 1, 54, 55, 56, 63, 64, 65, 119, 120, 128];
    let length = match source.below(128) {
        0 => 65_530 + source.index(10),
        1..=16 => *source.one_of(&ends),
        _ => source.index(300),
    };
    vec![Bytes(source.bytes(length)), Bytes(filled(32))]
}

pub fn power(source: &mut Source) -> Case {
    let (table, number, group) = source.group();
    let (mut base, mut exponent) = (source.element(&group), source.below(group.q));
    for _ in 0..source.changes() {
        match source.below(2) {
            0 => source.change_word(&group, "base", &mut base),
            _ => source.change_word(&group, "exponent", &mut exponent),
        }
    }
    vec![Bytes(table), Word(number), Word(base), Word(exponent)]
}

pub fn equality_check(source: &mut Source) -> Case {
    const NAMES: [&str; 8] = ["b1", "x1", "b2", "x2", "a1", "a2", "c", "r"];
    let (table, number, group) = source.group();
    let e = source.below(group.q);
    let [b1, b2] = [0; 2].map(|_| source.element(&group));
    let [x1, x2] = [b1, b2].map(|b| group.power(b, e));
    let (c, r) = (source.below(group.q), source.below(group.q));
    let [a1, a2] = [(b1, x1), (b2, x2)].map(|(b, x)| announced(&group, b, x, c, r));
    let mut words = [b1, x1, b2, x2, a1, a2, c, r];
    for _ in 0..source.changes() {
        let k = source.index(8);
        source.change_word(&group, NAMES[k], &mut words[k]);
    }
    let words = words.map(Word).to_vec();
    [vec![Bytes(table), Word(number)], words].concat()
}

/// A polynomial's coefficients.
fn polynomial(source: &mut Source, round: &Round) -> Vec<u32> {
    source.list(round.t as usize, round.group.q)
}

pub fn degree_check(source: &mut Source) -> Case {
    let (mut figures, round) = source.figures();
    let f = polynomial(source, &round);
    let mut commitments = powers_at(&round, round.group.g, &f);
    let mut coefficients = source.list((round.n - round.t) as usize, round.group.q);
    for _ in 0..source.changes() {
        match source.below(8) {
            0 => source.change_figures(&round.group, &mut figures),
            1..=3 => source.change_list(&round.group, "coefficients", &mut coefficients),
            _ => source.change_list(&round.group, "commitments", &mut commitments),
        }
    }
    over_round(&figures, vec![Words(commitments), Words(coefficients)])
}

pub fn opening(source: &mut Source) -> Case {
    let (mut figures, round) = source.figures();
    let f = polynomial(source, &round);
    let mut commitments = powers_at(&round, round.group.g, &f);
    let mut s = f[0];
    for _ in 0..source.changes() {
        match source.below(8) {
            0 => source.change_figures(&round.group, &mut figures),
            1..=3 => source.change_word(&round.group, "s", &mut s),
            _ => source.change_list(&round.group, "commitments", &mut commitments),
        }
    }
    over_round(&figures, vec![Words(commitments), Word(s)])
}

pub fn recovery(source: &mut Source) -> Case {
    let (mut figures, round) = source.figures();
    let f = polynomial(source, &round);
    let all = powers_at(&round, round.group.h, &f);
    let mut members: Vec<u32> = (1..=round.n).collect();
    while members.len() > round.t as usize && !source.once_in(3) {
        members.remove(source.index(members.len()));
    }
    for k in (1..members.len()).rev() {
        members.swap(k, source.index(k + 1));
    }
    let mut shares: Vec<u32> = members.iter().map(|&i| all[i as usize - 1]).collect();
    for _ in 0..source.changes() {
        match source.below(8) {
            0 => source.change_figures(&round.group, &mut figures),
            1 => {
                members.pop();
                shares.pop();
                source.note("one member fewer");
            }
            2..=4 => source.change_list(&round.group, "members", &mut members),
            _ => source.change_list(&round.group, "shares", &mut shares),
        }
    }
    over_round(&figures, vec![Words(members), Words(shares)])
}

pub fn write_dealing(source: &mut Source) -> Case {
    let (mut figures, round) = source.figures();
    let group = round.group;
    let mut keys = source.keys(&round);
    let mut coefficients = polynomial(source, &round);
    let mut nonces = source.list(round.n as usize, group.q);
    let dealer = source.member("dealer", round.n);
    for _ in 0..source.changes() {
        match source.below(8) {
            0 => source.change_figures(&group, &mut figures),
            1 | 2 => source.change_list(&group, "coefficients", &mut coefficients),
            3 | 4 => source.change_list(&group, "nonces", &mut nonces),
            _ => source.change_list(&group, "keys", &mut keys),
        }
    }
    let out = source.room(SIZE * round.n as usize);
    let lists = [keys, coefficients, nonces].map(Words).to_vec();
    over_round(
        &figures,
        [vec![Word(dealer)], lists, vec![Bytes(out)]].concat(),
    )
}

/// The exponents that a dealer deals: a polynomial's values, seldom others.
fn dealt(source: &mut Source, round: &Round) -> Vec<u32> {
    let q = round.group.q;
    if source.once_in(8) {
        source.note("exponents of no polynomial");
        return source.list(round.n as usize, q);
    }
    let f = polynomial(source, round);
    (1..=round.n).map(|i| value_at(&f, i, q)).collect()
}

pub fn judge_dealing(source: &mut Source) -> Case {
    let (mut figures, round) = source.figures();
    let group = round.group;
    let members = Members::new(round, &source.secret_keys(&round));
    let mut keys = members.keys.clone();
    let exponents = dealt(source, &round);
    let mut dealer = 1 + source.below(round.n);
    let nonces = source.list(round.n as usize, group.q);
    let mut lines = record::bytes(members.lines(dealer, &exponents, &nonces));
    for _ in 0..source.changes() {
        match source.below(16) {
            0 => source.change_figures(&group, &mut figures),
            1 => dealer = source.member("dealer", round.n),
            2..=5 => source.change_list(&group, "keys", &mut keys),
            _ => source.change_records(&group, "lines", &mut lines),
        }
    }
    over_round(&figures, vec![Word(dealer), Words(keys), Bytes(lines)])
}

/// The figures of a share that is written: its dealer where it is an opened one, the member, Y, x, the nonce and the buffer.
fn written_share(source: &mut Source, is_opened: bool) -> Case {
    let (mut figures, round) = source.figures();
    let group = round.group;
    let dealer = is_opened.then(|| source.member("dealer", round.n));
    let member = source.member("member", round.n);
    let mut words = [
        source.element(&group),
        1 + source.below(group.q - 1),
        source.below(group.q),
    ];
    for _ in 0..source.changes() {
        match source.index(4) {
            3 => source.change_figures(&group, &mut figures),
            k => source.change_word(
                &group,
                ["encrypted", "secret_key", "nonce"][k],
                &mut words[k],
            ),
        }
    }
    let out = Bytes(source.room(SIZE));
    let numbers = dealer.into_iter().chain([member]).chain(words).map(Word);
    over_round(&figures, numbers.chain([out]).collect())
}

pub fn write_share(source: &mut Source) -> Case {
    written_share(source, true)
}

pub fn write_added(source: &mut Source) -> Case {
    written_share(source, false)
}

/// The figures of a share that is judged: its dealer where it is an opened one, the member, y, Y and the record.
fn judged_share(source: &mut Source, is_opened: bool) -> Case {
    let (mut figures, round) = source.figures();
    let group = round.group;
    let members = Members::new(round, &source.secret_keys(&round));
    let [mut dealer, mut member] = [0; 2].map(|_| 1 + source.below(round.n));
    let mut encrypted = source.element(&group);
    let mut key = members.keys[member as usize - 1];
    let nonce = source.below(group.q);
    let posted = if is_opened {
        members.share(
            &[record::LINE, dealer, member, 0, encrypted, 0, 0, 0],
            nonce,
        )
    } else {
        members.added(member, encrypted, nonce)
    };
    let mut share = record::bytes([posted]);
    for _ in 0..source.changes() {
        match source.below(16) {
            0 => source.change_figures(&group, &mut figures),
            1 if is_opened => dealer = source.member("dealer", round.n),
            2 => member = source.member("member", round.n),
            3 | 4 => source.change_word(&group, "key", &mut key),
            5 | 6 => source.change_word(&group, "encrypted", &mut encrypted),
            _ => source.change_records(&group, "share", &mut share),
        }
    }
    let dealer = is_opened.then_some(dealer);
    let numbers = dealer.into_iter().chain([member, key, encrypted]).map(Word);
    over_round(&figures, numbers.chain([Bytes(share)]).collect())
}

pub fn judge_share(source: &mut Source) -> Case {
    judged_share(source, true)
}

pub fn judge_added(source: &mut Source) -> Case {
    judged_share(source, false)
}

/// A dealer and a board, for both operations on a dealer's lines.
pub fn dealer_lines(source: &mut Source) -> Case {
    let (mut figures, round) = source.figures();
    let bytes = board(source, &round);
    let dealer = source.member("dealer", round.n);
    if source.once_in(16) {
        source.change_figures(&round.group, &mut figures);
    }
    over_round(&figures, vec![Word(dealer), Bytes(bytes)])
}

pub fn judge_board(source: &mut Source) -> Case {
    let (mut figures, round) = source.figures();
    let bytes = board(source, &round);
    if source.once_in(16) {
        source.change_figures(&round.group, &mut figures);
    }
    over_round(&figures, vec![Bytes(bytes)])
}

pub fn draw_text(source: &mut Source) -> Case {
    let (figures, round) = source.figures();
    let board = board(source, &round);
    let mut set = record::bytes([set_record(figures.lent())]);
    if source.once_in(8) {
        source.change_records(&round.group, "set", &mut set);
    }
    vec![
        Bytes(figures.table),
        Bytes(set),
        Bytes(board),
        Bytes(filled(1024)),
    ]
}

pub fn pick_plots(source: &mut Source) -> Case {
    let (mut table, mut number, group) = source.group();
    let mut value = source.element(&group);
    let mut radius = *source.one_of(&[10, 15]);
    let mut total = match source.below(64) {
        0 => 4097 - source.below(3),
        _ => 1 + source.below(120),
    };
    let mut count = 1 + source.below(total);
    if source.once_in(16) {
        let k = source.index(OF_GROUP_2.len() + OF_GROUP_3.len());
        let tie = OF_GROUP_2.iter().chain(&OF_GROUP_3).nth(k).expect("a tie");
        (table, number) = (Vec::new(), if k < OF_GROUP_2.len() { 2 } else { 3 });
        (value, radius) = (tie.0, tie.1.into());
        total = (tie.2[1] + source.below(3)).min(4096);
        count = total - source.below(3).min(total - 1);
        source.note("two plots of one rank");
    }
    for _ in 0..source.changes() {
        match source.below(5) {
            0 => number = source.odd(&group, number),
            1 => value = source.other(&group, value),
            2 => radius = source.odd(&group, radius),
            3 => total = source.odd(&group, total),
            _ => count = source.odd(&group, count) % 5000,
        }
        source.note("a figure changed");
    }
    let out = source.room(4 * count as usize);
    let out = out
        .chunks_exact(4)
        .map(|b| u32::from_be_bytes([b[0], b[1], b[2], b[3]]));
    let words = [number, value, radius, total, count].map(Word).to_vec();
    [vec![Bytes(table)], words, vec![Words(out.collect())]].concat()
}

/// The bytes of a chain, from the group's number and the draw value of each link.
pub fn linked(links: impl IntoIterator<Item = [u32; 2]>) -> Vec<u8> {
    let (mut bytes, mut before) = (Vec::new(), chain::START);
    for (round, [number, value]) in (1..).zip(links) {
        before = chain::digest(&before, value, round);
        bytes.extend(record::bytes([[round, value, number, 0, 0, 0, 0, 0]]));
        bytes.extend(before);
    }
    bytes
}

/// A link in a group, or seldom in another of the table.
fn link(source: &mut Source, table: &[u8], number: u32, group: &Group) -> [u32; 2] {
    let other = 1 + source.below(8);
    match group::group(table, other) {
        Ok(group) if source.once_in(4) => [other, source.element(&group)],
        _ => [number, source.element(group)],
    }
}

/// A table, a group of it, and a chain that is mostly proper, with few links or about as many as there may be.
fn links(source: &mut Source) -> (Vec<u8>, u32, Group, Vec<u8>) {
    let (table, number, group) = source.group();
    let count = if source.once_in(256) {
        1022 + source.index(4)
    } else {
        source.index(7)
    };
    // Of a table with large groups the judging takes long.
    let links: Vec<[u32; 2]> = if count < 7 {
        (0..count)
            .map(|_| link(source, &table, number, &group))
            .collect()
    } else {
        (0..count)
            .map(|_| [number, source.element(&group)])
            .collect()
    };
    let mut bytes = linked(links);
    for _ in 0..source.changes() {
        source.change_records(&group, "chain", &mut bytes);
    }
    (table, number, group, bytes)
}

pub fn judge_chain(source: &mut Source) -> Case {
    let (table, _, _, bytes) = links(source);
    vec![Bytes(table), Bytes(bytes)]
}

pub fn extend_chain(source: &mut Source) -> Case {
    let (table, mut number, group, bytes) = links(source);
    let mut value = source.element(&group);
    if source.once_in(4) {
        match source.below(2) {
            0 => number = source.odd(&group, number),
            _ => value = source.other(&group, value),
        }
        source.note("the next link's figures changed");
    }
    let out = source.room(chain::LINK);
    vec![
        Bytes(table),
        Bytes(bytes),
        Word(number),
        Word(value),
        Bytes(out),
    ]
}
