//! The example rounds, the forged boards, and the largest boards.

use super::dealings::{lines, members, polynomial};
use super::{over_round, Aimed};
use crate::boards::MOST;
use crate::case::Figure::{Bytes, Word};
use crate::example;
use crate::forge;
use crate::model::draw::set_record;
use crate::model::record::{self, Record, ADDED, KEY, LINE, OPENING, SHARE, SIZE};
use crate::model::round::Lent;
use crate::source::filled;

/// What is asked of one board: its verdicts, its text, and the lines of its first dealer, its last and none.
fn asked(label: &str, round: [u32; 3], board: &[u8]) -> Vec<Aimed> {
    let [number, n, t] = round;
    let set = record::bytes([set_record(Lent::of(number, n, t))]);
    let board = Bytes(board.to_vec());
    let text = vec![
        Bytes(Vec::new()),
        Bytes(set),
        board.clone(),
        Bytes(filled(1024)),
    ];
    let mut cases = vec![
        Aimed::new("judge_board", label, over_round(round, vec![board.clone()])),
        Aimed::new("draw_text", label, text),
    ];
    for dealer in [1, n, n + 1] {
        for name in ["lines_check", "dealer_lines"] {
            let figures = vec![Word(dealer), board.clone()];
            cases.push(Aimed::new(
                name,
                format!("{label}, dealer {dealer}"),
                over_round(round, figures),
            ));
        }
    }
    cases
}

/// Everything that can be posted, by the most members.
fn everything(t: u32) -> Vec<Record> {
    let members = members(3, t);
    let mut records = members.key_records();
    let mut all = Vec::new();
    for dealer in 1..=31 {
        let lines = lines(&members, dealer);
        records.extend(lines.iter().map(|line| members.share(line, dealer)));
        records.push(members.opening(dealer, polynomial(&members, dealer)[0]));
        all.extend(lines);
    }
    let products = (1..).zip(members.products(&all));
    records.extend(products.map(|(i, product)| members.added(i, product, i)));
    records.extend(all);
    records.sort();
    records
}

/// What is asked of a board of the most members.
fn of_most(label: String, t: u32, records: &[Record]) -> Vec<Aimed> {
    let bytes = record::bytes(records.iter().copied());
    asked(&format!("{label}, t {t}"), [3, 31, t], &bytes)
}

/// Everything; without openings, without shares too; and with a fault in the last record of each kind.
fn largest(t: u32, all: &[Record]) -> Vec<Aimed> {
    let mut cases = Vec::new();
    for (label, kinds) in [
        ("everything", &[][..]),
        ("no openings", &[OPENING]),
        ("no openings and no opened shares", &[OPENING, SHARE]),
        ("dealings alone", &[OPENING, SHARE, ADDED]),
    ] {
        let left = all.iter().filter(|r| !kinds.contains(&r[0])).copied();
        cases.extend(of_most(label.to_string(), t, &left.collect::<Vec<_>>()));
    }
    for (what, kind) in [
        ("key", KEY),
        ("line", LINE),
        ("opening", OPENING),
        ("share", SHARE),
        ("added share", ADDED),
    ] {
        let last = all.iter().rposition(|r| r[0] == kind).expect("some");
        for word in [3, 5, 7] {
            let mut records = all.to_vec();
            records[last][word] = records[last][word].wrapping_add(1);
            let label = format!("word {word} of the last {what} + 1");
            cases.extend(of_most(label, t, &records));
        }
    }
    cases
}

/// Everything with its last record again, up to as many as there may be and one more; and of other lengths.
fn longest(t: u32, all: &[Record]) -> Vec<Aimed> {
    let mut cases = Vec::new();
    for count in [MOST - 1, MOST, MOST + 1] {
        let mut records = all.to_vec();
        records.resize(count, all[all.len() - 1]);
        cases.extend(of_most(format!("{count} records"), t, &records));
    }
    let bytes = record::bytes(all.iter().copied());
    for (what, length) in [
        ("a byte less", bytes.len() - 1),
        ("a byte more", bytes.len() + 1),
        ("65,537 bytes", SIZE * MOST + 1),
    ] {
        let mut bytes = bytes.clone();
        bytes.resize(length, 0);
        cases.extend(asked(
            &format!("everything, {what}, t {t}"),
            [3, 31, t],
            &bytes,
        ));
    }
    cases
}

pub fn all() -> Vec<Aimed> {
    let four = [1, 4, 2];
    let mut cases = asked("the example round", four, &example::round().board);
    cases.extend(asked(
        "the scope paper's round",
        [1, 2, 1],
        &example::of_keys_alone().board,
    ));
    for (file, board) in forge::files() {
        if file.ends_with(".bin") {
            cases.extend(asked(&format!("forged/{file}"), four, &board));
        }
    }
    for t in [16, 31] {
        let all = everything(t);
        cases.extend(largest(t, &all));
        cases.extend(longest(t, &all));
    }
    cases
}
