//! Boards of group 1 that show what a dealer or a member with a computer can do in a group so small: he searches for
//! figures that pass a check by luck, which takes about q tries.

use crate::model::dealing::judge_dealing;
use crate::model::draw::{set_record, SET_FILE};
use crate::model::modular::value_at;
use crate::model::record::{self, Record};
use crate::model::round::FOUR;
use crate::model::share::added::judge_added;
use crate::model::share::judge_share;
use crate::posting::Members;

/// The secret keys, the polynomials of the first two dealers and the nonces of the first, for both pairs of boards.
const SECRET_KEYS: [u32; 4] = [5, 2, 7, 3];
const FIRST: [u32; 2] = [3, 5];
const SECOND: [u32; 2] = [6, 4];
const NONCES: [u32; 4] = [8, 1, 10, 6];

fn members() -> Members {
    Members::new(FOUR.round().expect("a proper round"), &SECRET_KEYS)
}

/// The values of a polynomial at the members.
fn values(polynomial: &[u32]) -> [u32; 4] {
    [1, 2, 3, 4].map(|i| value_at(polynomial, i, 11))
}

/// What the boards are made of: the keys, two dealings of dealer 1, and one of dealer 2.
pub struct Parts {
    pub keys: Vec<Record>,
    pub first: Vec<Record>,
    pub uncarried: Vec<Record>,
    pub second: Vec<Record>,
}

/// A board: its name among the files and among the definitions, whether a polynomial carries dealer 1's dealing on it,
/// and what stands behind the lines of both dealers.
pub struct Board {
    pub file: &'static str,
    pub definition: &'static str,
    pub is_carried: bool,
    pub behind: Vec<Record>,
}

impl Parts {
    fn new(members: &Members) -> Parts {
        Parts {
            keys: members.key_records(),
            first: members.lines(1, &values(&FIRST), &NONCES),
            uncarried: uncarried_lines(members),
            second: members.lines(2, &values(&SECOND), &[9, 10, 1, 2]),
        }
    }

    fn bytes(&self, board: &Board) -> Vec<u8> {
        let first = if board.is_carried {
            &self.first
        } else {
            &self.uncarried
        };
        let records = [&self.keys, first, &self.second, &board.behind];
        record::bytes(records.into_iter().flatten().copied())
    }
}

/// Lines of dealer 1 that are accepted though no polynomial carries them. He deals his polynomial's values to members
/// 1 and 2 and tries others for 3 and 4, until the check polynomial that they give passes.
fn uncarried_lines(members: &Members) -> Vec<Record> {
    let [first, second, carried, _] = values(&FIRST);
    for third in (1..11).filter(|&third| third != carried) {
        for fourth in 1..11 {
            let lines = members.lines(1, &[first, second, third, fourth], &NONCES);
            let bytes = record::bytes(lines.clone());
            if judge_dealing(FOUR, 1, &members.keys, &bytes).is_ok() {
                return lines;
            }
        }
    }
    unreachable!("about one in 11 passes")
}

/// A share of a member who claims 4 times his S: he tries challenges and responses until one pair is accepted.
fn forged(members: &Members, honest: &Record, is_accepted: impl Fn(&[u8]) -> bool) -> Record {
    let [kind, dealer, member, opened, ..] = *honest;
    let claimed = members.round.group.product(opened, members.round.group.g);
    for c in 0..11 {
        for r in 0..11 {
            let share = [kind, dealer, member, claimed, c, r, 0, FOUR.round];
            if is_accepted(&record::bytes([share])) {
                return share;
            }
        }
    }
    unreachable!("about one in 11 is accepted")
}

fn forged_share(members: &Members, line: &Record) -> Record {
    let [_, dealer, member, _, encrypted, ..] = *line;
    let key = members.keys[member as usize - 1];
    forged(members, &members.share(line, 5), |bytes| {
        judge_share(FOUR, dealer, member, key, encrypted, bytes).is_ok()
    })
}

/// The added shares of members 1 and 2, and one that member 1 has forged.
fn added_shares(members: &Members, parts: &Parts) -> [Record; 3] {
    let lines = [&parts.first[..], &parts.second].concat();
    let products = members.products(&lines);
    let [one, two] = [1, 2].map(|i| members.added(i, products[i as usize - 1], 5));
    let forged = forged(members, &one, |bytes| {
        judge_added(FOUR, 1, members.keys[0], products[0], bytes).is_ok()
    });
    [one, two, forged]
}

/// The names of the boards' files and of their definitions.
const NAMES: [(&str, &str); 7] = [
    ("opened.bin", "opened_board"),
    ("silent.bin", "silent_board"),
    ("forged.bin", "forged_board"),
    ("uncarried-low.bin", "uncarried_low"),
    ("uncarried-high.bin", "uncarried_high"),
    ("added.bin", "added_board"),
    ("forged-added.bin", "forged_added"),
];

/// Three boards with dealer 1's polynomial: he has opened; he is silent, and members 1 and 2 open their shares of his
/// dealing; the same with member 1's share forged. Two with his dealing that no polynomial carries: members 1 and 2
/// open their shares of it, or 1 and 3, all of them honestly. Two with his polynomial again, on which he is silent and no
/// member opens a share of it: members 1 and 2 post added shares, both honest ones, or member 1 a forged one. Dealer 2 has
/// opened on each.
fn boards(members: &Members, parts: &Parts) -> [Board; 7] {
    let openings = [(1, FIRST), (2, SECOND)].map(|(dealer, f)| members.opening(dealer, f[0]));
    let shared = |one, other| vec![openings[1], one, other];
    let [one, two] = [0, 1].map(|k| members.share(&parts.first[k], 5));
    let forged = forged_share(members, &parts.first[0]);
    let [low, middle, high] = [0, 1, 2].map(|k| members.share(&parts.uncarried[k], 5));
    let [added, other, forged_added] = added_shares(members, parts);
    let board = |k: usize, is_carried, behind| Board {
        file: NAMES[k].0,
        definition: NAMES[k].1,
        is_carried,
        behind,
    };
    [
        board(0, true, openings.to_vec()),
        board(1, true, shared(one, two)),
        board(2, true, shared(forged, two)),
        board(3, false, shared(low, middle)),
        board(4, false, shared(low, high)),
        board(5, true, shared(added, other)),
        board(6, true, shared(forged_added, other)),
    ]
}

/// The boards, and what they are made of.
pub fn made() -> (Parts, [Board; 7]) {
    let members = members();
    let parts = Parts::new(&members);
    let boards = boards(&members, &parts);
    (parts, boards)
}

/// The names and bytes of the files: the set, and the boards. Those with added shares come last.
pub fn files() -> [(&'static str, Vec<u8>); 8] {
    let (parts, boards) = made();
    let [opened, silent, forged, low, high, added, forged_added] =
        boards.map(|b| (b.file, parts.bytes(&b)));
    let set = (SET_FILE, record::bytes([set_record(FOUR)]));
    [set, opened, silent, forged, low, high, added, forged_added]
}
