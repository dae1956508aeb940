//! The example rounds: the one beside `draw`, in which everything happens, and the scope paper's, in which nothing does.

use crate::model::draw::{set_record, text, BOARD_FILE, SET_FILE};
use crate::model::modular::value_at;
use crate::model::record::{self, Record, KEY, OPENING, SHARE};
use crate::model::round::{Figures, FOUR};
use crate::posting::Members;

/// The bytes of a round's two files.
#[derive(Clone)]
pub struct Round {
    pub set: Vec<u8>,
    pub board: Vec<u8>,
}

/// The secret keys of the four members: their keys are 12, 16, 8 and 4.
const SECRET_KEYS: [u32; 4] = [2, 3, 5, 7];

/// The polynomial of each dealer, the constant first, and his nonces. Dealer 2 has a coefficient more than t.
const DEALERS: [(&[u32], [u32; 4]); 4] = [
    (&[3, 5], [8, 1, 10, 6]),
    (&[7, 2, 3], [3, 10, 5, 1]),
    (&[4, 9], [6, 8, 2, 9]),
    (&[5, 4], [9, 2, 4, 7]),
];

/// Everyone has dealt and opened, and has opened his share of every dealing. But dealer 2's polynomial is too long,
/// dealer 3's lines are missing, dealer 4's opening is not right, and neither is member 1's share of his dealing.
fn records() -> Vec<Record> {
    let members = Members::new(FOUR.round().expect("a proper round"), &SECRET_KEYS);
    let q = members.round.group.q;
    let mut records = members.key_records();
    for (dealer, (polynomial, nonces)) in (1..).zip(DEALERS) {
        let values = [1, 2, 3, 4].map(|i| value_at(polynomial, i, q));
        let lines = members.lines(dealer, &values, &nonces);
        // A member takes another nonce for each dealing.
        records.extend(lines.iter().map(|line| members.share(line, dealer + 5)));
        records.push(members.opening(dealer, polynomial[0]));
        if dealer != 3 {
            records.extend(lines);
        }
    }
    records.sort();
    *figure(&mut records, [OPENING, 4, 0]) += 1;
    let share = figure(&mut records, [SHARE, 4, 1]);
    *share = members.round.group.product(*share, members.round.group.g);
    records
}

/// The first figure of the record of this kind, dealer and member.
fn figure(records: &mut [Record], place: [u32; 3]) -> &mut u32 {
    let mut found = records.iter_mut().filter(|record| record[..3] == place);
    &mut found.next().expect("it is posted")[3]
}

/// The example round: four members of group 1, threshold 2.
pub fn round() -> Round {
    Round {
        set: record::bytes([set_record(FOUR)]),
        board: record::bytes(records()),
    }
}

/// The files of the example round, and what `draw` prints of it.
pub fn files() -> [(&'static str, Vec<u8>); 3] {
    let Round { set, board } = round();
    let text = text(&[], &set, &board).into_bytes();
    [(SET_FILE, set), (BOARD_FILE, board), ("stdout", text)]
}

/// The scope paper's: two members of group 1, threshold 1, and their keys 12 and 9.
pub fn of_keys_alone() -> Round {
    let two = Figures::of(1, 2, 1);
    let keys = (1..).zip([12, 9]);
    Round {
        set: record::bytes([set_record(two)]),
        board: record::bytes(keys.map(|(member, y)| [KEY, 0, member, y, 0, 0, 0, 0])),
    }
}

#[cfg(test)]
mod tests {
    use super::*;

    fn text_of(round: &Round) -> String {
        text(&[], &round.set, &round.board)
    }

    #[test]
    fn the_example_round() {
        let lines = [
            "round 1 4 2",
            "dealer 1 opened 16",
            "dealer 2 refused 9",
            "dealer 3 none",
            "dealer 4 recovered 8",
            "accepted 2",
            "draw 13",
        ];
        assert_eq!(text_of(&round()), lines.join("\n") + "\n");
        let [.., (_, stdout)] = files();
        assert_eq!(stdout, text_of(&round()).into_bytes());
    }

    #[test]
    fn the_scope_papers_round() {
        let round = of_keys_alone();
        assert_eq!(round.set.len() + round.board.len(), 96);
        let expected = "round 1 2 1\ndealer 1 none\ndealer 2 none\naccepted 0\nrefused 14\n";
        assert_eq!(text_of(&round), expected);
    }
}
