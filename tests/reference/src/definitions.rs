//! The boards of tests/forged as the product's definitions write them, from what a record of each kind is up to the boards.
//! They are of round 0.

use crate::forge::{made, Board, Parts};
use crate::model::draw::SET;
use crate::model::record::{Record, ADDED, KEY, LINE, OPENING, SHARE};

/// The name of the round's number, which every kind has.
const ROUND: &str = "round";

/// A kind of record: its name, its number, the name of its layout, and what its words behind the first are: figures that are
/// the same in all of them, and names of the others.
struct Kind {
    name: &'static str,
    number: u32,
    layout: &'static str,
    words: [&'static str; 7],
}

const fn kind(
    name: &'static str,
    number: u32,
    layout: &'static str,
    words: [&'static str; 7],
) -> Kind {
    Kind {
        name,
        number,
        layout,
        words,
    }
}

/// Those of a board come first. The two kinds of shares have one layout, that of the first.
const KINDS: [Kind; 6] = [
    kind("key", KEY, "key", ["0", "i", "y", "0", "0", "0", ROUND]),
    kind("line", LINE, "line", ["d", "i", "v", "Y", "r", "c", ROUND]),
    kind(
        "opening",
        OPENING,
        "opening",
        ["d", "0", "u", "0", "0", "0", ROUND],
    ),
    kind(
        "share",
        SHARE,
        "share",
        ["d", "i", "Z", "c", "r", "0", ROUND],
    ),
    kind(
        "added",
        ADDED,
        "share",
        ["0", "i", "Z", "c", "r", "0", ROUND],
    ),
    kind("set", SET, "set", ["g", "n", "t", ROUND, "first", "0", "0"]),
];

/// Whether a word of a kind is a name other than the round's.
fn is_name(word: &str) -> bool {
    word != ROUND && word.parse::<u32>().is_err()
}

impl Kind {
    /// The names among the words, without the round's.
    fn names(&self) -> String {
        let names = self.words.into_iter().filter(|word| is_name(word));
        names.collect::<Vec<&str>>().join(" ")
    }

    /// Whether the layout is one of several kinds, so that the kind is a figure of it.
    fn is_shared(&self) -> bool {
        let of_layout = KINDS.iter().filter(|kind| kind.layout == self.layout);
        of_layout.count() > 1
    }

    /// The layout, from its names and the round's in the order of the words. A kind with another's layout has none.
    fn layout(&self) -> Option<String> {
        let is_figure = |word: &&str| is_name(word) || *word == ROUND;
        let mut figures: Vec<&str> = self.words.into_iter().filter(is_figure).collect();
        let mut first = format!("{}_kind", self.name);
        if self.is_shared() {
            first = "kind".to_string();
            figures.insert(0, "kind");
        }
        let words = (1..).zip(self.words);
        let fields: String = words.map(|(k, word)| format!("; w{k} = {word}")).collect();
        let (name, figures) = (self.layout, figures.join(" "));
        let layout = format!("{name}_layout {figures} = record {{ w0 = {first}{fields} }}\n");
        (self.name == self.layout).then_some(layout)
    }

    /// The bytes of a record in round 0. The figures of a shared layout are the kind and what the first kind of it names.
    fn bytes(&self) -> String {
        let (name, layout) = (self.name, self.layout);
        let mut figures = Vec::new();
        if self.is_shared() {
            figures.push(format!("{name}_kind"));
        }
        let of_layout = KINDS.iter().find(|kind| kind.name == layout);
        let named = of_layout.expect("a layout is of a kind").words;
        let own = named.iter().zip(self.words);
        let own = own.filter(|(named, _)| is_name(named)).map(|(_, own)| own);
        figures.extend(own.map(str::to_string));
        let (names, figures) = (self.names(), figures.join(" "));
        format!("{name} {names} = record_bytes ({layout}_layout {figures} 0)\n")
    }
}

/// A record: its kind, and the figures that the kind names.
fn term(record: &Record) -> String {
    let Kind { name, words, .. } = KINDS[record[0] as usize - 1];
    let mut term = name.to_string();
    for (word, figure) in words.iter().zip(&record[1..]) {
        if is_name(word) {
            term += &format!(" {figure}");
        } else {
            let same = if *word == ROUND { "0" } else { word };
            assert_eq!(
                same,
                figure.to_string(),
                "a word that the kind does not name"
            );
        }
    }
    term
}

/// Records one after the other.
fn terms(records: &[Record]) -> String {
    match records {
        [one] => term(one),
        [one, last] => format!("{} ++ {}", term(one), term(last)),
        [one, rest @ ..] => format!("{} ++ ({})", term(one), terms(rest)),
        [] => unreachable!("there are records"),
    }
}

/// The definitions, each on a line, in their order.
pub fn text() -> String {
    let (parts, boards) = made();
    let Parts {
        keys,
        first,
        uncarried,
        second,
    } = &parts;
    let kinds = KINDS.iter();
    let mut text: String = kinds
        .map(|kind| format!("{}_kind = {}\n", kind.name, kind.number))
        .collect();
    text.extend(KINDS.iter().filter_map(Kind::layout));
    text.extend(KINDS[..5].iter().map(Kind::bytes));
    for (name, records) in [
        ("keys", keys),
        ("first_lines", first),
        ("uncarried_lines", uncarried),
        ("second_lines", second),
    ] {
        text += &format!("{name} = {}\n", terms(records));
    }
    text += "board_of first behind = keys ++ (first ++ (second_lines ++ behind))\n";
    text.extend(boards.iter().map(board));
    text
}

fn board(board: &Board) -> String {
    let first = if board.is_carried {
        "first_lines"
    } else {
        "uncarried_lines"
    };
    let (name, behind) = (board.definition, terms(&board.behind));
    format!("{name} = board_of {first} ({behind})\n")
}

#[cfg(test)]
mod tests {
    use super::*;

    #[test]
    fn records_one_after_the_other() {
        let key = |i| [1, 0, i, 5 + i, 0, 0, 0, 0];
        assert_eq!(terms(&[key(1)]), "key 1 6");
        let four = [key(1), key(2), key(3), [4, 1, 2, 3, 4, 5, 0, 0]];
        let expected = "key 1 6 ++ (key 2 7 ++ (key 3 8 ++ share 1 2 3 4 5))";
        assert_eq!(terms(&four), expected);
    }

    #[test]
    #[should_panic(expected = "a word that the kind does not name")]
    fn a_record_of_another_round() {
        term(&[1, 0, 1, 6, 0, 0, 0, 1]);
    }

    #[test]
    fn every_definition_on_a_line() {
        let text = text();
        assert_eq!(text.lines().count(), 6 + 5 + 5 + 4 + 1 + 7);
        let opened = "opened_board = board_of first_lines (opening 1 3 ++ opening 2 6)\n";
        assert!(text.contains(opened));
        assert!(text.contains("opening_layout d u round = record { w0 = opening_kind; w1 = d; w2 = 0; w3 = u; w4 = 0; w5 = 0; w6 = 0; w7 = round }\n"));
        assert!(text.contains("set_layout g n t round first = record { w0 = set_kind; w1 = g; w2 = n; w3 = t; w4 = round; w5 = first; w6 = 0; w7 = 0 }\n"));
        assert!(text.contains("opening d u = record_bytes (opening_layout d u 0)\n"));
    }

    #[test]
    fn one_layout_of_both_shares() {
        let text = text();
        assert!(text.contains("opening_kind = 3\nshare_kind = 4\nadded_kind = 5\nset_kind = 9\n"));
        assert!(text.contains("\nshare_layout kind d i Z c r round = record { w0 = kind; w1 = d; w2 = i; w3 = Z; w4 = c; w5 = r; w6 = 0; w7 = round }\nset_layout "));
        let share = "share d i Z c r = record_bytes (share_layout share_kind d i Z c r 0)\n";
        let added = "added i Z c r = record_bytes (share_layout added_kind 0 i Z c r 0)\n";
        assert!(text.contains(&[share, added].concat()));
    }
}
