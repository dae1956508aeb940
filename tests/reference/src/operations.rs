//! The operations: their parameters, the fields of their answers, the numbers that they refuse by, how a case is drawn, and what product
//! and model answer to it.

use crate::case::{Answer, Case};
use crate::guarded::Memory;
use crate::source::Source;
use crate::{expected, generate, product};

pub struct Operation {
    pub name: &'static str,
    /// The names of a case's figures, as the header has them; a round's five stand for the struct.
    pub parameters: &'static [&'static str],
    /// The names of an answer's fields behind the refusal. A board's verdicts have none.
    pub fields: &'static [&'static str],
    /// Every number that it refuses by, and 0.
    pub numbers: &'static [u32],
    pub draw: fn(&mut Source) -> Case,
    pub product: fn(&Case, &mut Memory) -> Answer,
    pub model: fn(&Case) -> Answer,
}

impl Operation {
    pub fn named(name: &str) -> Option<&'static Operation> {
        ALL.iter().find(|operation| operation.name == name)
    }

    /// The number that an answer shows to be reached. A text has it in its last line.
    pub fn reached(&self, answer: &Answer) -> u32 {
        if self.name != "draw_text" {
            return answer.refusal;
        }
        let out = answer.out.as_ref().expect("a text").bytes();
        let text = String::from_utf8_lossy(&out[..answer.fields[0] as usize]);
        let last = text.lines().last().expect("a text has lines");
        let number = last.strip_prefix("refused ");
        number.map_or(0, |number| number.parse().expect("a number"))
    }
}

/// An operation, whose functions in the three modules have its own name.
macro_rules! operation {
    ($name:ident, $parameters:expr, $fields:expr, $numbers:expr) => {
        operation!($name, $name, $parameters, $fields, $numbers)
    };
    ($name:ident, $drawn:ident, $parameters:expr, $fields:expr, $numbers:expr) => {
        Operation {
            name: stringify!($name),
            parameters: &$parameters,
            fields: &$fields,
            numbers: &$numbers,
            draw: generate::$drawn,
            product: product::$name,
            model: expected::$name,
        }
    };
}

/// The parameters of an operation over a round.
macro_rules! over_round {
    ($($name:literal),*) => {
        ["table", "group", "n", "t", "round", "first_new_round", $($name),*]
    };
}

#[rustfmt::skip]
pub const ALL: [Operation; 19] = [
    operation!(digest, ["message", "out"], [], [0, 3]),
    operation!(power, ["table", "group", "base", "exponent"], ["value"], [0, 3, 4, 20, 21, 1, 6, 7]),
    operation!(equality_check, ["table", "group", "b1", "x1", "b2", "x2", "a1", "a2", "c", "r"], [],
        [0, 3, 4, 20, 21, 1, 6, 7, 10]),
    operation!(degree_check, over_round!("commitments", "coefficients"), [], [0, 3, 4, 20, 21, 1, 2, 6, 7, 9]),
    operation!(opening, over_round!("commitments", "s"), [], [0, 3, 4, 20, 21, 1, 2, 6, 7, 11]),
    operation!(recovery, over_round!("members", "shares"), ["value"], [0, 3, 4, 20, 21, 1, 2, 8, 6]),
    operation!(write_dealing, over_round!("dealer", "keys", "coefficients", "nonces", "out"), [],
        [0, 3, 4, 20, 21, 1, 2, 8, 6, 22, 7]),
    operation!(judge_dealing, over_round!("dealer", "keys", "lines"), [], [0, 3, 4, 20, 21, 1, 2, 8, 6, 22, 17, 7, 9, 10]),
    operation!(write_share, over_round!("dealer", "member", "encrypted", "secret_key", "nonce", "out"), [],
        [0, 3, 4, 20, 21, 1, 2, 8, 6, 7]),
    operation!(judge_share, over_round!("dealer", "member", "key", "encrypted", "share"), ["value"],
        [0, 3, 4, 20, 21, 1, 2, 8, 6, 17, 7, 10]),
    operation!(write_added, over_round!("member", "encrypted", "secret_key", "nonce", "out"), [],
        [0, 3, 4, 20, 21, 1, 2, 8, 6, 7]),
    operation!(judge_added, over_round!("member", "key", "encrypted", "share"), ["value"],
        [0, 3, 4, 20, 21, 1, 2, 8, 6, 17, 7, 10]),
    operation!(lines_check, dealer_lines, over_round!("dealer", "board"), [], [0, 3, 4, 20, 21, 1, 2, 8, 17, 5]),
    operation!(dealer_lines, over_round!("dealer", "board"), ["start", "length"], [0, 3, 4, 20, 21, 1, 2, 8, 17, 5]),
    operation!(judge_board, over_round!("board"), ["value", "accepted"],
        [0, 3, 4, 20, 21, 1, 2, 17, 5, 12, 6, 22, 14, 13]),
    operation!(draw_text, ["table", "set", "board", "out"], ["length"],
        [0, 3, 4, 20, 21, 1, 2, 17, 5, 12, 6, 22, 14, 13]),
    operation!(pick_plots, ["table", "group", "value", "radius", "total", "count", "out"], [],
        [0, 3, 4, 20, 21, 1, 6, 15, 16]),
    operation!(judge_chain, ["table", "chain"], [], [0, 3, 4, 20, 21, 1, 6, 19, 18]),
    operation!(extend_chain, ["table", "chain", "group", "value", "out"], [], [0, 3, 4, 20, 21, 1, 6, 19, 18]),
];
