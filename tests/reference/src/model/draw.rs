//! What `draw` prints, from the bytes of `groups.tab`, `round.set` and `board.bin`.

use crate::model::answer::{require, Answer};
use crate::model::board::{self, Judged, Secret, Verdict};
use crate::model::record::{self, Record, SIZE};
use crate::model::round::{Figures, Lent};
use crate::model::table;
use std::fs::File;
use std::io::Read;
use std::path::Path;

pub const TABLE_FILE: &str = "groups.tab";
pub const SET_FILE: &str = "round.set";
pub const BOARD_FILE: &str = "board.bin";

/// The first word of a round's set.
pub const SET: u32 = 9;

/// The record that a round's set is.
pub fn set_record(figures: Lent) -> Record {
    let Lent {
        number,
        n,
        t,
        round,
        first,
        ..
    } = figures;
    [SET, number, n, t, round, first, 0, 0]
}

/// 3 not one record; 4 of another shape.
fn read_set(bytes: &[u8]) -> Answer<Figures> {
    require(bytes.len() == SIZE, 3)?;
    let [set, number, n, t, round, first, spare @ ..] = record::read(bytes);
    require(set == SET && spare == [0; 2], 4)?;
    let figures = Figures::of(number, n, t);
    Ok(figures.with_round(round).with_first(first))
}

/// The text: the table is judged first, then the set, then the board.
pub fn text(table: &[u8], set: &[u8], board: &[u8]) -> String {
    reported(table, set, board).unwrap_or_else(refused)
}

fn reported(table: &[u8], set: &[u8], board: &[u8]) -> Answer<String> {
    let table = table::judge(table)?;
    let figures = read_set(set)?;
    let judged = board::judge(figures.round_of(&table)?, board)?;
    Ok(report(figures, &judged))
}

fn refused(number: u32) -> String {
    format!("refused {number}\n")
}

/// The text of a board whose verdicts are reached.
fn report(figures: Figures, judged: &Judged) -> String {
    let Figures { number, n, t, .. } = figures;
    let mut text = format!("round {number} {n} {t}\n");
    for (dealer, verdict) in (1..).zip(&judged.verdicts) {
        text += &format!("dealer {dealer} {}\n", verdict_text(verdict));
    }
    text += &format!("accepted {}\n", judged.accepted);
    text += &match judged.draw {
        Ok(value) => format!("draw {value}\n"),
        Err(number) => refused(number),
    };
    text
}

fn verdict_text(verdict: &Verdict) -> String {
    match verdict {
        Verdict::None => "none".to_string(),
        Verdict::Refused(number) => format!("refused {number}"),
        Verdict::Accepted(Secret::Opened(secret)) => format!("opened {secret}"),
        Verdict::Accepted(Secret::Recovered(secret)) => format!("recovered {secret}"),
        Verdict::Accepted(Secret::Stuck) => "stuck".to_string(),
    }
}

/// A file's bytes: none where it cannot be opened, and a read that fails counts as the end of the file.
fn read_file(path: &Path) -> Vec<u8> {
    let mut bytes = Vec::new();
    if let Ok(mut file) = File::open(path) {
        // What was read before a failure stays among the bytes.
        let _ = file.read_to_end(&mut bytes);
    }
    bytes
}

/// The text of the three files in a folder.
pub fn text_of(folder: &Path) -> String {
    let names = [TABLE_FILE, SET_FILE, BOARD_FILE];
    let [table, set, board] = names.map(|name| read_file(&folder.join(name)));
    text(&table, &set, &board)
}

#[cfg(test)]
mod tests {
    use super::*;
    use crate::model::round::FOUR;

    #[test]
    fn a_set_is_read_as_it_was_written() {
        for (round, first) in [
            (0, 0),
            (0, u32::MAX),
            (1, 0),
            (0x0102_0304, 1),
            (u32::MAX, 0x0102_0304),
        ] {
            let figures = FOUR.with_round(round).with_first(first);
            let record = set_record(figures);
            assert_eq!(record, [9, 1, 4, 2, round, first, 0, 0]);
            let read = read_set(&record::bytes([record])).unwrap();
            assert_eq!(set_record(read), record);
            for word in [0, 6, 7] {
                let mut other = record;
                other[word] += 1;
                assert_eq!(read_set(&record::bytes([other])).err(), Some(4));
            }
        }
    }
}
