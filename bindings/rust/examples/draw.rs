//! Prints the text of `draw` for a folder, and five plots of radius 15 out of 40 where the round has a draw value.

use std::fs::File;
use std::io::Read;
use std::path::Path;
use tadlovimpe::{draw_text, judge_board, pick_plots, Round, MAX_BOARD_BYTES, RECORD_BYTES};

/// The bytes of a file, none where there is none. No file that is longer than a board is accepted, so one byte more is read at most.
fn bytes_of(path: &Path) -> Vec<u8> {
    let mut bytes = Vec::new();
    if let Ok(file) = File::open(path) {
        let _ = file
            .take(MAX_BOARD_BYTES as u64 + 1)
            .read_to_end(&mut bytes);
    }
    bytes
}

/// The round of a set, which is one record of kind 9.
fn round_of(set: &[u8]) -> Option<Round> {
    let set: &[u8; RECORD_BYTES] = set.try_into().ok()?;
    let word =
        |k: usize| u32::from_be_bytes([set[4 * k], set[4 * k + 1], set[4 * k + 2], set[4 * k + 3]]);
    match [0, 1, 2, 3, 4, 5, 6, 7].map(word) {
        [9, group, n, t, round, first_new_round, 0, 0] => Some(Round {
            group,
            n,
            t,
            round,
            first_new_round,
        }),
        _ => None,
    }
}

fn main() {
    let folder = std::env::args_os().nth(1).expect("usage: draw FOLDER");
    let [table, set, board] = ["groups.tab", "round.set", "board.bin"]
        .map(|name| bytes_of(&Path::new(&folder).join(name)));
    print!("{}", draw_text(&table, &set, &board));
    if let Some(round) = round_of(&set) {
        if let Ok(value) = judge_board(&table, round, &board).draw {
            let mut plots = [0; 5];
            pick_plots(&table, round.group, value, 15, 40, 5, &mut plots)
                .expect("a draw value picks plots");
            println!("plots {}", plots.map(|plot| plot.to_string()).join(" "));
        }
    }
}
