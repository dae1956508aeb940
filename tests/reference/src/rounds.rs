//! Rounds that `draw` is run on, for what only files can show: the files of each in a folder of its own, and the text that `draw` has to
//! print. What a board says is compared through the library, and not here.

use crate::aimed;
use crate::example::{self, of_keys_alone, Round};
use crate::model::draw::{set_record, text, BOARD_FILE, SET_FILE, TABLE_FILE};
use crate::model::record::{self, KEY, SIZE};
use crate::model::round::Figures;
use crate::model::table::{self, BUILT_IN, H};
use std::os::unix::fs::symlink;
use std::path::Path;
use std::{fs, io};
use Place::{File, Folder, Loop, Nothing};

/// The bytes of the most records that a board may have.
const MOST: usize = 65_536;

/// The files in the order in which they are judged, and the place of each.
const NAMES: [&str; 3] = [TABLE_FILE, SET_FILE, BOARD_FILE];
const TABLE: usize = 0;
const SET: usize = 1;
const BOARD: usize = 2;

/// What stands where a file is due.
#[derive(Clone)]
enum Place {
    Nothing,
    Folder,
    /// A link to itself.
    Loop,
    File(Vec<u8>),
}

impl Place {
    /// What is read there. A file that is missing or cannot be opened counts as empty. A folder can be opened, but no read of it
    /// succeeds, and a read that fails counts as the end of the file.
    fn bytes(&self) -> &[u8] {
        match self {
            Nothing | Folder | Loop => &[],
            File(bytes) => bytes,
        }
    }

    fn write(&self, path: &Path) -> io::Result<()> {
        match self {
            Nothing => Ok(()),
            Folder => fs::create_dir(path),
            Loop => symlink(path.file_name().expect("a name"), path),
            File(bytes) => fs::write(path, bytes),
        }
    }
}

/// What stands in the places of the three files.
type Places = [Place; 3];

fn text_of([table, set, board]: &Places) -> String {
    text(table.bytes(), set.bytes(), board.bytes())
}

/// The same places with a file of these bytes for one of them.
fn with(places: &Places, which: usize, bytes: Vec<u8>) -> Places {
    let mut places = places.clone();
    places[which] = File(bytes);
    places
}

/// The places of each case under its name.
#[derive(Default)]
struct Cases(Vec<(String, Places)>);

impl Cases {
    /// Adds a case whose text ends in this refusal; 0 stands for a draw.
    fn add(&mut self, name: String, places: Places, number: u32) {
        let text = text_of(&places);
        let last = text.lines().last().expect("a text has lines");
        let is_due = match number {
            0 => last.starts_with("draw "),
            _ => last == format!("refused {number}"),
        };
        assert!(is_due, "{name} ends in {last} and not in {number}");
        self.0.push((name, places));
    }

    /// Adds cases of a file cut to these lengths, its last record again and again behind it.
    fn cut(&mut self, name: &str, of: (&Places, usize), lengths: &[usize], number: u32) {
        let (places, which) = of;
        let file = places[which].bytes();
        let behind = file[file.len() - SIZE..].iter().cycle();
        for &length in lengths {
            let bytes = file.iter().chain(behind.clone()).take(length);
            let places = with(places, which, bytes.copied().collect());
            self.add(format!("{name}-of-{length}"), places, number);
        }
    }
}

/// The places of a round without a table.
fn of_round(round: Round) -> Places {
    [Nothing, File(round.set), File(round.board)]
}

/// A round of one record in each file.
fn one_member() -> Places {
    let table = table::record_of(1, &BUILT_IN[0]);
    let set = set_record(Figures::of(1, 1, 1));
    [table, set, [KEY, 0, 1, H, 0, 0, 0, 0]].map(|record| File(record::bytes([record])))
}

/// The scope paper's round in the last group of the longest table.
fn eight_groups() -> Places {
    let table = table::bytes(&[BUILT_IN[0]; 8]);
    let set = record::bytes([set_record(Figures::of(8, 2, 1))]);
    [table, set, of_keys_alone().board].map(File)
}

/// Everything that can be posted by the most members. No longer board is proper.
fn everything() -> Places {
    let sought = ("draw_text", "everything, t 16");
    let mut aimed = aimed::all().into_iter();
    let found = aimed.find(|aimed| (aimed.operation.name, &aimed.label[..]) == sought);
    let case = found.expect("it is aimed at").case;
    let [set, board] = [1, 2].map(|k| case[k].bytes().to_vec());
    assert_eq!(board.len(), 64_480);
    of_round(Round { set, board })
}

/// What may stand in the place of a file of these bytes.
fn kinds(bytes: Vec<u8>) -> [(&'static str, Place); 4] {
    [
        ("file", File(bytes)),
        ("nothing", Nothing),
        ("folder", Folder),
        ("loop", Loop),
    ]
}

/// Each of these for each file. The table has another group than the example's under its number.
fn kinds_of_places(cases: &mut Cases) {
    let Round { set, board } = example::round();
    for (a, table) in kinds(table::bytes(&[BUILT_IN[1], BUILT_IN[0]])) {
        for (b, set) in kinds(set.clone()) {
            for (c, board) in kinds(board.clone()) {
                let number = match [a, b, c] {
                    ["file", "file", "file"] => 14,
                    [_, "file", "file"] => 0,
                    [_, "file", _] => 12,
                    _ => 3,
                };
                let places = [table.clone(), set.clone(), board];
                cases.add(format!("{a}-{b}-{c}"), places, number);
            }
        }
    }
}

/// Files of one record each, in each other's places.
fn exchanged(cases: &mut Cases) {
    let files = one_member();
    for order in [[0, 2, 1], [1, 0, 2], [1, 2, 0], [2, 0, 1], [2, 1, 0]] {
        let [a, b, c] = order.map(|k| NAMES[k]);
        let places = order.map(|k| files[k].clone());
        cases.add(format!("exchanged-{a}-{b}-{c}"), places, 4);
    }
}

/// Tables that are refused: alone, and beside the example's files.
fn refused_tables(cases: &mut Cases) {
    let table = table::bytes(&BUILT_IN);
    // The last byte of the third group's q, of its h and of the whole.
    for (byte, number) in [(79, 20), (87, 21), (95, 4)] {
        let mut table = table.clone();
        table[byte] ^= 4;
        let alone = [File(table.clone()), Nothing, Nothing];
        cases.add(format!("table-{number}-alone"), alone, number);
        let beside = with(&of_round(example::round()), TABLE, table);
        cases.add(format!("table-{number}"), beside, number);
    }
}

/// Lengths at which an answer changes, or would for a program that reads less, or has lengths in 8 or 16 bits.
fn lengths(cases: &mut Cases) {
    let (one, two) = (one_member(), of_round(of_keys_alone()));
    let (four, eight, all) = (of_round(example::round()), eight_groups(), everything());

    cases.cut("set", (&four, SET), &[32], 0);
    cases.cut("set", (&four, SET), &[0, 1, 31, 33, 64, 288, MOST + 32], 3);

    cases.cut("table", (&eight, TABLE), &[256], 14);
    // The set's group is not among fewer than eight.
    cases.cut("table", (&eight, TABLE), &[0, 32, 224], 1);
    cases.cut("table", (&eight, TABLE), &[1, 31, 33, 255, 257], 3);
    cases.cut("table", (&eight, TABLE), &[288, MOST + 256], 3);

    cases.cut("one", (&one, BOARD), &[0], 12);
    cases.cut("one", (&one, BOARD), &[1, 31, 33], 3);
    cases.cut("one", (&one, BOARD), &[32], 14);
    cases.cut("one", (&one, BOARD), &[64], 5);
    cases.cut("two", (&two, BOARD), &[32], 12);
    cases.cut("two", (&two, BOARD), &[63, 65], 3);
    cases.cut("two", (&two, BOARD), &[64], 14);
    // It has 1,152 bytes, and in 16 bits the last is that too.
    cases.cut("four", (&four, BOARD), &[1151, 1153, MOST + 1152], 3);
    cases.cut("all", (&all, BOARD), &[64_480], 0);
    cases.cut("all", (&all, BOARD), &[64_512, MOST], 5);
    cases.cut("all", (&all, BOARD), &[64_479, 64_481, MOST - 1], 3);
    cases.cut("all", (&all, BOARD), &[MOST + 1, 70_000, 2 * MOST], 3);
}

/// Files whose last byte is another.
fn last_bytes(cases: &mut Cases) {
    for (name, places, which, number) in [
        ("set", one_member(), SET, 4),
        ("table", eight_groups(), TABLE, 4),
        ("one", one_member(), BOARD, 17),
        ("all", everything(), BOARD, 17),
    ] {
        let mut bytes = places[which].bytes().to_vec();
        *bytes.last_mut().expect("a byte") ^= 1;
        let places = with(&places, which, bytes);
        cases.add(format!("{name}-spoiled"), places, number);
    }
}

fn all() -> Cases {
    let mut cases = Cases::default();
    kinds_of_places(&mut cases);
    exchanged(&mut cases);
    refused_tables(&mut cases);
    lengths(&mut cases);
    last_bytes(&mut cases);
    cases
}

/// Writes the files of each case to a folder of its name, and its text beside it. Returns how many cases there are.
pub fn write(folder: &Path) -> io::Result<usize> {
    let Cases(cases) = all();
    for (case, places) in &cases {
        // It fails where two cases have one name.
        fs::create_dir(folder.join(case))?;
        for (place, name) in places.iter().zip(NAMES) {
            place.write(&folder.join(case).join(name))?;
        }
        fs::write(folder.join(format!("{case}.text")), text_of(places))?;
    }
    Ok(cases.len())
}

#[cfg(test)]
mod tests {
    use super::*;

    /// Whether some case has another text for a program that takes other bytes than those of one of the files.
    fn is_noticed(Cases(cases): &Cases, which: usize, taken: impl Fn(&[u8]) -> Vec<u8>) -> bool {
        cases.iter().any(|(_, places)| {
            let bytes = taken(places[which].bytes());
            text_of(&with(places, which, bytes)) != text_of(places)
        })
    }

    /// Programs that read less than docs/FORMAT.md says, that have a length in 8 or 16 bits, and that lose the last byte.
    #[test]
    fn wrong_readers_are_noticed() {
        let cases = all();
        for (which, most) in [(TABLE, 257), (SET, 33), (BOARD, MOST + 1)] {
            let up_to = |limit: usize| move |bytes: &[u8]| bytes[..limit.min(bytes.len())].to_vec();
            assert!(!is_noticed(&cases, which, up_to(most)));
            for limit in [most - 1, most - 2, most - 33, most / 2, most / 8, 1, 0] {
                assert!(is_noticed(&cases, which, up_to(limit)), "{which} {limit}");
            }
            for bits in [8, 16] {
                let short = |bytes: &[u8]| bytes[..bytes.len() % (1 << bits)].to_vec();
                assert!(is_noticed(&cases, which, short), "{which} {bits}");
            }
            let zeroed = |bytes: &[u8]| match bytes.split_last() {
                Some((_, front)) => [front, &[0]].concat(),
                None => Vec::new(),
            };
            assert!(is_noticed(&cases, which, zeroed), "{which}");
        }
    }
}
