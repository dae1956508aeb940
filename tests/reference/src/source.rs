//! What cases are made of: figures that are mostly proper, and changes of them, each with a note of what was changed.

use crate::model::group::{self, Group};
use crate::model::modular::power;
use crate::model::record::{self, Record, SIZE};
use crate::model::round::{Lent, Round};
use crate::model::table::{self, BUILT_IN};
use crate::numbers::Numbers;

/// p and q of groups for tables, from the smallest of all to the largest that fit a word; p = 2q + 1 or p - 1 = kq.
const MODULI: [(u32, u32); 14] = [
    (7, 3),
    (13, 3),
    (23, 11),
    (31, 5),
    (43, 7),
    (2003, 13),
    (2039, 1019),
    (65_539, 331),
    (1_000_003, 166_667),
    (4_294_967_087, 2_147_483_543),
    (4_294_967_197, 3),
    (4_294_967_291, 22_605_091),
    (4_294_967_279, 18_046_081),
    (4_294_960_079, 2_147_480_039),
];

/// Those of which trial division takes little.
const SMALL: usize = 9;

/// A round's figures as they are lent.
#[derive(Clone)]
pub struct Figures {
    pub table: Vec<u8>,
    pub number: u32,
    pub n: u32,
    pub t: u32,
    pub round: u32,
    pub first: u32,
}

impl Figures {
    pub fn lent(&self) -> Lent<'_> {
        Lent {
            table: &self.table,
            number: self.number,
            n: self.n,
            t: self.t,
            round: self.round,
            first: self.first,
        }
    }
}

/// The group of order q modulo p with two generators.
pub fn group_of((p, q): (u32, u32)) -> Group {
    let mut elements = (2..).map(|base| power(base, (p - 1) / q, p));
    let mut next = |other| elements.find(|&v| v != 1 && v != other);
    let g = next(1).expect("a generator");
    let h = next(g).expect("another one");
    Group { p, q, g, h }
}

pub struct Source {
    numbers: Numbers,
    notes: Vec<String>,
}

impl Source {
    pub fn new(name: &str, seed: u64, number: u64) -> Source {
        Source {
            numbers: Numbers::of_case(name, seed, number),
            notes: Vec::new(),
        }
    }

    /// What was changed.
    pub fn label(&self) -> String {
        if self.notes.is_empty() {
            "as it should be".to_string()
        } else {
            self.notes.join("; ")
        }
    }

    pub fn note(&mut self, note: impl Into<String>) {
        self.notes.push(note.into());
    }

    pub fn below(&mut self, limit: u32) -> u32 {
        self.numbers.below(limit)
    }

    pub fn index(&mut self, length: usize) -> usize {
        self.below(length as u32) as usize
    }

    /// A place of a list, often the first or the last.
    fn place(&mut self, length: usize) -> usize {
        match self.below(4) {
            0 => 0,
            1 => length - 1,
            _ => self.index(length),
        }
    }

    /// True once in so many times.
    pub fn once_in(&mut self, times: u32) -> bool {
        self.below(times) == 0
    }

    pub fn one_of<'a, T>(&mut self, all: &'a [T]) -> &'a T {
        &all[self.index(all.len())]
    }

    pub fn list(&mut self, count: usize, limit: u32) -> Vec<u32> {
        (0..count).map(|_| self.below(limit)).collect()
    }

    pub fn bytes(&mut self, length: usize) -> Vec<u8> {
        self.numbers.bytes(length)
    }

    /// How many changes a case gets: none, one or two.
    pub fn changes(&mut self) -> u32 {
        [0, 0, 1, 1, 1, 1, 2, 2][self.index(8)]
    }

    /// A word at the end of some range, close to another word, or any.
    pub fn odd(&mut self, group: &Group, word: u32) -> u32 {
        let &Group { p, q, g, h } = group;
        let any = self.numbers.word();
        let bit = 1 << self.below(32);
        let ends = [
            0,
            1,
            2,
            g,
            h,
            p - 1,
            p,
            p.wrapping_add(1),
            p - g,
            q - 1,
            q,
            q + 1,
            31,
            32,
            255,
            256,
            65_536,
            u32::MAX,
        ];
        match self.below(8) {
            0 => word.wrapping_add(1),
            1 => word.wrapping_sub(1),
            2 => word ^ bit,
            3 => word.wrapping_add(p),
            4 => word.wrapping_add(q),
            5 => any,
            _ => *self.one_of(&ends),
        }
    }

    /// Another element for an element, another exponent for an exponent, or an odd word.
    pub fn other(&mut self, group: &Group, word: u32) -> u32 {
        match self.below(3) {
            0 => group.product(word, group.g),
            1 => (word % group.q + 1) % group.q,
            _ => self.odd(group, word),
        }
    }

    /// Changes a word that has a name.
    pub fn change_word(&mut self, group: &Group, name: &str, word: &mut u32) {
        *word = self.other(group, *word);
        self.note(format!("{name} changed"));
    }

    pub fn element(&mut self, group: &Group) -> u32 {
        let exponent = self.below(group.q);
        group.power(group.g, exponent)
    }

    /// A table of one to eight groups, seldom with large ones.
    fn proper_table(&mut self) -> Vec<u8> {
        let count = 1 + self.below(8);
        let moduli = if self.once_in(24) {
            &MODULI[..]
        } else {
            &MODULI[..SMALL]
        };
        let groups: Vec<Group> = (0..count).map(|_| group_of(*self.one_of(moduli))).collect();
        table::bytes(&groups)
    }

    /// A table of one or two groups that are close to proper ones: p is any odd number, and q any divisor of p - 1.
    fn near_table(&mut self) -> Vec<u8> {
        let count = 1 + self.index(2);
        let mut groups = Vec::new();
        while groups.len() < count {
            let p = 5 + 2 * self.below(2000);
            let divisors: Vec<u32> = (2..p).filter(|&d| (p - 1).is_multiple_of(d)).collect();
            let q = *self.one_of(&divisors);
            let [g, h] = [0; 2].map(|_| power(2 + self.below(p - 2), (p - 1) / q, p));
            groups.push(Group { p, q, g, h });
        }
        table::bytes(&groups)
    }

    /// Changes a table's length or one word of it.
    fn damage_table(&mut self, table: &mut Vec<u8>) {
        match self.below(8) {
            0 => table.truncate(self.index(table.len())),
            1 => table.extend(vec![0; 1 + self.index(300)]),
            2 => *table = table.repeat(3),
            _ => {
                let (k, word) = (self.place(table.len() / SIZE), self.index(8));
                let bytes = &mut table[SIZE * k..][..SIZE];
                let mut record = record::read(bytes);
                let [_, _, p, q, g, h, ..] = record;
                record[word] = match self.below(4) {
                    0 => g,
                    1 => h,
                    _ => self.odd(&Group { p, q, g, h }, record[word]),
                };
                record::write(record, bytes);
            }
        }
    }

    /// No table, or a proper one; seldom a damaged one.
    pub fn table(&mut self) -> Vec<u8> {
        match self.below(24) {
            0 => {
                let mut table = self.proper_table();
                self.damage_table(&mut table);
                self.note("table damaged");
                table
            }
            1..=3 => self.proper_table(),
            4 => table::bytes(&BUILT_IN),
            5 => {
                self.note("table of near groups");
                self.near_table()
            }
            _ => Vec::new(),
        }
    }

    /// A table and a group's number in it, seldom another number; and its group, or another where there is none, so that the rest of a
    /// case has some figures.
    pub fn group(&mut self) -> (Vec<u8>, u32, Group) {
        let table = self.table();
        let count = if table.is_empty() {
            3
        } else {
            (table.len() / SIZE) as u32
        };
        let mut number = 1 + self.below(count.max(1));
        if self.once_in(24) {
            number = *self.one_of(&[0, count + 1, 4, 256, 257, u32::MAX]);
            self.note(format!("group {number}"));
        }
        let group = group::group(&table, number).unwrap_or(BUILT_IN[1]);
        (table, number, group)
    }

    /// A round's figures, mostly proper, with few members or with many; and the round, or another where they are refused.
    pub fn figures(&mut self) -> (Figures, Round) {
        let (table, number, group) = self.group();
        let most = 31.min(group.q - 1);
        let n = match self.below(8) {
            0 => most,
            1 => 1 + self.below(most),
            _ => 1 + self.below(most.min(5)),
        };
        let t = 1 + self.below(n);
        let round = *self.one_of(&[0, 0, 0, 1, 2, 255, 256, 0x0102_0304, u32::MAX]);
        let first = *self.one_of(&[0, 0, 1, 2, round, round.wrapping_add(1), u32::MAX]);
        let mut figures = Figures {
            table,
            number,
            n,
            t,
            round,
            first,
        };
        if self.once_in(24) {
            let odd = *self.one_of(&[0, n + 1, 31, 32, group.q - 1, group.q, 256 + n, u32::MAX]);
            if self.once_in(2) {
                figures.n = odd;
            } else {
                figures.t = odd;
            }
            self.note(format!("n {}, t {}", figures.n, figures.t));
        }
        let judged = figures.lent().round();
        let proper = judged.unwrap_or_else(|_| self.proper_round(&figures));
        (figures, proper)
    }

    fn proper_round(&mut self, figures: &Figures) -> Round {
        let n = 1 + self.below(4);
        let lent = Lent::of(2, n, 1).with_round(figures.round);
        lent.with_first(figures.first)
            .round()
            .expect("a proper round")
    }

    /// Distinct secret keys.
    pub fn secret_keys(&mut self, round: &Round) -> Vec<u32> {
        let mut keys = Vec::new();
        while keys.len() < round.n as usize {
            let x = 1 + self.below(round.group.q - 1);
            if !keys.contains(&x) {
                keys.push(x);
            }
        }
        keys
    }

    pub fn keys(&mut self, round: &Round) -> Vec<u32> {
        let group = round.group;
        let keys = self.secret_keys(round).into_iter();
        keys.map(|x| group.power(group.h, x)).collect()
    }

    /// Changes a list of figures: its length, one of them, two in each other's place, one put twice.
    pub fn change_list(&mut self, group: &Group, name: &str, list: &mut Vec<u32>) {
        if list.is_empty() {
            self.note(format!("{name}: one too many"));
            return list.push(self.element(group));
        }
        let (i, k) = (self.place(list.len()), self.place(list.len()));
        let note = match self.below(8) {
            0 => {
                list.pop();
                "the last left out".to_string()
            }
            1 => {
                list.push(list[i]);
                "one too many".to_string()
            }
            2 => {
                list.swap(i, k);
                format!("{} and {} exchanged", i + 1, k + 1)
            }
            3 => {
                list[i] = list[k];
                format!("{} as {}", i + 1, k + 1)
            }
            _ => {
                list[i] = self.other(group, list[i]);
                format!("{} changed", i + 1)
            }
        };
        self.note(format!("{name}: {note}"));
    }

    /// Changes records: their length, a word of one or of all, two in each other's place, one put twice, one left out.
    pub fn change_records(&mut self, group: &Group, name: &str, bytes: &mut Vec<u8>) {
        let count = bytes.len() / SIZE;
        if count == 0 {
            self.note(format!("{name}: a byte too many"));
            return bytes.push(0);
        }
        let (i, k, word) = (self.place(count), self.place(count), self.index(8));
        let note = match self.below(16) {
            0 => {
                bytes.truncate(self.index(bytes.len()));
                "cut".to_string()
            }
            1 => {
                bytes.push(0);
                "a byte too many".to_string()
            }
            way => {
                let mut records: Vec<Record> = bytes.chunks_exact(SIZE).map(record::read).collect();
                let note = self.change_whole(group, &mut records, way, [i, k, word]);
                *bytes = record::bytes(records);
                note
            }
        };
        self.note(format!("{name}: {note}"));
    }

    /// Changes whole records in one of the ways 2 to 15, at the place i, beside k, and tells how.
    fn change_whole(
        &mut self,
        group: &Group,
        records: &mut Vec<Record>,
        way: u32,
        [i, k, word]: [usize; 3],
    ) -> String {
        let [first, second] = [i + 1, k + 1];
        match way {
            2 => {
                records.remove(i);
                format!("record {first} left out")
            }
            3 => {
                records.insert(i, records[k]);
                format!("record {second} again before {first}")
            }
            4 => {
                records.swap(i, k);
                format!("records {first} and {second} exchanged")
            }
            5 | 6 => {
                records[i][word] = records[k][word];
                format!("word {word} of record {first} as of {second}")
            }
            7 => {
                let odd = self.other(group, records[i][word]);
                records.iter_mut().for_each(|record| record[word] = odd);
                format!("word {word} of all changed")
            }
            _ => {
                let is_figure = way < 12;
                let word = if is_figure { 3 + word % 4 } else { word };
                let changed = if is_figure { Self::other } else { Self::odd };
                records[i][word] = changed(self, group, records[i][word]);
                format!("word {word} of record {first} changed")
            }
        }
    }

    /// Changes a round's figures.
    pub fn change_figures(&mut self, group: &Group, figures: &mut Figures) {
        let Figures {
            number,
            n,
            t,
            round,
            first,
            ..
        } = *figures;
        let word = *self.one_of(&[number, n, t, round, first]);
        let odd = self.odd(group, word);
        match self.below(6) {
            0 => figures.number = odd,
            1 => figures.n = odd,
            2 => figures.t = odd % 34,
            3 => figures.round = odd,
            4 => figures.first = odd,
            _ => figures.table = self.table(),
        }
        self.note("other round");
    }

    /// A lent buffer of the right length, seldom of another.
    pub fn room(&mut self, right: usize) -> Vec<u8> {
        let length = match self.below(16) {
            0 => *self.one_of(&[
                0,
                right.saturating_sub(1),
                right + 1,
                2 * right,
                right + 256,
            ]),
            _ => right,
        };
        if length != right {
            self.note(format!("out: {length} for {right}"));
        }
        filled(length)
    }

    /// A dealer or a member, seldom none.
    pub fn member(&mut self, name: &str, n: u32) -> u32 {
        if !self.once_in(24) {
            return 1 + self.below(n);
        }
        let other = *self.one_of(&[0, n + 1, 32, 257, u32::MAX]);
        self.note(format!("{name} {other}"));
        other
    }
}

/// What a lent buffer holds before a call: no two neighbours are the same.
pub fn filled(length: usize) -> Vec<u8> {
    (0..length).map(|k| (k * 37 + 0x5a) as u8).collect()
}
