//! What is committed of the cases: some of each operation, labelled and in figures, for those who write a judge of their own; and one
//! digest of all answers to a seed, to which later answers are held.

use crate::aimed::{self, Aimed};
use crate::case::{answered, listed, Answer, Case, Figure};
use crate::compare::drawn;
use crate::model::record::hex;
use crate::model::sha256::sha256;
use crate::operations::{Operation, ALL};
use std::collections::{BTreeMap, BTreeSet};

/// The seed of what is committed.
const SEED: u64 = 1;

/// How many cases have their answers in a digest.
const DIGESTED: u64 = 1000;

/// The most cases of an operation's file; the most characters of a case, and of a file.
const CASES: usize = 120;
const OF_CASE: usize = 1500;
const OF_FILE: usize = 48_000;

/// The figures of a case. Of a lent buffer only the length is told.
fn lent(operation: &Operation, case: &Case) -> String {
    let count = case.len() - usize::from(operation.parameters.last() == Some(&"out"));
    let mut text = listed(operation.parameters, &case[..count]);
    match case.get(count) {
        None => {}
        Some(Figure::Words(words)) => text += &format!("out of {} words\n", words.len()),
        Some(out) => text += &format!("out of {} bytes\n", out.bytes().len()),
    }
    text
}

/// The answer to a case. Of a lent buffer it is told what is written, or that it is kept; a text is told as such.
fn told(operation: &Operation, case: &Case, answer: &Answer) -> String {
    let Some(out) = &answer.out else {
        return answered(operation.fields, answer);
    };
    if operation.name == "draw_text" {
        let length = answer.fields[0] as usize;
        let written = String::from_utf8_lossy(&out.bytes()[..length]);
        let lines: String = written.lines().map(|line| format!("  {line}\n")).collect();
        return format!("length {length}\nout begins with\n{lines}");
    }
    let alone = Answer {
        out: None,
        ..answer.clone()
    };
    let text = answered(operation.fields, &alone);
    if Some(out) == case.last() {
        return text + "out kept\n";
    }
    text + &format!("out{out}\n")
}

/// The first lines of a file.
fn head(operation: &Operation) -> String {
    let parameters = operation.parameters.join(", ");
    format!(
        "# Cases of {}, and the answer to each. docs/TESTS.md says how they are written.\n# Figures: {parameters}.\n\n",
        operation.name
    )
}

/// A file under way.
struct File<'a> {
    operation: &'a Operation,
    text: String,
    count: usize,
    labels: BTreeSet<(u32, String)>,
    of_number: BTreeMap<u32, usize>,
}

impl File<'_> {
    /// Adds a case, if there is room for it and its number has no other of the same label.
    fn add(&mut self, name: &str, label: &str, case: &Case) {
        let answer = (self.operation.model)(case);
        let number = self.operation.reached(&answer);
        let of_number = self.of_number.entry(number).or_default();
        let most = CASES.div_ceil(self.operation.numbers.len());
        let is_new = !self.labels.contains(&(number, label.to_string()));
        if !is_new || *of_number == most || self.count == CASES {
            return;
        }
        let figures = lent(self.operation, case);
        let answer = told(self.operation, case, &answer);
        let told = format!("case {name}\n{figures}-- answer\n{answer}\n");
        if told.len() <= OF_CASE && self.text.len() + told.len() <= OF_FILE {
            *of_number += 1;
            self.count += 1;
            self.labels.insert((number, label.to_string()));
            self.text += &told;
        }
    }
}

/// The file of an operation: cases by hand first, and then those of the seed that reach each number, every label once.
fn file(operation: &Operation, by_hand: &[Aimed]) -> String {
    let mut file = File {
        operation,
        text: head(operation),
        count: 0,
        labels: BTreeSet::new(),
        of_number: BTreeMap::new(),
    };
    for aimed in by_hand
        .iter()
        .filter(|aimed| aimed.operation.name == operation.name)
    {
        file.add(&aimed.label, &aimed.label, &aimed.case);
    }
    for number in 0..DIGESTED {
        let (case, label) = drawn(operation, SEED, number);
        file.add(&format!("{SEED} {number}: {label}"), &label, &case);
    }
    file.text
}

/// The files of all operations.
pub fn files() -> Vec<(String, Vec<u8>)> {
    let by_hand = aimed::all();
    let file = |operation: &Operation| {
        (
            format!("{}.txt", operation.name),
            file(operation, &by_hand).into_bytes(),
        )
    };
    ALL.iter().map(file).collect()
}

/// For each operation the digest of its cases' figures, and that of the answers.
pub fn digests() -> String {
    let mut text =
        "# operation, seed, cases, digest of their figures, digest of the answers\n".to_string();
    for operation in &ALL {
        let (mut figures, mut answers) = ([0; 32], [0; 32]);
        for number in 0..DIGESTED {
            let (case, _) = drawn(operation, SEED, number);
            let answer = (operation.model)(&case);
            for (digest, told) in [
                (&mut figures, listed(operation.parameters, &case)),
                (&mut answers, answered(operation.fields, &answer)),
            ] {
                *digest = sha256(&[&digest[..], told.as_bytes()].concat());
            }
        }
        let [figures, answers] = [figures, answers].map(|digest| hex(&digest));
        text += &format!("{} {SEED} {DIGESTED} {figures} {answers}\n", operation.name);
    }
    text
}
