//! A case of an operation and an answer to it, as figures under their names.

use crate::model::record::{hex, SIZE};
use std::fmt::{self, Display, Formatter};

/// What an operation is lent, or what a lent buffer holds afterwards.
#[derive(Clone, Debug, PartialEq)]
pub enum Figure {
    Word(u32),
    Words(Vec<u32>),
    Bytes(Vec<u8>),
}

impl Figure {
    pub fn word(&self) -> u32 {
        let Figure::Word(word) = self else {
            panic!("no word: {self:?}")
        };
        *word
    }

    pub fn words(&self) -> &[u32] {
        let Figure::Words(words) = self else {
            panic!("no words: {self:?}")
        };
        words
    }

    pub fn bytes(&self) -> &[u8] {
        let Figure::Bytes(bytes) = self else {
            panic!("no bytes: {self:?}")
        };
        bytes
    }
}

/// Words are written in decimal; bytes as digits in groups of four bytes, 32 bytes to a line; and what is empty as `-`.
impl Display for Figure {
    fn fmt(&self, out: &mut Formatter) -> fmt::Result {
        match self {
            Figure::Word(word) => write!(out, " {word}"),
            Figure::Words(words) if words.is_empty() => write!(out, " -"),
            Figure::Words(words) => words.iter().try_for_each(|word| write!(out, " {word}")),
            Figure::Bytes(bytes) if bytes.is_empty() => write!(out, " -"),
            Figure::Bytes(bytes) => bytes.chunks(SIZE).try_for_each(|line| {
                let groups: Vec<String> = line.chunks(4).map(hex).collect();
                write!(out, "\n  {}", groups.join(" "))
            }),
        }
    }
}

/// The figures in the order of the operation's parameters; a lent buffer comes last, with what it holds before the call.
pub type Case = Vec<Figure>;

/// Every field of an answer, whatever is refused, and what the lent buffer holds afterwards, if there is one.
#[derive(Clone, Debug, PartialEq)]
pub struct Answer {
    pub refusal: u32,
    pub fields: Vec<u32>,
    pub out: Option<Figure>,
}

impl Answer {
    /// An answer that is the number alone.
    pub fn of(refusal: u32) -> Answer {
        Answer {
            refusal,
            fields: Vec::new(),
            out: None,
        }
    }

    pub fn with_out(self, out: Figure) -> Answer {
        Answer {
            out: Some(out),
            ..self
        }
    }
}

/// The number of a refusal, 0 where there is none.
pub fn number<T>(answer: &Result<T, u32>) -> u32 {
    answer.as_ref().err().copied().unwrap_or(0)
}

/// Figures under their names, one to a line.
pub fn listed(names: &[&str], figures: &[Figure]) -> String {
    let lines = names.iter().zip(figures);
    lines
        .map(|(name, figure)| format!("{name}{figure}\n"))
        .collect()
}

/// An answer under the names of its fields.
pub fn answered(names: &[&str], answer: &Answer) -> String {
    let mut text = format!("refusal {}\n", answer.refusal);
    for (name, field) in names.iter().zip(&answer.fields) {
        text += &format!("{name} {field}\n");
    }
    // The verdicts on dealers 1, 2 and so on: kind and value.
    for (k, verdict) in answer.fields[names.len()..].chunks(2).enumerate() {
        if verdict != [0, 0] {
            text += &format!("dealer {} {} {}\n", k + 1, verdict[0], verdict[1]);
        }
    }
    if let Some(out) = &answer.out {
        text += &format!("out{out}\n");
    }
    text
}
