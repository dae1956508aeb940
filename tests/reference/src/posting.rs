//! What members whose secret keys are known post on a board.

use crate::model::dealing::deal;
use crate::model::record::{self, Record, KEY, OPENING, SIZE};
use crate::model::round::Round;
use crate::model::share::{added, write, Kind};

/// The members of a round with their keys.
pub struct Members {
    pub round: Round,
    pub secret_keys: Vec<u32>,
    pub keys: Vec<u32>,
}

impl Members {
    pub fn new(round: Round, secret_keys: &[u32]) -> Members {
        let keys = secret_keys
            .iter()
            .map(|&x| round.group.power(round.group.h, x));
        Members {
            keys: keys.collect(),
            secret_keys: secret_keys.to_vec(),
            round,
        }
    }

    pub fn key_records(&self) -> Vec<Record> {
        let keys = (1..).zip(&self.keys);
        let record = |(i, &y)| [KEY, 0, i, y, 0, 0, 0, self.round.round];
        keys.map(record).collect()
    }

    /// The lines of each member's exponent, whether some polynomial takes these as its values or not.
    pub fn lines(&self, dealer: u32, exponents: &[u32], nonces: &[u32]) -> Vec<Record> {
        let mut bytes = vec![0; SIZE * self.keys.len()];
        deal(
            &self.round,
            dealer,
            &self.keys,
            exponents,
            nonces,
            &mut bytes,
        );
        bytes.chunks_exact(SIZE).map(record::read).collect()
    }

    /// The opened share of the member of a line.
    pub fn share(&self, line: &Record, nonce: u32) -> Record {
        let [_, dealer, member, _, encrypted, ..] = *line;
        self.written(&Kind::opened(dealer), member, encrypted, nonce)
    }

    /// The added share of a member, from the product of his Y.
    pub fn added(&self, member: u32, encrypted: u32, nonce: u32) -> Record {
        self.written(&added::KIND, member, encrypted, nonce)
    }

    /// In the round as it is judged, so that its table is not judged again for each share.
    fn written(&self, kind: &Kind, member: u32, encrypted: u32, nonce: u32) -> Record {
        let x = self.secret_keys[member as usize - 1];
        let mut bytes = [0; SIZE];
        let written = write(&self.round, kind, member, encrypted, x, nonce, &mut bytes);
        written.expect("proper figures");
        record::read(&bytes)
    }

    /// The product of Y of each member over dealings, whose lines these are.
    pub fn products(&self, lines: &[Record]) -> Vec<u32> {
        let mut products = vec![1; self.keys.len()];
        for [_, _, member, _, encrypted, ..] in lines {
            let product = &mut products[*member as usize - 1];
            *product = self.round.group.product(*product, *encrypted);
        }
        products
    }

    pub fn opening(&self, dealer: u32, s: u32) -> Record {
        [OPENING, dealer, 0, s, 0, 0, 0, self.round.round]
    }
}
