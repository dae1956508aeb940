//! Product and model on the same cases, in one process: the cases by hand, and those of a seed.

use crate::case::{answered, listed, Answer, Case};
use crate::guarded::{Memory, Side};
use crate::operations::{Operation, ALL};
use crate::smallest::smallest;
use crate::source::Source;
use crate::{aimed, interrupted};
use std::collections::BTreeSet;
use std::fmt::Write;

/// The case of an operation, a seed and a number, and what was changed in it.
pub fn drawn(operation: &Operation, seed: u64, number: u64) -> (Case, String) {
    let mut source = Source::new(operation.name, seed, number);
    let case = (operation.draw)(&mut source);
    (case, source.label())
}

/// A case and both answers to it.
pub fn shown(operation: &Operation, case: &Case, answers: [&Answer; 2]) -> String {
    let mut text = listed(operation.parameters, case);
    for (who, answer) in ["product", "model"].iter().zip(answers) {
        let answer = answered(operation.fields, answer);
        write!(text, "-- {who}\n{answer}").expect("a string");
    }
    text
}

/// What is compared so far.
pub struct Comparison {
    memory: Memory,
    has_differed: bool,
}

impl Comparison {
    pub fn new() -> Comparison {
        Comparison {
            memory: Memory::new(),
            has_differed: false,
        }
    }

    fn answers(&mut self, operation: &Operation, case: &Case) -> [Answer; 2] {
        let product = (operation.product)(case, &mut self.memory);
        [product, (operation.model)(case)]
    }

    /// Compares one case, with its buffers at one side. Tells the number that the model answers.
    fn compare(&mut self, operation: &Operation, name: &str, case: &Case, side: Side) -> u32 {
        interrupted::at(name);
        self.memory.side = side;
        let [product, model] = self.answers(operation, case);
        if product != model {
            self.has_differed = true;
            self.report(operation, name, case);
        }
        operation.reached(&model)
    }

    /// Prints the smallest form of a case to which the answers differ.
    fn report(&mut self, operation: &Operation, name: &str, case: &Case) {
        let is_fixed = ["digest", "draw_text"].contains(&operation.name);
        let own = std::cell::RefCell::new(&mut *self);
        let differ = |case: &Case| {
            let [product, model] = own.borrow_mut().answers(operation, case);
            product != model
        };
        let case = smallest(case, is_fixed, differ);
        let [product, model] = self.answers(operation, &case);
        let text = shown(operation, &case, [&product, &model]);
        eprintln!("differs: {name}, the smallest form of it:\n{text}");
    }

    /// The cases by hand, each at both sides, up to the first difference.
    pub fn by_hand(&mut self) {
        for aimed in aimed::all() {
            let name = format!("{} {}", aimed.operation.name, aimed.label);
            for side in [Side::Start, Side::End] {
                self.compare(aimed.operation, &name, &aimed.case, side);
                if self.has_differed {
                    return;
                }
            }
        }
    }

    /// So many cases of an operation by a seed, up to the first difference; and the numbers that they did not reach.
    pub fn by_seed(&mut self, operation: &Operation, seed: u64, count: u64) -> Vec<u32> {
        let mut reached = BTreeSet::new();
        for number in 0..count {
            let (case, _) = drawn(operation, seed, number);
            let name = format!("{} {seed} {number}", operation.name);
            let side = [Side::Start, Side::End][number as usize % 2];
            reached.insert(self.compare(operation, &name, &case, side));
            if self.has_differed {
                break;
            }
        }
        let unlisted: Vec<&u32> = reached
            .iter()
            .filter(|k| !operation.numbers.contains(k))
            .collect();
        assert!(
            unlisted.is_empty(),
            "{}: numbers {unlisted:?}",
            operation.name
        );
        let all = operation.numbers.iter().copied();
        all.filter(|number| !reached.contains(number)).collect()
    }
}

/// Compares on all cases by hand and so many of each operation by a seed. Says what differs, and which numbers were not reached; whether
/// nothing did.
pub fn run(seed: u64, count: u64, only: Option<&Operation>) -> bool {
    let mut comparison = Comparison::new();
    comparison.by_hand();
    let mut is_short = false;
    for operation in &ALL {
        if comparison.has_differed || only.is_some_and(|only| only.name != operation.name) {
            continue;
        }
        let missing = comparison.by_seed(operation, seed, count);
        if !comparison.has_differed && !missing.is_empty() {
            eprintln!("{}: no case is refused by {missing:?}", operation.name);
            is_short = true;
        }
    }
    !comparison.has_differed && !is_short
}
