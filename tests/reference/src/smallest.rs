//! A form of a case that still has a property, as small as can be found in some seconds.

use crate::case::{Case, Figure};
use crate::model::record::SIZE;
use std::time::{Duration, Instant};

/// How long is looked for a smaller form: a large board has many, and each takes some milliseconds.
const LIMIT: Duration = Duration::from_secs(3);

/// Smaller figures in the place of one, shorter ones first.
fn smaller(figure: &Figure) -> Box<dyn Iterator<Item = Figure> + '_> {
    match figure {
        Figure::Word(word) => Box::new(smaller_words(*word).map(Figure::Word)),
        Figure::Words(words) => {
            let shorter = (0..words.len()).map(|k| [&words[..k], &words[k + 1..]].concat());
            let places =
                (0..words.len()).flat_map(|k| smaller_words(words[k]).map(move |w| (k, w)));
            let lower = places.map(|(k, w)| [&words[..k], &[w], &words[k + 1..]].concat());
            Box::new(shorter.chain(lower).map(Figure::Words))
        }
        Figure::Bytes(bytes) => {
            let without = |start: usize, size: usize| {
                let end = (start + size).min(bytes.len());
                [&bytes[..start], &bytes[end..]].concat()
            };
            let halves = (1..8).map(move |k| without(bytes.len() >> k, bytes.len()));
            let records = (0..bytes.len()).step_by(SIZE);
            let shorter = records.map(move |start| without(start, SIZE));
            let cut = [without(bytes.len().saturating_sub(1), 1)];
            let zeroed = (0..bytes.len()).step_by(4).map(|k| {
                let mut bytes = bytes.clone();
                let end = (k + 4).min(bytes.len());
                bytes[k..end].fill(0);
                bytes
            });
            Box::new(
                halves
                    .chain(shorter)
                    .chain(cut)
                    .chain(zeroed)
                    .map(Figure::Bytes),
            )
        }
    }
}

fn smaller_words(word: u32) -> impl Iterator<Item = u32> {
    let all = [0, 1, word / 2, word.saturating_sub(1)];
    all.into_iter().filter(move |&other| other < word)
}

/// Makes one figure after the other smaller while the case has the property. The buffer that a digest or a text is written to has one
/// length, so that the last figure of such a case is left alone: `is_fixed`.
pub fn smallest(case: &Case, is_fixed: bool, has: impl Fn(&Case) -> bool) -> Case {
    let start = Instant::now();
    let mut case = case.clone();
    let count = case.len() - usize::from(is_fixed);
    let (mut k, mut unchanged) = (0, 0);
    while unchanged < count && start.elapsed() < LIMIT {
        let found = smaller(&case[k])
            .take_while(|_| start.elapsed() < LIMIT)
            .filter(|figure| *figure != case[k])
            .find_map(|figure| {
                let mut other = case.clone();
                other[k] = figure;
                has(&other).then_some(other)
            });
        match found {
            Some(other) => (case, unchanged) = (other, 0),
            None => (k, unchanged) = ((k + 1) % count, unchanged + 1),
        }
    }
    case
}

#[cfg(test)]
mod tests {
    use super::*;
    use Figure::{Bytes, Word, Words};

    /// A word above 9, a list with a 7 in it, and bytes of which some are 1.
    #[test]
    fn what_the_property_asks_for_stays() {
        let bytes = [vec![5; 70], vec![1; 3], vec![5; 40]].concat();
        let case = vec![Word(1000), Words(vec![3, 7, 9]), Bytes(bytes)];
        let has = |case: &Case| {
            let (word, words, bytes) = (case[0].word(), case[1].words(), case[2].bytes());
            word > 9 && words.contains(&7) && bytes.contains(&1)
        };
        let found = smallest(&case, false, has);
        assert_eq!(found[..2], [Word(10), Words(vec![7])]);
        assert!(found[2].bytes().len() <= SIZE);
        assert_eq!(smallest(&case, true, has)[2], case[2]);
    }
}
