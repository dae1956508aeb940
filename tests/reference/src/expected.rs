//! The model's answer to a case.

use crate::case::{number, Answer, Case, Figure};
use crate::model::answer::Answer as Told;
use crate::model::board::{self, Secret, Verdict};
use crate::model::equality::{equality, Equality};
use crate::model::round::Lent;
use crate::model::share::added;
use crate::model::{chain, dealing, draw, group, plots, record, sha256, share, sharing};

/// The most members that a round may have, for whom a board's answer has places.
const MEMBERS: usize = 31;

fn lent(case: &Case) -> Lent<'_> {
    let [number, n, t, round, first] = [1, 2, 3, 4, 5].map(|k| case[k].word());
    Lent {
        table: case[0].bytes(),
        number,
        n,
        t,
        round,
        first,
    }
}

fn passed(answer: Told<()>) -> Answer {
    Answer::of(number(&answer))
}

/// The value is 0 where something is refused.
fn valued(answer: Told<u32>) -> Answer {
    Answer {
        fields: vec![answer.unwrap_or(0)],
        ..Answer::of(number(&answer))
    }
}

/// What a writer leaves in a copy of the lent bytes.
fn written(lent: &Figure, write: impl FnOnce(&mut [u8]) -> Told<()>) -> Answer {
    let mut out = lent.bytes().to_vec();
    passed(write(&mut out)).with_out(Figure::Bytes(out))
}

pub fn digest(case: &Case) -> Answer {
    let bytes =
        |out: &mut [u8]| sha256::digest(case[0].bytes()).map(|digest| out.copy_from_slice(&digest));
    written(&case[1], bytes)
}

pub fn power(case: &Case) -> Answer {
    let [number, base, exponent] = [1, 2, 3].map(|k| case[k].word());
    valued(group::power(case[0].bytes(), number, base, exponent))
}

pub fn equality_check(case: &Case) -> Answer {
    let [b1, x1, b2, x2, a1, a2, challenge, response] =
        [2, 3, 4, 5, 6, 7, 8, 9].map(|k| case[k].word());
    let proof = Equality {
        bases: [b1, b2],
        elements: [x1, x2],
        announcements: [a1, a2],
        challenge,
        response,
    };
    passed(equality(case[0].bytes(), case[1].word(), &proof))
}

pub fn degree_check(case: &Case) -> Answer {
    passed(sharing::degree_check(
        lent(case),
        case[6].words(),
        case[7].words(),
    ))
}

pub fn opening(case: &Case) -> Answer {
    passed(sharing::opening(
        lent(case),
        case[6].words(),
        case[7].word(),
    ))
}

pub fn recovery(case: &Case) -> Answer {
    valued(sharing::recovery(
        lent(case),
        case[6].words(),
        case[7].words(),
    ))
}

pub fn write_dealing(case: &Case) -> Answer {
    let [keys, coefficients, nonces] = [7, 8, 9].map(|k| case[k].words());
    written(&case[10], |out| {
        dealing::write_dealing(lent(case), case[6].word(), keys, coefficients, nonces, out)
    })
}

pub fn judge_dealing(case: &Case) -> Answer {
    passed(dealing::judge_dealing(
        lent(case),
        case[6].word(),
        case[7].words(),
        case[8].bytes(),
    ))
}

pub fn write_share(case: &Case) -> Answer {
    let [dealer, member, encrypted, x, nonce] = [6, 7, 8, 9, 10].map(|k| case[k].word());
    written(&case[11], |out| {
        share::write_share(lent(case), dealer, member, encrypted, x, nonce, out)
    })
}

pub fn judge_share(case: &Case) -> Answer {
    let [dealer, member, key, encrypted] = [6, 7, 8, 9].map(|k| case[k].word());
    valued(share::judge_share(
        lent(case),
        dealer,
        member,
        key,
        encrypted,
        case[10].bytes(),
    ))
}

pub fn write_added(case: &Case) -> Answer {
    let [member, encrypted, x, nonce] = [6, 7, 8, 9].map(|k| case[k].word());
    written(&case[10], |out| {
        added::write_added(lent(case), member, encrypted, x, nonce, out)
    })
}

pub fn judge_added(case: &Case) -> Answer {
    let [member, key, encrypted] = [6, 7, 8].map(|k| case[k].word());
    valued(added::judge_added(
        lent(case),
        member,
        key,
        encrypted,
        case[9].bytes(),
    ))
}

pub fn lines_check(case: &Case) -> Answer {
    passed(board::lines_check(
        lent(case),
        case[6].word(),
        case[7].bytes(),
    ))
}

/// Where a dealer has no lines the part is empty, and stands where they would.
pub fn dealer_lines(case: &Case) -> Answer {
    let (dealer, bytes) = (case[6].word(), case[7].bytes());
    let answer = board::lines_check(lent(case), dealer, bytes);
    let mut fields = vec![0, 0];
    if answer.is_ok() {
        let places = bytes.chunks_exact(record::SIZE).map(record::read);
        let before = places
            .filter(|r| r[..2] < [record::LINE, dealer][..])
            .count();
        let lines = board::dealer_lines(lent(case), dealer, bytes);
        fields = vec![(record::SIZE * before) as u32, lines.len() as u32];
    }
    Answer {
        fields,
        ..passed(answer)
    }
}

/// The kind of a verdict and its value.
fn told(verdict: &Verdict) -> [u32; 2] {
    match *verdict {
        Verdict::None => [0, 0],
        Verdict::Refused(number) => [1, number],
        Verdict::Accepted(Secret::Opened(secret)) => [2, secret],
        Verdict::Accepted(Secret::Recovered(secret)) => [3, secret],
        Verdict::Accepted(Secret::Stuck) => [4, 0],
    }
}

/// A board that is refused by 13 or 14 is judged: it keeps its count and its verdicts.
pub fn judge_board(case: &Case) -> Answer {
    let judged = board::judge_board(lent(case), case[6].bytes());
    let mut fields = vec![0; 2 + 2 * MEMBERS];
    let refusal = match judged {
        Err(number) => number,
        Ok(judged) => {
            fields[0] = judged.draw.unwrap_or(0);
            fields[1] = judged.accepted as u32;
            for (place, verdict) in fields[2..].chunks_mut(2).zip(&judged.verdicts) {
                place.copy_from_slice(&told(verdict));
            }
            number(&judged.draw)
        }
    };
    Answer {
        fields,
        ..Answer::of(refusal)
    }
}

pub fn draw_text(case: &Case) -> Answer {
    let [table, set, board] = [0, 1, 2].map(|k| case[k].bytes());
    let text = draw::text(table, set, board);
    let mut out = case[3].bytes().to_vec();
    out[..text.len()].copy_from_slice(text.as_bytes());
    Answer {
        fields: vec![text.len() as u32],
        ..Answer::of(0)
    }
    .with_out(Figure::Bytes(out))
}

pub fn pick_plots(case: &Case) -> Answer {
    let [number, value, radius, total, count] = [1, 2, 3, 4, 5].map(|k| case[k].word());
    let mut out = case[6].words().to_vec();
    let answer = plots::pick_plots(
        case[0].bytes(),
        number,
        value,
        radius,
        total,
        count,
        &mut out,
    );
    passed(answer).with_out(Figure::Words(out))
}

pub fn judge_chain(case: &Case) -> Answer {
    passed(chain::judge_chain(case[0].bytes(), case[1].bytes()))
}

pub fn extend_chain(case: &Case) -> Answer {
    let (number, value) = (case[2].word(), case[3].word());
    written(&case[4], |out| {
        chain::extend_chain(case[0].bytes(), case[1].bytes(), number, value, out)
    })
}
