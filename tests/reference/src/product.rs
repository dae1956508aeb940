//! The product's answer to a case: every buffer is lent in guarded memory, and every field of an answer is taken, what is refused or not.

use crate::case::{number, Answer, Case, Figure};
use crate::guarded::Memory;
use tadlovimpe::{raw, Proof, Round, Verdict};

/// The figures of a round, which stand behind the table.
fn round(case: &Case) -> Round {
    let [group, n, t, round, first_new_round] = [1, 2, 3, 4, 5].map(|k| case[k].word());
    Round {
        group,
        n,
        t,
        round,
        first_new_round,
    }
}

/// An answer with a value. The safe function has to say the same.
fn valued(answer: raw::Answer, safe: Result<u32, u32>) -> Answer {
    let told = if answer.refusal == 0 {
        Ok(answer.value)
    } else {
        Err(answer.refusal)
    };
    assert_eq!(told, safe, "the safe function answers otherwise");
    Answer {
        fields: vec![answer.value],
        ..Answer::of(answer.refusal)
    }
}

// SAFETY of every call of `raw`: slices name memory that is there, and nothing is written through them.

pub fn digest(case: &Case, memory: &mut Memory) -> Answer {
    let [message, out, ..] = &mut memory.areas;
    let out = out.lend(case[1].bytes(), memory.side);
    let whole = (&mut *out).try_into().expect("32 bytes");
    let answer = tadlovimpe::digest(message.lend(case[0].bytes(), memory.side), whole);
    Answer::of(number(&answer)).with_out(Figure::Bytes(out.to_vec()))
}

pub fn power(case: &Case, memory: &mut Memory) -> Answer {
    let table = &*memory.areas[0].lend(case[0].bytes(), memory.side);
    let [group, base, exponent] = [1, 2, 3].map(|k| case[k].word());
    let answer =
        unsafe { raw::tadlovimpe_power(table.as_ptr(), table.len(), group, base, exponent) };
    valued(answer, tadlovimpe::power(table, group, base, exponent))
}

pub fn equality_check(case: &Case, memory: &mut Memory) -> Answer {
    let table = memory.areas[0].lend(case[0].bytes(), memory.side);
    let [b1, x1, b2, x2, a1, a2, c, r] = [2, 3, 4, 5, 6, 7, 8, 9].map(|k| case[k].word());
    let proof = Proof {
        b1,
        x1,
        b2,
        x2,
        a1,
        a2,
        c,
        r,
    };
    Answer::of(number(&tadlovimpe::equality_check(
        table,
        case[1].word(),
        proof,
    )))
}

pub fn degree_check(case: &Case, memory: &mut Memory) -> Answer {
    let [table, commitments, coefficients, ..] = &mut memory.areas;
    let table = table.lend(case[0].bytes(), memory.side);
    let commitments = commitments.lend(case[6].words(), memory.side);
    let coefficients = coefficients.lend(case[7].words(), memory.side);
    Answer::of(number(&tadlovimpe::degree_check(
        table,
        round(case),
        commitments,
        coefficients,
    )))
}

pub fn opening(case: &Case, memory: &mut Memory) -> Answer {
    let [table, commitments, ..] = &mut memory.areas;
    let table = table.lend(case[0].bytes(), memory.side);
    let commitments = commitments.lend(case[6].words(), memory.side);
    Answer::of(number(&tadlovimpe::opening(
        table,
        round(case),
        commitments,
        case[7].word(),
    )))
}

pub fn recovery(case: &Case, memory: &mut Memory) -> Answer {
    let [table, members, shares, ..] = &mut memory.areas;
    let table = &*table.lend(case[0].bytes(), memory.side);
    let members = &*members.lend(case[6].words(), memory.side);
    let shares = &*shares.lend(case[7].words(), memory.side);
    let answer = unsafe {
        raw::tadlovimpe_recovery(
            table.as_ptr(),
            table.len(),
            round(case),
            members.as_ptr(),
            members.len(),
            shares.as_ptr(),
            shares.len(),
        )
    };
    valued(
        answer,
        tadlovimpe::recovery(table, round(case), members, shares),
    )
}

pub fn write_dealing(case: &Case, memory: &mut Memory) -> Answer {
    let [table, keys, coefficients, nonces, out] = &mut memory.areas;
    let out = out.lend(case[10].bytes(), memory.side);
    let answer = tadlovimpe::write_dealing(
        table.lend(case[0].bytes(), memory.side),
        round(case),
        case[6].word(),
        keys.lend(case[7].words(), memory.side),
        coefficients.lend(case[8].words(), memory.side),
        nonces.lend(case[9].words(), memory.side),
        out,
    );
    Answer::of(number(&answer)).with_out(Figure::Bytes(out.to_vec()))
}

pub fn judge_dealing(case: &Case, memory: &mut Memory) -> Answer {
    let [table, keys, lines, ..] = &mut memory.areas;
    let answer = tadlovimpe::judge_dealing(
        table.lend(case[0].bytes(), memory.side),
        round(case),
        case[6].word(),
        keys.lend(case[7].words(), memory.side),
        lines.lend(case[8].bytes(), memory.side),
    );
    Answer::of(number(&answer))
}

pub fn write_share(case: &Case, memory: &mut Memory) -> Answer {
    let [table, out, ..] = &mut memory.areas;
    let table = table.lend(case[0].bytes(), memory.side);
    let out = out.lend(case[11].bytes(), memory.side);
    let [dealer, member, encrypted, secret_key, nonce] = [6, 7, 8, 9, 10].map(|k| case[k].word());
    let answer = tadlovimpe::write_share(
        table,
        round(case),
        dealer,
        member,
        encrypted,
        secret_key,
        nonce,
        out,
    );
    Answer::of(number(&answer)).with_out(Figure::Bytes(out.to_vec()))
}

pub fn judge_share(case: &Case, memory: &mut Memory) -> Answer {
    let [table, share, ..] = &mut memory.areas;
    let table = &*table.lend(case[0].bytes(), memory.side);
    let share = &*share.lend(case[10].bytes(), memory.side);
    let [dealer, member, key, encrypted] = [6, 7, 8, 9].map(|k| case[k].word());
    let answer = unsafe {
        raw::tadlovimpe_judge_share(
            table.as_ptr(),
            table.len(),
            round(case),
            dealer,
            member,
            key,
            encrypted,
            share.as_ptr(),
            share.len(),
        )
    };
    let safe = tadlovimpe::judge_share(table, round(case), dealer, member, key, encrypted, share);
    valued(answer, safe)
}

pub fn write_added(case: &Case, memory: &mut Memory) -> Answer {
    let [table, out, ..] = &mut memory.areas;
    let table = table.lend(case[0].bytes(), memory.side);
    let out = out.lend(case[10].bytes(), memory.side);
    let [member, encrypted, secret_key, nonce] = [6, 7, 8, 9].map(|k| case[k].word());
    let answer = tadlovimpe::write_added(
        table,
        round(case),
        member,
        encrypted,
        secret_key,
        nonce,
        out,
    );
    Answer::of(number(&answer)).with_out(Figure::Bytes(out.to_vec()))
}

pub fn judge_added(case: &Case, memory: &mut Memory) -> Answer {
    let [table, share, ..] = &mut memory.areas;
    let table = &*table.lend(case[0].bytes(), memory.side);
    let share = &*share.lend(case[9].bytes(), memory.side);
    let [member, key, encrypted] = [6, 7, 8].map(|k| case[k].word());
    let answer = unsafe {
        raw::tadlovimpe_judge_added(
            table.as_ptr(),
            table.len(),
            round(case),
            member,
            key,
            encrypted,
            share.as_ptr(),
            share.len(),
        )
    };
    let safe = tadlovimpe::judge_added(table, round(case), member, key, encrypted, share);
    valued(answer, safe)
}

pub fn lines_check(case: &Case, memory: &mut Memory) -> Answer {
    let [table, board, ..] = &mut memory.areas;
    let table = table.lend(case[0].bytes(), memory.side);
    let board = board.lend(case[7].bytes(), memory.side);
    Answer::of(number(&tadlovimpe::lines_check(
        table,
        round(case),
        case[6].word(),
        board,
    )))
}

pub fn dealer_lines(case: &Case, memory: &mut Memory) -> Answer {
    let [table, board, ..] = &mut memory.areas;
    let table = &*table.lend(case[0].bytes(), memory.side);
    let board = &*board.lend(case[7].bytes(), memory.side);
    let dealer = case[6].word();
    let part = unsafe {
        raw::tadlovimpe_dealer_lines(
            table.as_ptr(),
            table.len(),
            round(case),
            dealer,
            board.as_ptr(),
            board.len(),
        )
    };
    let told = if part.refusal == 0 {
        Ok(&board[part.start..part.start + part.length])
    } else {
        Err(part.refusal)
    };
    let safe = tadlovimpe::dealer_lines(table, round(case), dealer, board);
    assert_eq!(told, safe, "the safe function answers otherwise");
    Answer {
        fields: vec![part.start as u32, part.length as u32],
        ..Answer::of(part.refusal)
    }
}

pub fn judge_board(case: &Case, memory: &mut Memory) -> Answer {
    let [table, board, ..] = &mut memory.areas;
    let table = &*table.lend(case[0].bytes(), memory.side);
    let board = &*board.lend(case[6].bytes(), memory.side);
    let judged = unsafe {
        raw::tadlovimpe_judge_board(
            table.as_ptr(),
            table.len(),
            round(case),
            board.as_ptr(),
            board.len(),
        )
    };
    let safe = tadlovimpe::judge_board(table, round(case), board);
    let mut fields = vec![judged.value, judged.accepted];
    for (verdict, safe) in judged.verdicts.iter().zip(safe.verdicts) {
        let told = match (verdict.kind, verdict.value) {
            (0, _) => Verdict::None,
            (1, number) => Verdict::Refused(number),
            (2, secret) => Verdict::Opened(secret),
            (3, secret) => Verdict::Recovered(secret),
            _ => Verdict::Stuck,
        };
        assert_eq!(told, safe, "the safe function answers otherwise");
        fields.extend([verdict.kind, verdict.value]);
    }
    let told = if judged.refusal == 0 {
        Ok(judged.value)
    } else {
        Err(judged.refusal)
    };
    let safe = (safe.draw, safe.accepted);
    assert_eq!(
        (told, judged.accepted),
        safe,
        "the safe function answers otherwise"
    );
    Answer {
        fields,
        ..Answer::of(judged.refusal)
    }
}

pub fn draw_text(case: &Case, memory: &mut Memory) -> Answer {
    let [table, set, board, out, ..] = &mut memory.areas;
    let table = &*table.lend(case[0].bytes(), memory.side);
    let set = &*set.lend(case[1].bytes(), memory.side);
    let board = &*board.lend(case[2].bytes(), memory.side);
    let out = out.lend(case[3].bytes(), memory.side);
    let length = unsafe {
        raw::tadlovimpe_draw_text(
            table.as_ptr(),
            table.len(),
            set.as_ptr(),
            set.len(),
            board.as_ptr(),
            board.len(),
            out.as_mut_ptr().cast(),
        )
    };
    Answer {
        fields: vec![length as u32],
        ..Answer::of(0)
    }
    .with_out(Figure::Bytes(out.to_vec()))
}

pub fn pick_plots(case: &Case, memory: &mut Memory) -> Answer {
    let [table, out, ..] = &mut memory.areas;
    let table = table.lend(case[0].bytes(), memory.side);
    let out = out.lend(case[6].words(), memory.side);
    let [group, value, radius, total, count] = [1, 2, 3, 4, 5].map(|k| case[k].word());
    let answer = tadlovimpe::pick_plots(table, group, value, radius, total, count, out);
    Answer::of(number(&answer)).with_out(Figure::Words(out.to_vec()))
}

pub fn judge_chain(case: &Case, memory: &mut Memory) -> Answer {
    let [table, chain, ..] = &mut memory.areas;
    let table = table.lend(case[0].bytes(), memory.side);
    let chain = chain.lend(case[1].bytes(), memory.side);
    Answer::of(number(&tadlovimpe::judge_chain(table, chain)))
}

pub fn extend_chain(case: &Case, memory: &mut Memory) -> Answer {
    let [table, chain, out, ..] = &mut memory.areas;
    let table = table.lend(case[0].bytes(), memory.side);
    let chain = chain.lend(case[1].bytes(), memory.side);
    let out = out.lend(case[4].bytes(), memory.side);
    let answer = tadlovimpe::extend_chain(table, chain, case[2].word(), case[3].word(), out);
    Answer::of(number(&answer)).with_out(Figure::Bytes(out.to_vec()))
}
