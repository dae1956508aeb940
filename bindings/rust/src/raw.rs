//! The functions and their answers as `include/tadlovimpe.h` has them, for tests that look at every field. Programs take the functions
//! above this module. What a caller owes is said in the header.

use crate::{Proof, Round, DIGEST_BYTES, MAX_MEMBERS, TEXT_BYTES};

/// A value, or a refusal.
#[repr(C)]
#[derive(Clone, Copy, Debug, PartialEq, Eq)]
pub struct Answer {
    pub refusal: u32,
    pub value: u32,
}

/// A part of the lent board, in bytes from its start.
#[repr(C)]
#[derive(Clone, Copy, Debug, PartialEq, Eq)]
pub struct Part {
    pub refusal: u32,
    pub start: usize,
    pub length: usize,
}

/// A verdict; its kind is one of [`kind`].
#[repr(C)]
#[derive(Clone, Copy, Debug, PartialEq, Eq)]
pub struct VerdictFigures {
    pub kind: u32,
    pub value: u32,
}

/// A judged board.
#[repr(C)]
#[derive(Clone, Copy, Debug, PartialEq, Eq)]
pub struct BoardAnswer {
    pub refusal: u32,
    pub value: u32,
    pub accepted: u32,
    pub verdicts: [VerdictFigures; MAX_MEMBERS],
}

/// The kinds of verdicts.
pub mod kind {
    pub const NONE: u32 = 0;
    pub const REFUSED: u32 = 1;
    pub const OPENED: u32 = 2;
    pub const RECOVERED: u32 = 3;
    pub const STUCK: u32 = 4;
}

extern "C" {
    pub fn tadlovimpe_digest(
        message: *const u8,
        message_len: usize,
        out: *mut [u8; DIGEST_BYTES],
    ) -> u32;

    pub fn tadlovimpe_power(
        table: *const u8,
        table_len: usize,
        group: u32,
        base: u32,
        exponent: u32,
    ) -> Answer;

    pub fn tadlovimpe_equality_check(
        table: *const u8,
        table_len: usize,
        group: u32,
        proof: Proof,
    ) -> u32;

    pub fn tadlovimpe_degree_check(
        table: *const u8,
        table_len: usize,
        round: Round,
        commitments: *const u32,
        commitments_len: usize,
        coefficients: *const u32,
        coefficients_len: usize,
    ) -> u32;

    pub fn tadlovimpe_opening(
        table: *const u8,
        table_len: usize,
        round: Round,
        commitments: *const u32,
        commitments_len: usize,
        s: u32,
    ) -> u32;

    pub fn tadlovimpe_recovery(
        table: *const u8,
        table_len: usize,
        round: Round,
        members: *const u32,
        members_len: usize,
        shares: *const u32,
        shares_len: usize,
    ) -> Answer;

    pub fn tadlovimpe_write_dealing(
        table: *const u8,
        table_len: usize,
        round: Round,
        dealer: u32,
        keys: *const u32,
        keys_len: usize,
        coefficients: *const u32,
        coefficients_len: usize,
        nonces: *const u32,
        nonces_len: usize,
        out: *mut u8,
        out_len: usize,
    ) -> u32;

    pub fn tadlovimpe_judge_dealing(
        table: *const u8,
        table_len: usize,
        round: Round,
        dealer: u32,
        keys: *const u32,
        keys_len: usize,
        lines: *const u8,
        lines_len: usize,
    ) -> u32;

    pub fn tadlovimpe_write_share(
        table: *const u8,
        table_len: usize,
        round: Round,
        dealer: u32,
        member: u32,
        encrypted: u32,
        secret_key: u32,
        nonce: u32,
        out: *mut u8,
        out_len: usize,
    ) -> u32;

    pub fn tadlovimpe_judge_share(
        table: *const u8,
        table_len: usize,
        round: Round,
        dealer: u32,
        member: u32,
        key: u32,
        encrypted: u32,
        share: *const u8,
        share_len: usize,
    ) -> Answer;

    pub fn tadlovimpe_write_added(
        table: *const u8,
        table_len: usize,
        round: Round,
        member: u32,
        encrypted: u32,
        secret_key: u32,
        nonce: u32,
        out: *mut u8,
        out_len: usize,
    ) -> u32;

    pub fn tadlovimpe_judge_added(
        table: *const u8,
        table_len: usize,
        round: Round,
        member: u32,
        key: u32,
        encrypted: u32,
        share: *const u8,
        share_len: usize,
    ) -> Answer;

    pub fn tadlovimpe_lines_check(
        table: *const u8,
        table_len: usize,
        round: Round,
        dealer: u32,
        board: *const u8,
        board_len: usize,
    ) -> u32;

    pub fn tadlovimpe_dealer_lines(
        table: *const u8,
        table_len: usize,
        round: Round,
        dealer: u32,
        board: *const u8,
        board_len: usize,
    ) -> Part;

    pub fn tadlovimpe_judge_board(
        table: *const u8,
        table_len: usize,
        round: Round,
        board: *const u8,
        board_len: usize,
    ) -> BoardAnswer;

    pub fn tadlovimpe_draw_text(
        table: *const u8,
        table_len: usize,
        set: *const u8,
        set_len: usize,
        board: *const u8,
        board_len: usize,
        out: *mut [u8; TEXT_BYTES],
    ) -> usize;

    pub fn tadlovimpe_pick_plots(
        table: *const u8,
        table_len: usize,
        group: u32,
        value: u32,
        radius: u32,
        total: u32,
        count: u32,
        out: *mut u32,
        out_len: usize,
    ) -> u32;

    pub fn tadlovimpe_judge_chain(
        table: *const u8,
        table_len: usize,
        chain: *const u8,
        chain_len: usize,
    ) -> u32;

    pub fn tadlovimpe_extend_chain(
        table: *const u8,
        table_len: usize,
        chain: *const u8,
        chain_len: usize,
        group: u32,
        value: u32,
        out: *mut u8,
        out_len: usize,
    ) -> u32;
}
