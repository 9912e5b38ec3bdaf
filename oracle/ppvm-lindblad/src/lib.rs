// SPDX-FileCopyrightText: 2026 The PPVM Authors
// SPDX-License-Identifier: Apache-2.0

//! A crate root for the eleven published files of ppvm-lindblad.
//!
//! The published root was not at hand. This one declares the files as modules, unchanged, and has
//! what they ask of their root: `Error`, the names that they import from it, and `sector`. `open`
//! is ours, and lets the driver call what the files keep to the crate.

mod algebra;
mod basis;
mod config;
#[rustfmt::skip] // published with a blank last line
mod expm;
mod kossakowski;
mod mf_expm;
mod scalar;
mod spec;
mod step;
#[rustfmt::skip] // published with a blank last line
mod truncate;
mod word;

pub mod open;
pub mod sector;

pub use basis::build_basis_index;
pub use config::PcStepConfig;
pub use spec::{JumpInput, LindbladSpec};
pub use step::PcStepTimings;
pub use word::{
    CHUNK_BITS, MAX_QUBITS, MAX_SUPPORTED_QUBITS, W_CHUNKS, WIDTHS, Word, chunks_for,
    codes_from_word, max_qubits, parse_pauli_string, word_from_codes,
};

/// Why an input is refused: the variants and fields that the published files name.
#[derive(Clone, Debug, PartialEq)]
pub enum Error {
    TooManyQubits {
        got: usize,
        max: usize,
    },
    WrongLength {
        expected: usize,
        got: usize,
    },
    InvalidPauliChar {
        c: char,
    },
    InvalidPauliCode {
        code: u8,
    },
    NegativeRate {
        index: usize,
        rate: f64,
    },
    EmptyLincomb {
        index: usize,
    },
    LengthMismatch {
        what: &'static str,
        a: usize,
        b: usize,
    },
    KMatrixRowLength {
        row: usize,
        expected: usize,
        got: usize,
    },
    KMatrixNotHermitian {
        n: usize,
        m: usize,
    },
    Internal(String),
}
