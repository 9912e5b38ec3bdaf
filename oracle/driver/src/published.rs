// SPDX-FileCopyrightText: 2026 The PPVM Authors
// SPDX-License-Identifier: Apache-2.0

//! The published Rust, asked and answering in the port's structs.

pub mod actions;
pub mod bases;
pub mod generators;
pub mod leakages;
pub mod matrices;
pub mod models;
pub mod norms;

use crate::port::{Commutator, LANES, Parsed, Phased, Status, Word};
use ppvm_lindblad::{Error, open};

/// The published word, with as many chunks as the port's has lanes.
pub type RustWord = ppvm_lindblad::Word<LANES>;

/// The published word on `n_qubits` qubits. The qubits above them must have no letter.
pub fn rust_word(n_qubits: usize, word: Word) -> RustWord {
    open::word_from_lanes(n_qubits, word.x, word.z)
}

fn port_word(word: &RustWord) -> Word {
    Word {
        x: word.xbits.data,
        z: word.zbits.data,
    }
}

/// The number and values that document 01 gives for an error. The error of a letter does not tell
/// its place.
fn status(error: &Error) -> Status {
    let (refusal, first, second) = match *error {
        Error::TooManyQubits { got, max } => (1, got as u64, max as u64),
        Error::WrongLength { expected, got } => (2, expected as u64, got as u64),
        Error::InvalidPauliChar { c } => (3, c as u64, 0),
        Error::InvalidPauliCode { code } => (4, code as u64, 0),
        Error::NegativeRate { index, .. } => (5, index as u64, 0),
        Error::EmptyLincomb { index } => (6, index as u64, 0),
        Error::KMatrixNotHermitian { n, m } => (10, n as u64, m as u64),
        _ => unreachable!("no error of words, models and matrices: {error:?}"),
    };
    Status {
        refusal,
        first,
        second,
    }
}

/// The place of the letter that the Rust refused: where it first stands, since the Rust stops at
/// the first that it cannot read.
fn place_of(letter: char, text: &str) -> u64 {
    let mut kept = text.chars().filter(|&c| c != '_');
    kept.position(|c| c == letter)
        .expect("a refused letter is in the text") as u64
}

fn parsed(answer: Result<RustWord, Error>) -> Parsed {
    match answer {
        Ok(word) => Parsed {
            status: Status::default(),
            word: port_word(&word),
        },
        Err(error) => Parsed {
            status: status(&error),
            word: Word::default(),
        },
    }
}

pub fn parse_pauli_string(text: &str, n_qubits: usize) -> Parsed {
    let answer = ppvm_lindblad::parse_pauli_string(text, n_qubits).map(|(word, _)| word);
    let refused = match answer {
        Err(Error::InvalidPauliChar { c }) => Some(c),
        _ => None,
    };
    let mut parsed = parsed(answer);
    if let Some(letter) = refused {
        parsed.status.second = place_of(letter, text);
    }
    parsed
}

pub fn word_from_codes(codes: &[u8]) -> Parsed {
    parsed(ppvm_lindblad::word_from_codes(codes))
}

/// The codes of a word's first `n_qubits` qubits, above which it must have no letter.
pub fn codes_from_word(word: Word, n_qubits: usize) -> Vec<u8> {
    let mut out = vec![0; n_qubits];
    ppvm_lindblad::codes_from_word(&rust_word(n_qubits, word), &mut out);
    out
}

pub fn pauli_mul(p: &RustWord, q: &RustWord) -> Phased {
    let (word, phase) = open::pauli_mul(p, q);
    Phased {
        word: port_word(&word),
        phase: phase.into(),
    }
}

pub fn comm_product(h: &RustWord, p: &RustWord) -> Commutator {
    let (word, eps) = open::comm_product(h, p);
    Commutator {
        word: port_word(&word),
        eps,
    }
}

/// Whether the supports of two words meet. The Rust asks so by an index over qubits.
pub fn shares_qubit(p: &RustWord, q: &RustWord) -> bool {
    let support = open::word_support(q);
    open::word_support(p)
        .iter()
        .any(|qubit| support.contains(qubit))
}
