// SPDX-FileCopyrightText: 2026 The PPVM Authors
// SPDX-License-Identifier: Apache-2.0

//! Document 01 in plain Rust, letter by letter.
//!
//! Written from the document and from neither side, to decide where the two may differ and where
//! the Rust cannot be asked. A word is taken apart into its letters first; only `order` looks at
//! lanes.

pub mod actions;
pub mod bases;
pub mod generators;
pub mod leakages;
pub mod matrices;
pub mod models;
pub mod norms;
pub mod products;

use crate::port::{Commutator, Fitting, LANES, Parsed, Phased, Status, Word};
use std::cmp::Ordering;

pub const MAX_QUBITS: usize = 64 * LANES;

/// The letter of each code.
const LETTERS: [u8; 4] = *b"IXZY";

pub fn refusal(number: u64, first: usize, second: usize) -> Status {
    Status {
        refusal: number,
        first: first as u64,
        second: second as u64,
    }
}

fn refused(status: Status) -> Parsed {
    Parsed {
        status,
        word: Word::default(),
    }
}

/// The word with the given letters, qubit 0 first.
pub fn word_of(letters: &[u8]) -> Word {
    let mut word = Word::default();
    for (qubit, letter) in letters.iter().enumerate() {
        let bit = 1 << (qubit % 64);
        if b"XY".contains(letter) {
            word.x[qubit / 64] |= bit;
        }
        if b"ZY".contains(letter) {
            word.z[qubit / 64] |= bit;
        }
    }
    word
}

/// The letters of all qubits that a word has.
pub fn letters_of(word: Word) -> [u8; MAX_QUBITS] {
    std::array::from_fn(|qubit| {
        let bit = |lanes: [u64; LANES]| lanes[qubit / 64] >> (qubit % 64) & 1 == 1;
        match (bit(word.x), bit(word.z)) {
            (false, false) => b'I',
            (true, false) => b'X',
            (false, true) => b'Z',
            (true, true) => b'Y',
        }
    })
}

pub fn parse_pauli_string(text: &[u8], n_qubits: usize) -> Parsed {
    let kept: Vec<u8> = text.iter().copied().filter(|&byte| byte != b'_').collect();
    let first = |test: fn(&u8) -> bool| kept.iter().position(test);
    let bad_byte = |place: usize| refused(refusal(3, kept[place].into(), place));
    if n_qubits > MAX_QUBITS {
        refused(refusal(1, n_qubits, MAX_QUBITS))
    } else if let Some(place) = first(|byte| *byte >= 128) {
        bad_byte(place)
    } else if kept.len() != n_qubits {
        refused(refusal(2, n_qubits, kept.len()))
    } else if let Some(place) = first(|byte| !LETTERS.contains(byte)) {
        bad_byte(place)
    } else {
        Parsed {
            status: Status::default(),
            word: word_of(&kept),
        }
    }
}

pub fn word_from_codes(codes: &[u8]) -> Parsed {
    if codes.len() > MAX_QUBITS {
        return refused(refusal(1, codes.len(), MAX_QUBITS));
    }
    if let Some(&code) = codes.iter().find(|&&code| code > 3) {
        return refused(refusal(4, code.into(), 0));
    }
    let letters: Vec<u8> = codes.iter().map(|&code| LETTERS[code as usize]).collect();
    Parsed {
        status: Status::default(),
        word: word_of(&letters),
    }
}

pub fn codes_from_word(word: Word, n_qubits: usize, out: &mut [u8]) -> Status {
    if n_qubits > MAX_QUBITS {
        return refusal(1, n_qubits, MAX_QUBITS);
    }
    if out.len() < n_qubits {
        return refusal(9, n_qubits, out.len());
    }
    if !fits_register(word, n_qubits) {
        return refusal(11, 0, 0);
    }
    let code = |letter| {
        LETTERS
            .iter()
            .position(|l| l == letter)
            .expect("a letter has a code")
    };
    for (slot, letter) in out.iter_mut().zip(&letters_of(word)[..n_qubits]) {
        *slot = code(letter) as u8;
    }
    Status::default()
}

/// The letter table: p q is i^phase times a letter.
fn letter_product(p: u8, q: u8) -> (u8, u32) {
    match (p, q) {
        (b'I', letter) | (letter, b'I') => (letter, 0),
        (b'X', b'Y') => (b'Z', 1),
        (b'Y', b'Z') => (b'X', 1),
        (b'Z', b'X') => (b'Y', 1),
        (b'Y', b'X') => (b'Z', 3),
        (b'Z', b'Y') => (b'X', 3),
        (b'X', b'Z') => (b'Y', 3),
        _ => (b'I', 0),
    }
}

pub fn pauli_mul(p: Word, q: Word) -> Phased {
    let (p, q) = (letters_of(p), letters_of(q));
    let products: Vec<(u8, u32)> = p
        .iter()
        .zip(&q)
        .map(|(&p, &q)| letter_product(p, q))
        .collect();
    let letters: Vec<u8> = products.iter().map(|product| product.0).collect();
    let phase = products.iter().map(|product| product.1).sum::<u32>() % 4;
    Phased {
        word: word_of(&letters),
        phase,
    }
}

pub fn anti_commutes(p: Word, q: Word) -> bool {
    pauli_mul(p, q).phase % 2 == 1
}

pub fn comm_product(h: Word, p: Word) -> Commutator {
    let Phased { word, phase } = pauli_mul(h, p);
    let eps = match phase {
        1 => -2.0,
        3 => 2.0,
        _ => 0.0,
    };
    Commutator { word, eps }
}

pub fn order(p: Word, q: Word) -> Ordering {
    p.lanes().cmp(&q.lanes())
}

pub fn shares_qubit(p: Word, q: Word) -> bool {
    letters_of(p)
        .iter()
        .zip(&letters_of(q))
        .any(|(&p, &q)| p != b'I' && q != b'I')
}

pub fn fits_register(word: Word, n_qubits: usize) -> bool {
    letters_of(word)
        .iter()
        .skip(n_qubits)
        .all(|&letter| letter == b'I')
}

pub fn fitting(word: Word, n_qubits: usize) -> Fitting {
    if n_qubits > MAX_QUBITS {
        return Fitting {
            status: refusal(1, n_qubits, MAX_QUBITS),
            fits: false,
        };
    }
    Fitting {
        status: Status::default(),
        fits: fits_register(word, n_qubits),
    }
}
