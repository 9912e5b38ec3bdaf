// SPDX-FileCopyrightText: 2026 The PPVM Authors
// SPDX-License-Identifier: Apache-2.0

//! Words: the Pauli product.
//!
//! The Rust is inlined here as in its own crate, and also keeps each word's hash (a stand-in). The
//! port is called by its C interface. To tell the price of the call from the price of the product,
//! the Rust is timed behind the same call as well.

use super::Side;
use crate::inputs::{self, Rng};
use crate::port::{self, Phased, Word};
use crate::published::{self, RustWord, rust_word};
use crate::rules::MAX_QUBITS;
use ppvm_lindblad::open;
use std::hint::black_box;

const PAIRS: usize = 4096;
const ROUNDS: usize = 2000;

fn digest(word: Word, phase: u32) -> u64 {
    let lanes = word.lanes().into_iter();
    lanes.fold(u64::from(phase), |all, lane| all ^ lane)
}

/// The Rust's product behind the port's C call.
#[inline(never)]
extern "C" fn called_pauli_mul(p: Word, q: Word) -> Phased {
    published::pauli_mul(&rust_word(MAX_QUBITS, p), &rust_word(MAX_QUBITS, q))
}

/// Whether both sides gave the same answers.
pub fn bench(seed: u64, n_qubits: usize) -> bool {
    let rng = &mut Rng::new(seed);
    let pairs: Vec<(Word, Word)> = (0..PAIRS)
        .map(|_| (inputs::word(rng, n_qubits), inputs::word(rng, n_qubits)))
        .collect();
    let rust_pairs: Vec<(RustWord, RustWord)> = pairs
        .iter()
        .map(|&(p, q)| (rust_word(n_qubits, p), rust_word(n_qubits, q)))
        .collect();

    let mut rust = Side::new("Rust");
    let mut called = Side::new("Rust behind the same call");
    let mut port = Side::new("port");
    for _ in 0..ROUNDS {
        rust.round(&rust_pairs, |(p, q)| {
            let (word, phase) = black_box(open::pauli_mul(p, q));
            digest(
                Word {
                    x: word.xbits.data,
                    z: word.zbits.data,
                },
                phase.into(),
            )
        });
        called.round(&pairs, |&(p, q)| {
            let answer = black_box(called_pauli_mul(p, q));
            digest(answer.word, answer.phase)
        });
        port.round(&pairs, |&(p, q)| {
            let answer = black_box(port::pauli_mul(p, q));
            digest(answer.word, answer.phase)
        });
    }

    println!("pauli_mul, n = {n_qubits}, {PAIRS} pairs, best of {ROUNDS} rounds:");
    for side in [&rust, &called, &port] {
        side.print();
    }
    port.print_ratio(&rust);
    port.print_ratio(&called);
    rust.checksum == port.checksum
}
