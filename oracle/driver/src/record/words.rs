// SPDX-FileCopyrightText: 2026 The PPVM Authors
// SPDX-License-Identifier: Apache-2.0

//! Words: texts, codes, products.

use super::Line;
use crate::inputs::{self, Rng};
use crate::port::Parsed;
use crate::published::{self, rust_word};
use crate::rules::MAX_QUBITS;
use ppvm_lindblad::open;

pub fn record(seed: u64, cases: usize, from: usize) {
    let rng = &mut Rng::new(seed);
    let mut each = |case: fn(&mut Rng, usize) -> Line| {
        for place in 0..cases {
            let n_qubits = inputs::register_from(rng, place, from);
            case(rng, n_qubits).print();
        }
    };
    println!(
        "# 1 n_qubits text_len byte.. refusal first second, the lanes of the word: those of x, then of z"
    );
    each(text);
    println!("# 2 count code.. refusal first second, the lanes of the word");
    each(codes_read);
    println!("# 3 the lanes of a word, n_qubits code..");
    each(codes_written);
    println!("# 4 the lanes of p, of q and of their product, phase anti eps");
    each(product);
}

impl Line {
    fn parsed(self, Parsed { status, word }: Parsed) -> Self {
        self.number(status.refusal)
            .number(status.first)
            .number(status.second)
            .word(word)
    }
}

fn text(rng: &mut Rng, n_qubits: usize) -> Line {
    let text = inputs::ascii_text(rng, n_qubits);
    let as_str = std::str::from_utf8(&text).expect("ASCII is UTF-8");
    Line::new(1)
        .number(n_qubits as u64)
        .number(text.len() as u64)
        .bytes(&text)
        .parsed(published::parse_pauli_string(as_str, n_qubits))
}

fn codes_read(rng: &mut Rng, n_qubits: usize) -> Line {
    let codes = inputs::codes(rng, n_qubits);
    Line::new(2)
        .number(codes.len() as u64)
        .bytes(&codes)
        .parsed(published::word_from_codes(&codes))
}

fn codes_written(rng: &mut Rng, n_qubits: usize) -> Line {
    let n_qubits = n_qubits.min(MAX_QUBITS);
    let word = inputs::word(rng, n_qubits);
    Line::new(3)
        .word(word)
        .number(n_qubits as u64)
        .bytes(&published::codes_from_word(word, n_qubits))
}

fn product(rng: &mut Rng, n_qubits: usize) -> Line {
    let n_qubits = n_qubits.min(MAX_QUBITS);
    let (p, q) = inputs::pair(rng, n_qubits);
    let (rust_p, rust_q) = (rust_word(n_qubits, p), rust_word(n_qubits, q));
    let product = published::pauli_mul(&rust_p, &rust_q);
    Line::new(4)
        .word(p)
        .word(q)
        .word(product.word)
        .number(product.phase.into())
        .number(open::anti_commutes(&rust_p, &rust_q).into())
        .number(published::comm_product(&rust_p, &rust_q).eps.to_bits())
}
