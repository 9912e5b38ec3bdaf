// SPDX-FileCopyrightText: 2026 The PPVM Authors
// SPDX-License-Identifier: Apache-2.0

//! Leakage of a chain of qubits out of bases of words of at most four letters, each on six neighbouring
//! qubits, with random coefficients and the largest limit: a basis of that size has no room left.
//!
//! The Rust confuses words of one hash, so where there is room for all both sides list nearly as many
//! words; where there is room for fewer, as many.

use super::Side;
use crate::inputs::Rng;
use crate::inputs::actions as action_inputs;
use crate::inputs::models as model_inputs;
use crate::port::Word;
use crate::port::leakages::{self as port, Given, Limits};
use crate::port::models::{build_model, model_sizes};
use crate::published::models::RustItems;
use crate::published::{RustWord, rust_word};
use crate::rules::actions::MAX_WORDS;

const ROUNDS: usize = 9;

/// Words that one action touches, and candidates held at a time: enough here.
const TOUCHED: usize = 1024;
const CANDIDATES: usize = 1 << 17;

/// Whether both sides listed as many words, but for those of one hash.
pub fn bench(seed: u64, n_qubits: usize) -> bool {
    let rng = &mut Rng::new(seed);
    let mut alike = true;
    for count in [4096, 16_384, 32_768, 61_440, MAX_WORDS] {
        let words = action_inputs::local_words(rng, n_qubits, count);
        alike &= leak(rng, n_qubits, &words);
    }
    alike
}

fn leak(rng: &mut Rng, n_qubits: usize, words: &[Word]) -> bool {
    let count = words.len();
    let items = action_inputs::chain(rng, n_qubits, None);
    let rust_items = RustItems::new(&items).expect("texts are ASCII");
    let rust_model = rust_items.build().expect("it is accepted");
    let rust_words: Vec<RustWord> = words.iter().map(|&p| rust_word(n_qubits, p)).collect();
    let sizes = model_sizes(items.hamiltonian.len(), items.jumps.len(), items.longest());
    let mut lent = model_inputs::lent(rng, sizes);
    let model = build_model(&items.flat(), n_qubits, &mut lent).model;
    let given = Given {
        words: words.iter().flat_map(|p| p.lanes()).collect(),
        coeffs: (0..count)
            .map(|_| 0.5 - rng.below(1 << 40) as f64 / (1u64 << 40) as f64)
            .collect(),
        len: count,
        protected: Vec::new(),
        limits: Limits {
            max_basis: MAX_WORDS,
            ..Limits::default()
        },
    };
    let lengths = port::leakage_sizes(n_qubits, count, 0, TOUCHED, CANDIDATES);
    let mut room = port::LeakRoom::of(&lengths, MAX_WORDS);

    let mut rust = Side::new("Rust");
    let mut port = Side::new("port");
    for _ in 0..ROUNDS {
        rust.all(count, || {
            let list =
                rust_model.leakage_with_prune(&rust_words, &given.coeffs, &[], MAX_WORDS, 0.0);
            list.expect("it is accepted").len() as u64
        });
        port.all(count, || {
            port::leakage_with_prune(model, &lent, &given, &mut room).count as u64
        });
    }
    println!(
        "leakage, n = {n_qubits}, {count} words, limit {MAX_WORDS}, for each word, best of {ROUNDS} \
         rounds:"
    );
    for side in [&rust, &port] {
        side.print();
    }
    port.print_ratio(&rust);
    port.checksum.abs_diff(rust.checksum) * 50 <= port.checksum
}
