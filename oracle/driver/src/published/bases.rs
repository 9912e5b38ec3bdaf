// SPDX-FileCopyrightText: 2026 The PPVM Authors
// SPDX-License-Identifier: Apache-2.0

//! Prune, cap and admission.

use super::{RustWord, port_word, rust_word};
use crate::port::Word;
use ppvm_lindblad::open;

/// A basis as the Rust has it.
#[derive(Clone)]
pub struct RustBasis {
    pub(super) words: Vec<RustWord>,
    pub(super) coeffs: Vec<f64>,
}

/// Words for the Rust, in a register that is accepted.
pub fn rust_words(n_qubits: usize, words: &[Word]) -> Vec<RustWord> {
    words.iter().map(|&w| rust_word(n_qubits, w)).collect()
}

impl RustBasis {
    pub fn new(n_qubits: usize, entries: &[(Word, f64)]) -> Self {
        let (words, coeffs): (Vec<Word>, Vec<f64>) = entries.iter().copied().unzip();
        Self {
            words: rust_words(n_qubits, &words),
            coeffs,
        }
    }

    pub fn len(&self) -> usize {
        self.words.len()
    }

    pub fn entries(&self) -> Vec<(Word, f64)> {
        let words = self.words.iter().map(port_word);
        words.zip(self.coeffs.iter().copied()).collect()
    }

    #[inline(always)]
    pub fn prune(&mut self, drop_tol: f64, protected: &[RustWord]) {
        open::prune_basis(&mut self.words, &mut self.coeffs, drop_tol, protected);
    }

    #[inline(always)]
    pub fn cap(&mut self, limit: usize, protected: &[RustWord]) {
        open::cap_basis(&mut self.words, &mut self.coeffs, limit, protected);
    }

    pub fn admit(&mut self, n_qubits: usize, listed: &[(Word, f64)], limit: usize) {
        let word = |&(w, value): &(Word, f64)| (rust_word(n_qubits, w), value);
        let leak = listed.iter().map(word).collect();
        open::add_leakage_capped(&mut self.words, &mut self.coeffs, leak, limit);
    }
}
