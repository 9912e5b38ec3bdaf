// SPDX-FileCopyrightText: 2026 The PPVM Authors
// SPDX-License-Identifier: Apache-2.0

//! The action of a model on a word.

use super::models::RustModel;
use super::{port_word, rust_word};
use crate::port::Word;
use crate::rules::order;
use ppvm_lindblad::open::{self, ActionScratch};

/// What the Rust lists, in word order.
pub fn compute_action_terms(model: &RustModel, p: Word) -> Vec<(Word, f64)> {
    let p = rust_word(model.n_qubits(), p);
    let terms = open::compute_action_terms(model, &p, &mut ActionScratch::default());
    let term = |(word, value): &(_, f64)| (port_word(word), *value);
    let mut terms: Vec<(Word, f64)> = terms.iter().map(term).collect();
    terms.sort_by(|(p, _), (q, _)| order(*p, *q));
    terms
}
