// SPDX-FileCopyrightText: 2026 The PPVM Authors
// SPDX-License-Identifier: Apache-2.0

//! Leakage.

use super::bases::RustBasis;
use super::models::RustModel;
use super::{RustWord, port_word, rust_word};
use crate::port::Word;
use crate::rules::order;
use ppvm_lindblad::open;
use std::collections::BTreeSet;

/// What the Rust lists, in its own order.
#[inline(always)]
pub fn listed(
    model: &RustModel,
    basis: &RustBasis,
    protected: &[RustWord],
    limit: usize,
    tau_add: f64,
) -> Vec<(RustWord, f64)> {
    model
        .leakage_with_prune(&basis.words, &basis.coeffs, protected, limit, tau_add)
        .expect("a coefficient for each word")
}

/// The list in word order.
pub fn in_order(list: &[(RustWord, f64)]) -> Vec<(Word, f64)> {
    let entry = |(word, sum): &(RustWord, f64)| (port_word(word), *sum);
    let mut list: Vec<(Word, f64)> = list.iter().map(entry).collect();
    list.sort_by(|(p, _), (q, _)| order(*p, *q));
    list
}

/// Words that share their hash with none of these, which is all that the Rust looks at.
pub fn outside_by_hash(
    n_qubits: usize,
    basis: &[Word],
    protected: &[Word],
) -> impl Fn(Word) -> bool + use<> {
    let hash = move |w: &Word| open::word_hash(&rust_word(n_qubits, *w));
    let hashes: BTreeSet<u64> = basis.iter().chain(protected).map(hash).collect();
    move |w| !hashes.contains(&hash(&w))
}
